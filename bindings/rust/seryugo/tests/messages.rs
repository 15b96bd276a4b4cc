//! Values of each type as bytes, and back.

use seryugo::{Message, Switchboard};
use std::collections::{BTreeMap, HashMap};
use std::fmt::Debug;
use std::sync::Arc;

fn bytes_of(message: &impl Message) -> Vec<u8> {
    let mut bytes = b"before".to_vec();
    message.write_to(&mut bytes);
    assert_eq!(&bytes[..6], b"before", "a message is written behind what is there");
    message.with_bytes(|same| assert_eq!(same, &bytes[6..]));
    bytes.split_off(6)
}

/// The value is these bytes, and is read back from them: by itself, and by a mailbox, a variable
/// and a port of its type.
fn is<T: Message + PartialEq + Debug>(message: T, bytes: &[u8]) {
    assert_eq!(bytes_of(&message), bytes, "{message:?}");
    assert_eq!(T::from_bytes(bytes).as_ref(), Some(&message));
    let board = Switchboard::new(100).unwrap();
    let mut seat = board.seat().unwrap();
    let mailbox = seat.mailbox::<T>().unwrap();
    let channel = seat.channel::<T>().unwrap();
    let port = seat.port(channel).unwrap();
    let variable = seat.ivar::<T>().unwrap();
    seat.send(mailbox, &message).unwrap();
    seat.multicast(channel, &message).unwrap();
    assert_eq!(seat.put(variable, &message), Ok(true));
    assert_eq!(seat.recv(mailbox).as_ref(), Ok(&message));
    assert_eq!(seat.recv(port).unwrap().as_ref(), Some(&message));
    assert_eq!(seat.get(variable).as_ref(), Ok(&message));
    assert_eq!(board.held(variable).unwrap().as_ref(), Some(&message));
}

#[test]
fn numbers_have_their_lowest_byte_first() {
    is(0_u8, &[0]);
    is(u8::MAX, &[255]);
    is(0x0102_u16, &[2, 1]);
    is(0x0102_0304_u32, &[4, 3, 2, 1]);
    is(u64::MAX, &[255; 8]);
    is(5_u64, &[5, 0, 0, 0, 0, 0, 0, 0]);
    is(u128::MAX - 1, &[&[254][..], &[255; 15]].concat());
    is(i8::MIN, &[128]);
    is(-2_i16, &[254, 255]);
    is(i32::MIN, &[0, 0, 0, 128]);
    is(-1_i64, &[255; 8]);
    is(i128::MIN, &[&[0; 15][..], &[128]].concat());
    is(7_usize, &[7, 0, 0, 0, 0, 0, 0, 0]);
    is(-7_isize, &[249, 255, 255, 255, 255, 255, 255, 255]);
    is(1.5_f32, &[0, 0, 192, 63]);
    is(-0.0_f64, &[0, 0, 0, 0, 0, 0, 0, 128]);
    is(f64::INFINITY, &[0, 0, 0, 0, 0, 0, 240, 127]);
}

#[test]
fn a_number_that_is_none_keeps_its_bits() {
    let odd = f64::from_bits(0x7FF8_0000_0000_0123);
    let read = f64::from_bytes(&bytes_of(&odd)).unwrap();
    assert_eq!(read.to_bits(), odd.to_bits());
}

#[test]
fn texts_and_bytes_are_themselves() {
    is(true, &[1]);
    is(false, &[0]);
    is('a', &[97, 0, 0, 0]);
    is(char::MAX, &[255, 255, 16, 0]);
    is((), &[]);
    is(String::new(), &[]);
    is("fünf".to_string(), "fünf".as_bytes());
    is(Box::<str>::from("five"), b"five");
    is(Vec::<u8>::new(), &[]);
    is(vec![0_u8, 255, 10], &[0, 255, 10]);
    is(Box::<[u8]>::from([1, 2]), &[1, 2]);
    is(Arc::<str>::from("five"), b"five");
    is([7; 3], &[7, 7, 7]);
    is([0_u8; 0], &[]);
    // Around the length up to which the library allocates no memory.
    for length in 0..40 {
        is("x".repeat(length), &vec![b'x'; length]);
    }
}

#[test]
fn parts_have_their_lengths() {
    is(None::<u8>, &[]);
    is(Some(5_u8), &[1, 5]);
    is(Some(()), &[1]);
    is(Some(None::<String>), &[1]);
    is(Some(Some("a".to_string())), &[1, 1, b'a']);
    is((9_u16,), &[9, 0]);
    is((1_u8, 2_u8), &[1, 1, 2]);
    is(("ab".to_string(), Some(3_u8)), &[2, b'a', b'b', 1, 3]);
    is((String::new(), None::<u8>), &[0]);
    is(((), ()), &[0]);
    is((1_u8, 2_u8, 3_u8), &[1, 1, 1, 2, 3]);
    is((1_u8, 2_u8, 3_u8, 4_u8), &[1, 1, 1, 2, 1, 3, 4]);
    is((1_u8, 2_u8, 3_u8, 4_u8, 5_u8), &[1, 1, 1, 2, 1, 3, 1, 4, 5]);
    is((1_u8, 2_u8, 3_u8, 4_u8, 5_u8, 6_u8), &[1, 1, 1, 2, 1, 3, 1, 4, 1, 5, 6]);
    is(((1_u8, "b".to_string()), 2_u8), &[3, 1, 1, b'b', 2]);
    is(Some((vec![1_u8], vec![2_u8])), &[1, 1, 1, 2]);
    let long = "y".repeat(300);
    is((long.clone(), 4_u8), &[&[0b1010_1100, 2], long.as_bytes(), &[4]].concat());
    is((vec![3_u8; 127], 4_u8), &[&[127][..], &[3; 127], &[4]].concat());
    is((vec![3_u8; 128], 4_u8), &[&[128, 1][..], &[3; 128], &[4]].concat());
}

#[test]
fn lists_have_the_lengths_of_their_parts() {
    is(Vec::<u16>::new(), &[]);
    is(vec![1_u16, 2], &[2, 1, 0, 2, 2, 0]);
    is(vec![(), ()], &[0, 0]);
    is(vec!["ab".to_string(), String::new()], &[2, b'a', b'b', 0]);
    is(vec![vec![1_u8, 2], vec![]], &[2, 1, 2, 0]);
    is(vec![vec![1_i8], vec![-1, 0]], &[2, 1, 1, 4, 1, 255, 1, 0]);
    is(Box::<[bool]>::from([true, false]), &[1, 1, 1, 0]);
    is((vec![true], Some(vec!["a".to_string()])), &[2, 1, 1, 1, 1, b'a']);
}

#[test]
fn maps_are_lists_of_pairs() {
    is(BTreeMap::<u8, u8>::new(), &[]);
    is(BTreeMap::from([(2_u8, "b".to_string()), (1, String::new())]), &[2, 1, 1, 3, 1, 2, b'b']);
    is(HashMap::from([("key".to_string(), 5_u16)]), &[6, 3, b'k', b'e', b'y', 5, 0]);
    let squares: HashMap<u32, u64> =
        (0..100).map(|number| (number, u64::from(number).pow(2))).collect();
    let bytes = bytes_of(&squares);
    is(squares, &bytes);
    let pairs = vec![(1_u8, vec![7_u32]), (2, vec![])];
    let map: BTreeMap<u8, Vec<u32>> = pairs.iter().cloned().collect();
    is(map, &bytes_of(&pairs));
}

#[test]
fn a_text_may_be_long() {
    let long: String = ('a'..='z').cycle().take(1 << 20).collect();
    is(long.clone(), long.as_bytes());
    let bytes = bytes_of(&(long.clone(), long.clone()));
    assert_eq!(bytes.len(), 2 * long.len() + 3);
    assert_eq!(Message::from_bytes(&bytes), Some((long.clone(), long)));
}

#[test]
fn what_is_no_such_value_is_not_read() {
    fn refuses<T: Message + PartialEq + Debug>(bytes: &[u8]) {
        assert_eq!(T::from_bytes(bytes), None);
    }

    refuses::<u8>(&[]);
    refuses::<u8>(&[1, 2]);
    refuses::<u64>(&[0; 7]);
    refuses::<i128>(&[0; 15]);
    refuses::<f32>(&[0; 5]);
    refuses::<usize>(&[0; 4]);
    refuses::<bool>(&[2]);
    refuses::<bool>(&[]);
    refuses::<char>(&[0, 216, 0, 0]);
    refuses::<char>(&[0, 0, 17, 0]);
    refuses::<char>(&[0; 3]);
    refuses::<()>(&[0]);
    refuses::<String>(&[0xC3]);
    refuses::<Box<str>>(&[0x80]);
    refuses::<[u8; 2]>(&[1]);
    refuses::<Option<u8>>(&[0]);
    refuses::<Option<u8>>(&[1]);
    refuses::<Option<u8>>(&[2, 5]);
    refuses::<(u8, u8)>(&[]);
    refuses::<(u8, u8)>(&[1]);
    refuses::<(u8, u8)>(&[1, 5]);
    refuses::<(u8, u8)>(&[2, 5, 6]);
    refuses::<(u8, u8)>(&[1, 5, 6, 7]);
    refuses::<(Vec<u8>, ())>(&[3, 5, 6]);
    refuses::<(Vec<u8>, ())>(&[0, 1]);
    refuses::<Vec<u16>>(&[1, 0]);
    refuses::<Vec<u16>>(&[2, 0, 0, 2, 0]);
    refuses::<Vec<bool>>(&[1, 2]);
    refuses::<Box<[char]>>(&[4, 0, 216, 0, 0]);
    refuses::<Arc<str>>(&[0x80]);
    // Two pairs of a map have the same key.
    refuses::<BTreeMap<u8, u8>>(&[3, 1, 1, 5, 3, 1, 1, 6]);
    refuses::<HashMap<u8, u8>>(&[3, 1, 1, 5, 3, 1, 1, 5]);
    // A length that no list has, and one that has no end.
    refuses::<(Vec<u8>, ())>(&[255, 255, 255, 255, 255, 255, 255, 255, 255, 1, 0]);
    refuses::<(Vec<u8>, ())>(&[255, 255, 255, 255, 255, 255, 255, 255, 255, 3, 0]);
    refuses::<(Vec<u8>, ())>(&[255; 40]);
    refuses::<(Vec<u8>, ())>(&[128, 128]);
}

/// Whatever the bytes are, no type panics as it reads them, and what it reads is written to bytes
/// that it reads again.
#[test]
fn any_bytes_are_read_or_refused() {
    fn reads<T: Message + PartialEq + Debug>(bytes: &[u8]) {
        if let Some(message) = T::from_bytes(bytes) {
            assert_eq!(T::from_bytes(&bytes_of(&message)), Some(message));
        }
    }

    let mut state = 1_u64;
    for _ in 0..20_000 {
        state =
            state.wrapping_mul(6_364_136_223_846_793_005).wrapping_add(1_442_695_040_888_963_407);
        let bytes: Vec<u8> = state.to_be_bytes().iter().map(|byte| byte & 0x83).collect();
        let bytes = &bytes[..(state >> 60) as usize % 9];
        reads::<bool>(bytes);
        reads::<char>(bytes);
        reads::<(String, Option<Vec<u8>>)>(bytes);
        reads::<Vec<Vec<bool>>>(bytes);
        reads::<BTreeMap<u8, Vec<String>>>(bytes);
        reads::<HashMap<Vec<()>, Option<u8>>>(bytes);
        reads::<Option<(u8, (), Option<bool>)>>(bytes);
        reads::<((u8, u8), [u8; 2], Box<str>, Option<()>)>(bytes);
    }
}

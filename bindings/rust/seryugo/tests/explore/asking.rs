//! Questions and answers.

use seryugo::explore::{explore, scope, Strategy};
use seryugo::{Request, Switchboard};
use std::sync::Arc;

#[test]
fn two_ask_one_who_answers() {
    let program = |board: &Arc<Switchboard>| {
        let mut server = board.seat_owned().unwrap();
        let doubles = server.mailbox::<Request<u64, u64>>().unwrap();
        scope(|threads| {
            for number in [1, 2] {
                let mut seat = board.seat_owned().unwrap();
                threads.spawn(move || {
                    assert_eq!(seat.request(doubles, number).unwrap(), 2 * number);
                });
            }
            threads.spawn(move || {
                for _ in 0..2 {
                    let request = server.recv(doubles).unwrap();
                    let double = 2 * request.question;
                    request.asker.answer(&mut server, double).unwrap();
                }
            });
        });
    };
    let found = explore(Strategy::every(), 10_000, program);
    println!("{found}");
    assert!(found.is_clean() && found.is_whole() && found.beside().is_none(), "{found}");
}

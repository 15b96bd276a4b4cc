//! Each program does over seryugo what it does over crossbeam-channel, and few of its lines differ.

use std::process::Command;

/// What a program prints.
fn printed(program: &str) -> String {
    let ended = Command::new(program).output().unwrap();
    assert!(ended.status.success(), "{}", String::from_utf8_lossy(&ended.stderr));
    String::from_utf8(ended.stdout).unwrap()
}

/// The lines of a program that name nothing to use.
fn lines(program: &str) -> Vec<&str> {
    program.lines().filter(|line| !line.starts_with("use ")).collect()
}

/// How many lines two lists have in common, in the same order.
fn common(one: &[&str], other: &[&str]) -> usize {
    let mut row = vec![0; other.len() + 1];
    for line in one {
        let mut diagonal = 0;
        for (at, counted) in other.iter().enumerate() {
            let above = row[at + 1];
            row[at + 1] = if line == counted {
                diagonal + 1
            } else {
                above.max(row[at])
            };
            diagonal = above;
        }
    }
    row[other.len()]
}

/// How many lines of the second program the first has not.
fn differing(over_crossbeam: &str, over_seryugo: &str) -> usize {
    let (one, other) = (lines(over_crossbeam), lines(over_seryugo));
    other.len() - common(&one, &other)
}

#[test]
fn differing_lines_are_counted() {
    assert_eq!(differing("a\nuse b;\nc\nd", "a\nuse e;\nc\nd"), 0);
    assert_eq!(differing("a\nb\nc\nd", "a\nc\nx\nd"), 1);
    assert_eq!(differing("a\nb", "b\na\nc"), 2);
}

#[test]
fn the_crawler_is_the_same() {
    let over_crossbeam = include_str!("../src/bin/crawler_over_crossbeam.rs");
    let over_seryugo = include_str!("../src/bin/crawler_over_seryugo.rs");
    assert!(10 * differing(over_crossbeam, over_seryugo) <= lines(over_seryugo).len());
    let expected = printed(env!("CARGO_BIN_EXE_crawler_over_crossbeam"));
    assert!(expected.contains("500 pages have 1510 links\n502 links are broken"));
    assert_eq!(printed(env!("CARGO_BIN_EXE_crawler_over_seryugo")), expected);
}

#[test]
fn the_pool_is_the_same() {
    let over_crossbeam = include_str!("../src/bin/pool_over_crossbeam.rs");
    let over_seryugo = include_str!("../src/bin/pool_over_seryugo.rs");
    assert!(10 * differing(over_crossbeam, over_seryugo) <= lines(over_seryugo).len());
    let expected = printed(env!("CARGO_BIN_EXE_pool_over_crossbeam"));
    assert!(expected.contains("303 primes") && expected.contains("answered 2000, and 1 panicked"));
    assert_eq!(printed(env!("CARGO_BIN_EXE_pool_over_seryugo")), expected);
}

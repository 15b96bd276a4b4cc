//! Names that have changed still work.
#![allow(deprecated)]

use seryugo::explore::{explore, Way};
use seryugo::{Error, Kept, Numbers, Room, Switchboard};
use std::sync::Arc;

fn cut<R: Room>(board: &Switchboard<R>) -> Result<u64, Error> {
    board.cut()?;
    Ok(board.cut_at())
}

#[test]
fn a_kind_of_messages_is_a_room() -> Result<(), Error> {
    assert_eq!(cut(&Switchboard::new(9)?)?, 0);
    assert_eq!(cut(&Switchboard::of_numbers(9)?)?, 0);
    Ok(())
}

#[test]
fn a_valid_prefix_is_kept() {
    let torn = &b"journal 1\nseat 0 mailbox: made 0\nseat 0 se"[..];
    let (_, kept) = Switchboard::<Numbers>::restore_torn(torn, 9).unwrap();
    let Kept { entries, bytes, .. } = kept;
    assert_eq!((entries, bytes), (1, 33));
}

#[test]
fn a_strategy_is_a_way() {
    let found = explore(Way::every(), 9, |_: &Arc<Switchboard>| ());
    assert!(found.is_clean() && found.is_whole(), "{found}");
}

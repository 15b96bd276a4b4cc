//! Whether the members of a room got what they had to get.

use crate::member::{Member, Said};
use crate::Wrong;
use std::collections::HashMap;

/// Checks that each member got each message from its first on, in one order with all others. Each message that was said has to be
/// there once, in the order in which its client said it.
pub fn check_room(members: &[&Member], messages: u64, in_room: u64) -> Result<(), Wrong> {
    let room: Vec<Option<Said>> = order(members, in_room)?;
    let mut next: HashMap<u64, u64> = HashMap::new();
    for (number, said) in (1..).zip(room) {
        let (client, nth) = said.ok_or(format!("no member got message {number}"))?;
        let wanted = next.entry(client).or_default();
        if nth != *wanted {
            return Err(format!("message {number} is the client {client}'s {nth}th, in place of its {wanted}th"));
        }
        *wanted += 1;
    }
    match members.len() == next.len() && next.values().all(|said| *said == messages) {
        true => Ok(()),
        false => Err("a client's messages are not all there".to_owned()),
    }
}

/// The messages of the room, which all members got so.
fn order(members: &[&Member], in_room: u64) -> Result<Vec<Option<Said>>, Wrong> {
    let mut room = vec![None; in_room as usize];
    for member in members {
        let first = member.first.ok_or("a client hasn't joined")?;
        if first - 1 + member.got.len() as u64 != in_room {
            return Err(format!("a client got {} messages from {first} on", member.got.len()));
        }
        for (at, said) in (first as usize - 1..).zip(&member.got) {
            let known = room[at].get_or_insert(*said);
            if known != said {
                return Err(format!("message {} is {known:?} for one client and {said:?} for another", at + 1));
            }
        }
    }
    Ok(room)
}

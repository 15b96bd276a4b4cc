//! The programs.

use seryugo::explore::{self, Scope};
use seryugo::{MVar, Numbers, OwnedSeat, Switchboard};
use std::sync::Arc;

pub type Board = Arc<Switchboard<Numbers>>;

pub fn seat(board: &Board) -> OwnedSeat<Numbers> {
    board.seat_owned().unwrap()
}

/// Each takes the fork at its left, and then the one at its right. If `is_ordered`, the last one
/// takes its right one first.
pub fn philosophers(board: &Board, count: usize, meals: usize, is_ordered: bool) {
    let mut main = seat(board);
    let forks: Vec<MVar<u64>> = (0..count).map(|_| main.mvar_init(0).unwrap()).collect();
    explore::scope(|threads| {
        for left in 0..count {
            let (mut first, mut second) = (forks[left], forks[(left + 1) % count]);
            if is_ordered && left == count - 1 {
                (first, second) = (second, first);
            }
            eat(threads, seat(board), meals, first, second);
        }
    });
}

fn eat(
    threads: Scope<'_, '_>,
    mut seat: OwnedSeat<Numbers>,
    meals: usize,
    first: MVar<u64>,
    second: MVar<u64>,
) {
    threads.spawn(move || {
        for _ in 0..meals {
            seat.take(first).unwrap();
            seat.take(second).unwrap();
            seat.put(second, 0).unwrap();
            seat.put(first, 0).unwrap();
        }
    });
}

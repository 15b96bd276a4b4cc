//! Three philosophers at a round table wait for each other. An exploration finds the order in which
//! they do, and this program writes its journal to a file:
//!
//! ```text
//! cargo run --example philosophers -- table.journal
//! cml_chart < table.journal > table.svg
//! ```

use seryugo::explore::{self, explore, Found, Strategy};
use seryugo::{Numbers, Switchboard};
use std::sync::Arc;
use std::{env, fs, io};

fn main() -> io::Result<()> {
    let found = find();
    println!("{found}");
    if let (Some(bad), Some(file)) = (found.bad(), env::args().nth(1)) {
        fs::write(&file, bad.journal())?;
        println!("cml_chart < {file} > table.svg draws the journal");
    }
    Ok(())
}

/// Runs them in every order, until one ends badly.
pub fn find() -> Found {
    explore(Strategy::every(), 1_000, dine)
}

/// Each takes the fork on the left and the one on the right, and puts both back.
pub fn dine(board: &Arc<Switchboard<Numbers>>) {
    let mut table = board.seat().unwrap();
    let forks = [(); 3].map(|()| table.mvar_init(1).unwrap());
    explore::scope(|threads| {
        for philosopher in 0..3 {
            let (left, right) = (forks[philosopher], forks[(philosopher + 1) % 3]);
            let mut seat = board.seat().unwrap();
            threads.spawn(move || {
                seat.take(left).unwrap();
                seat.take(right).unwrap();
                seat.put(left, 1).unwrap();
                seat.put(right, 1).unwrap();
            });
        }
    });
}

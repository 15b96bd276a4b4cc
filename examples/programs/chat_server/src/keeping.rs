//! The threads that keep and publish, beside those of the clients.

use crate::failure::Failure;
use crate::messages::Said;
use crate::publisher;
use crate::queue::Queue;
use crate::recovery::mend;
use crate::server::Server;
use seryugo::{explore, Error, Port};

/// Finishes what an earlier server began, and then serves clients by this function. Meanwhile a thread syncs the journal by
/// `sync`, and another one publishes.
///
/// If the file can't be written, or a call of the library fails that can't fail, `fails` ends the process: all that was
/// acknowledged is kept.
pub fn run(
    server: &Server<'_>,
    sync: impl FnMut() -> Result<(), Error> + Send,
    strays: &[Port<Said>],
    fails: impl Fn(Error) + Sync,
    serves: impl FnOnce() -> Result<(), Failure>,
) -> Result<(), Failure> {
    let kept = Queue::default();
    explore::scope(|threads| {
        let keeping = threads.spawn(|| server.keeper.run(sync, &kept).unwrap_or_else(&fails));
        mend(server, strays).unwrap_or_else(&fails);
        let publishing = threads.spawn(|| publisher::run(server, &kept).unwrap_or_else(&fails));
        let served = serves();
        server.keeper.end();
        let _ = (keeping.join(), publishing.join());
        served
    })
}

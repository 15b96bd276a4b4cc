//! A worker's thread: it runs the commands of one object at a time.

use crate::graph::Object;
use crate::messages::{Job, Verdict};
use crate::runner::Runner;
use seryugo::{Error, IVar, Mailbox, Seat};

/// There are as many workers as commands may run at once.
pub struct Worker<'a> {
    pub seat: Seat<'a>,
    pub jobs: Mailbox<Job>,
    pub objects: &'a [Object],
    /// The objects' i-variables.
    pub verdicts: &'a [IVar<Verdict>],
    pub runner: Runner<'a>,
}

impl Worker<'_> {
    /// Works until a message says that there are no more jobs.
    pub fn work(mut self) -> Result<(), Error> {
        while let Some(place) = self.seat.recv(self.jobs)? {
            let verdict = self.runner.run(&self.objects[place]);
            self.seat.put(self.verdicts[place], verdict)?;
        }
        Ok(())
    }
}

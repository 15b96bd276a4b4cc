//! An object's thread: it waits for what the object needs, has it made, and multicasts what became of it.

use crate::console::Console;
use crate::graph::Object;
use crate::messages::{Job, Outcome, Verdict};
use crate::stamp::Stamp;
use seryugo::{Channel, Error, IVar, Mailbox, Port, Seat};

/// An object's thread.
pub struct Goal<'a> {
    pub seat: Seat<'a>,
    pub object: &'a Object,
    /// The object's place in the graph, by which the workers know it.
    pub place: usize,
    /// A port of the channel of each prerequisite.
    pub prerequisites: Vec<Port<Outcome>>,
    /// The object's own channel.
    pub outcome: Channel<Outcome>,
    pub jobs: Mailbox<Job>,
    pub verdict: IVar<Verdict>,
    pub console: &'a Console,
    pub is_dry_run: bool,
}

/// What all prerequisites together mean for the object.
#[derive(Clone, Copy, Debug)]
struct Needs {
    /// The stamp of the newest.
    newest: Option<Stamp>,
    has_run: bool,
}

impl Goal<'_> {
    /// Waits for the prerequisites' outcomes, and multicasts that of the object.
    pub fn run(mut self) -> Result<(), Error> {
        let outcome = match self.receive_needs()? {
            Some(needs) => self.update(needs)?,
            None => Outcome::NotTried,
        };
        self.seat.multicast(self.outcome, outcome)?;
        Ok(())
    }

    /// Receives the outcome of each prerequisite. `None` if one failed.
    fn receive_needs(&mut self) -> Result<Option<Needs>, Error> {
        let mut needs = Some(Needs {
            newest: None,
            has_run: false,
        });
        for port in &self.prerequisites {
            // No thread closes the port, and a closed one would have no outcome.
            let received = self.seat.recv(*port)?.unwrap_or(Outcome::Failed);
            needs = needs.and_then(|needs| needs.with(received));
        }
        Ok(needs)
    }

    /// Makes the object if it is missing or older than something that it needs.
    fn update(&mut self, needs: Needs) -> Result<Outcome, Error> {
        let stamp = self.stamp();
        let unchanged = Outcome::Done {
            stamp,
            has_run: needs.has_run,
        };
        match &self.object.commands {
            Some(_) if !needs.make_stale(stamp) => Ok(unchanged),
            Some(commands) if commands.is_empty() => Ok(unchanged),
            Some(_) => self.have_made(),
            None if stamp == Stamp::Missing && !self.object.is_target && !self.object.is_phony => {
                self.tell_no_rule();
                Ok(Outcome::Failed)
            }
            None => Ok(unchanged),
        }
    }

    /// Has a worker run the commands, and waits for the verdict.
    fn have_made(&mut self) -> Result<Outcome, Error> {
        self.seat.send(self.jobs, Some(self.place))?;
        match self.seat.get(self.verdict)? {
            Verdict::Failed => Ok(Outcome::Failed),
            Verdict::Done => Ok(Outcome::Done {
                stamp: if self.is_dry_run { Stamp::New } else { self.stamp() },
                has_run: true,
            }),
        }
    }

    fn stamp(&self) -> Stamp {
        if self.object.is_phony {
            Stamp::Missing
        } else {
            Stamp::of_file(&self.object.name)
        }
    }

    fn tell_no_rule(&self) {
        let name = &self.object.name;
        match &self.object.needed_by {
            Some(parent) => self.console.error(format_args!("*** No rule to make target '{name}', needed by '{parent}'.")),
            None => self.console.error(format_args!("*** No rule to make target '{name}'.")),
        }
    }
}

impl Needs {
    /// The same with one prerequisite more.
    fn with(self, outcome: Outcome) -> Option<Needs> {
        match outcome {
            Outcome::Failed | Outcome::NotTried => None,
            Outcome::Done { stamp, has_run } => Some(Needs {
                newest: self.newest.max(Some(stamp)),
                has_run: self.has_run || has_run,
            }),
        }
    }

    /// Whether an object with this stamp is to be made.
    fn make_stale(&self, stamp: Stamp) -> bool {
        stamp == Stamp::Missing || self.newest > Some(stamp)
    }
}

//! Runs the commands of an object, and says how they ended.

use crate::capture::Capture;
use crate::console::Console;
use crate::graph::Object;
use crate::messages::Verdict;
use crate::process::{self, Failure, Streams};
use crate::recipe::Command;
use crate::stamp::Stamp;
use std::fs;
use std::io;
use std::process::Stdio;

/// How commands are run.
#[derive(Debug)]
pub struct Settings {
    /// The makefile's name, for messages.
    pub makefile: String,
    /// How many commands may run at once.
    pub jobs: usize,
    /// Commands are printed, and none is run.
    pub is_dry_run: bool,
    /// What commands have in their environment besides.
    pub variables: Vec<(String, String)>,
}

/// Runs one command after another.
#[derive(Debug)]
pub struct Runner<'a> {
    settings: &'a Settings,
    console: &'a Console,
    /// The output of a command that may run beside others. One that runs alone writes to the program's streams.
    capture: Option<Capture>,
}

impl<'a> Runner<'a> {
    pub fn new(settings: &'a Settings, console: &'a Console) -> io::Result<Runner<'a>> {
        let is_alone = settings.jobs == 1 || settings.is_dry_run;
        let capture = if is_alone { None } else { Some(Capture::new()?) };
        Ok(Runner {
            settings,
            console,
            capture,
        })
    }

    /// Runs the commands of an object, up to the first that fails.
    pub fn run(&mut self, object: &Object) -> Verdict {
        let before = Stamp::of_file(&object.name);
        for command in object.commands.iter().flatten() {
            let Err(failure) = self.run_command(command) else {
                continue;
            };
            self.tell(command, object, &failure);
            if !command.ignores_failure {
                if matches!(failure, Failure::Signal { .. }) {
                    self.delete_half_made(object, before);
                }
                return Verdict::Failed;
            }
        }
        Verdict::Done
    }

    fn run_command(&mut self, command: &Command) -> Result<(), Failure> {
        let printed = Some(command.text.as_str()).filter(|_| self.settings.is_dry_run || !command.is_silent);
        if self.capture.is_none() {
            printed.into_iter().for_each(|text| self.console.line(text));
        }
        // A colon alone does nothing, and make starts no process for it either.
        if self.settings.is_dry_run || command.text == ":" {
            return Ok(());
        }
        let capture = self.capture.as_ref();
        let ended = process::run(&command.text, &self.settings.variables, || streams(capture));
        if let Some(capture) = &mut self.capture {
            self.console.captured(printed, capture);
        }
        ended
    }

    fn tell(&self, command: &Command, object: &Object, failure: &Failure) {
        let place = format_args!("[{}:{}: {}]", self.settings.makefile, command.line, object.name);
        if command.ignores_failure {
            self.console.error(format_args!("{place} {failure} (ignored)"));
        } else {
            self.console.error(format_args!("*** {place} {failure}"));
        }
    }

    /// Removes the file that a killed command has begun to write, so that it isn't taken for made.
    fn delete_half_made(&self, object: &Object, before: Stamp) {
        let is_file = fs::metadata(&object.name).is_ok_and(|metadata| metadata.is_file());
        if object.is_phony || !is_file || Stamp::of_file(&object.name) == before {
            return;
        }
        self.console.error(format_args!("*** Deleting file '{}'", object.name));
        if let Err(error) = fs::remove_file(&object.name) {
            self.console.error(format_args!("unlink: {}: {error}", object.name));
        }
    }
}

/// The streams of the next process. Of several at once none reads the standard input.
fn streams(capture: Option<&Capture>) -> io::Result<Streams> {
    Ok(match capture {
        None => Streams {
            input: Stdio::inherit,
            output_and_errors: None,
        },
        Some(capture) => Streams {
            input: Stdio::null,
            output_and_errors: Some(capture.streams()?),
        },
    })
}

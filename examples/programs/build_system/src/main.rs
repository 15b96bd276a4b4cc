//! A make whose goals are threads. Each waits for its prerequisites at ports of their channels, has a worker run its commands, and
//! multicasts what became of it.
//!
//!     cml_make [-f FILE] [-j N] [-n] [-k] [NAME=VALUE].. [GOAL]..
//!
//! `docs/BUILD_SYSTEM.md` has the subset of make's language that it reads. Begin with `goal.rs`.

mod arguments;
mod build;
mod capture;
mod console;
mod fault;
mod goal;
mod graph;
mod lines;
mod makefile;
mod messages;
mod names;
mod process;
mod recipe;
mod runner;
mod source;
mod stamp;
mod statement;
mod template;
#[cfg(test)]
mod tests;
mod variables;
mod worker;

use arguments::{Arguments, USAGE};
use build::build;
use console::Console;
use graph::{Graph, GraphError, Object};
use messages::Outcome;
use runner::Settings;
use source::Source;
use stamp::Stamp;
use std::env;
use std::fmt::Display;
use std::process::ExitCode;

/// Make's exit status if something isn't made.
const FAILED: u8 = 2;

fn main() -> ExitCode {
    let console = Console::default();
    let status = match run(&console) {
        Ok(true) => 0,
        Ok(false) => FAILED,
        Err(stop) => {
            console.error(stop);
            FAILED
        }
    };
    match console.into_error() {
        None => ExitCode::from(status),
        Some(error) => {
            Console::default().error(format_args!("write error: {error}"));
            ExitCode::from(FAILED)
        }
    }
}

/// Makes the goals of the command line: whether all are made. An error is the reason why none is.
fn run(console: &Console) -> Result<bool, String> {
    let arguments = Arguments::read(env::args_os().skip(1)).map_err(|error| format!("{error}\n{USAGE}"))?;
    if arguments.wants_help {
        console.text(USAGE);
        return Ok(true);
    }
    let source = Source::read(arguments.file.as_deref())?;
    let makefile = source.makefile(&arguments)?;
    let goals = if arguments.goals.is_empty() {
        vec![makefile.default_goal.clone().ok_or("*** No targets.  Stop.")?]
    } else {
        arguments.goals
    };
    let graph = Graph::of(&makefile, &goals).map_err(|error| match &error {
        GraphError::Fault(fault) => source.place(fault),
        GraphError::Cycle(_) => stop(&error),
    })?;
    let settings = Settings {
        makefile: source.name.clone(),
        jobs: arguments.jobs,
        is_dry_run: arguments.is_dry_run,
        variables: makefile.variables.exported().map_err(|fault| source.place(&fault))?,
    };
    let outcomes = build(&graph, &settings, console).map_err(|error| stop(&error))?;
    let goals = graph.goals.iter().map(|place| &graph.objects[*place]);
    Ok(goals.zip(outcomes).fold(true, |are_made, (goal, outcome)| tell(console, goal, outcome) && are_made))
}

fn stop(error: &impl Display) -> String {
    format!("*** {error}.  Stop.")
}

/// Says what became of a goal: whether it is made.
fn tell(console: &Console, goal: &Object, outcome: Outcome) -> bool {
    let name = &goal.name;
    match outcome {
        // The thread that ran the commands has said why they failed.
        Outcome::Failed => return false,
        Outcome::NotTried => {
            console.error(format_args!("Target '{name}' not remade because of errors."));
            return false;
        }
        Outcome::Done { has_run: true, .. } => {}
        Outcome::Done {
            stamp: Stamp::At(_), ..
        } if goal.commands.is_some() => {
            console.line(format_args!("cml_make: '{name}' is up to date."));
        }
        Outcome::Done { .. } => console.line(format_args!("cml_make: Nothing to be done for '{name}'.")),
    }
    true
}

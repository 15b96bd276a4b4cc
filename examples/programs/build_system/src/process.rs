//! A command as a process.

use std::fmt;
use std::io;
use std::os::unix::process::ExitStatusExt;
use std::process::{Child, Command, ExitStatus, Stdio};

/// Words that the shell itself runs, so that no program of this name is run for them.
const SHELL_WORDS: [&str; 39] = [
    ".", ":", "alias", "bg", "break", "case", "cd", "command", "continue", "do", "done", "eval", "exec", "exit", "export",
    "fc", "fg", "for", "getopts", "hash", "if", "jobs", "read", "readonly", "return", "set", "shift", "test", "times",
    "trap", "type", "ulimit", "umask", "unalias", "unset", "until", "wait", "while", "local",
];

/// How a process failed.
#[derive(Debug)]
pub enum Failure {
    Status(i32),
    Signal {
        number: i32,
        has_dumped: bool,
    },
    /// It wasn't started.
    NotStarted(io::Error),
}

impl fmt::Display for Failure {
    fn fmt(&self, f: &mut fmt::Formatter<'_>) -> fmt::Result {
        match self {
            Failure::Status(status) => write!(f, "Error {status}"),
            Failure::Signal { number, has_dumped } => {
                f.write_str(&signal_name(*number))?;
                f.write_str(if *has_dumped { " (core dumped)" } else { "" })
            }
            Failure::NotStarted(error) => write!(f, "not started: {error}"),
        }
    }
}

/// The standard streams of a process.
pub struct Streams {
    pub input: fn() -> Stdio,
    pub output_and_errors: Option<(Stdio, Stdio)>,
}

/// Runs a command until it ends, with these variables added to its environment.
pub fn run(text: &str, variables: &[(String, String)], streams: impl Fn() -> io::Result<Streams>) -> Result<(), Failure> {
    let start = |mut command: Command| -> io::Result<Child> {
        let streams = streams()?;
        command.stdin((streams.input)()).envs(variables.iter().map(|(name, value)| (name, value)));
        if let Some((output, errors)) = streams.output_and_errors {
            command.stdout(output).stderr(errors);
        }
        command.spawn()
    };
    // If the program isn't there or can't be run, the shell says so.
    let started = match words_of(text) {
        Some(words) => start(direct(&words)).or_else(|_| start(shell(text))),
        None => start(shell(text)),
    };
    let ended = started.and_then(|mut child| child.wait());
    verdict_of(ended.map_err(Failure::NotStarted)?)
}

fn verdict_of(status: ExitStatus) -> Result<(), Failure> {
    match (status.code(), status.signal()) {
        (Some(0), _) => Ok(()),
        (Some(code), _) => Err(Failure::Status(code)),
        (None, signal) => Err(Failure::Signal {
            number: signal.unwrap_or_default(),
            has_dumped: status.core_dumped(),
        }),
    }
}

fn shell(text: &str) -> Command {
    let mut command = Command::new("/bin/sh");
    command.arg("-c").arg(text);
    command
}

fn direct(words: &[&str]) -> Command {
    let mut command = Command::new(words[0]);
    command.args(&words[1..]);
    command
}

/// The words of a command for which no shell is needed: all its letters mean themselves, and it begins with a program's name.
fn words_of(text: &str) -> Option<Vec<&str>> {
    let is_plain = |byte: u8| byte.is_ascii_alphanumeric() || b"_./,:@%+=- \t".contains(&byte);
    if !text.bytes().all(is_plain) {
        return None;
    }
    let words: Vec<_> = text.split([' ', '\t']).filter(|word| !word.is_empty()).collect();
    let first = words.first()?;
    (!first.contains('=') && !SHELL_WORDS.contains(first)).then_some(words)
}

/// A signal's name, as make prints it.
fn signal_name(number: i32) -> String {
    let known = match number {
        1 => "Hangup",
        2 => "Interrupt",
        3 => "Quit",
        4 => "Illegal instruction",
        5 => "Trace/breakpoint trap",
        6 => "Aborted",
        8 => "Floating point exception",
        9 => "Killed",
        11 => "Segmentation fault",
        13 => "Broken pipe",
        14 => "Alarm clock",
        15 => "Terminated",
        _ => return format!("Signal {number}"),
    };
    known.to_string()
}

#[cfg(test)]
mod tests {
    use super::*;

    #[test]
    fn commands_that_need_no_shell() {
        for text in ["true", "cc -c a.c -o a.o", "touch  x/y.z\tb", "env A=b true", "./run"] {
            assert!(words_of(text).is_some(), "{text}");
        }
        assert_eq!(words_of("touch  x/y.z\tb"), Some(vec!["touch", "x/y.z", "b"]));
    }

    #[test]
    fn commands_for_the_shell() {
        for text in [
            "echo a; echo b",
            "echo $x",
            "A=b true",
            "cd x",
            ": x",
            "echo 'a'",
            "a\\\nb",
            "a\nb",
            "echo é",
            "",
            "a~",
        ] {
            assert_eq!(words_of(text), None, "{text}");
        }
    }
}

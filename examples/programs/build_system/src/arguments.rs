//! The words of the command line.

use crate::names::plain;
use crate::template::{is_variable_name, Template};
use crate::variables::is_special;
use std::ffi::OsString;
use std::fmt;

/// What `--help` prints.
pub const USAGE: &str = "usage: cml_make [-f FILE] [-j N] [-n] [-k] [NAME=VALUE].. [GOAL]..
  -f FILE     read this makefile; `-` is standard input (else GNUmakefile, makefile or Makefile)
  -j N        run at most N commands at once (else 1)
  -n          print the commands and run none
  -k          go on after a failure, which cml_make always does
  NAME=VALUE  give a variable this value, whatever the makefile says
";

/// What the command line asks for.
#[derive(Debug, PartialEq, Eq)]
pub struct Arguments {
    pub file: Option<String>,
    pub jobs: usize,
    pub is_dry_run: bool,
    pub wants_help: bool,
    pub variables: Vec<(String, String)>,
    pub goals: Vec<String>,
}

/// Why a command line is refused.
#[derive(Debug, PartialEq, Eq)]
pub enum ArgumentError {
    NotUtf8(OsString),
    UnknownOption(String),
    NoValue(char),
    SecondFile,
    Jobs(String),
    Variable(String),
    EmptyGoal,
}

impl fmt::Display for ArgumentError {
    fn fmt(&self, f: &mut fmt::Formatter<'_>) -> fmt::Result {
        match self {
            ArgumentError::NotUtf8(word) => write!(f, "the argument {word:?} isn't UTF-8"),
            ArgumentError::UnknownOption(option) => write!(f, "unknown option '{option}'"),
            ArgumentError::NoValue(letter) => write!(f, "the option '-{letter}' needs a value"),
            ArgumentError::SecondFile => f.write_str("the option '-f' is there twice"),
            ArgumentError::Jobs(text) => {
                write!(f, "the option '-j' requires a positive integer argument, and has '{text}'")
            }
            ArgumentError::Variable(word) => write!(f, "the subset has no such variable: '{word}'"),
            ArgumentError::EmptyGoal => f.write_str("a goal has an empty name"),
        }
    }
}

impl Arguments {
    /// Reads the words after the program's name.
    pub fn read(words: impl IntoIterator<Item = OsString>) -> Result<Arguments, ArgumentError> {
        let words: Vec<_> =
            words.into_iter().map(|word| word.into_string().map_err(ArgumentError::NotUtf8)).collect::<Result<_, _>>()?;
        let mut arguments = Arguments {
            file: None,
            jobs: 1,
            is_dry_run: false,
            wants_help: false,
            variables: Vec::new(),
            goals: Vec::new(),
        };
        let mut words = words.into_iter();
        let mut has_options = true;
        while let Some(word) = words.next() {
            match word.strip_prefix('-').filter(|letters| has_options && !letters.is_empty()) {
                Some("-") => has_options = false,
                Some("-help") => arguments.wants_help = true,
                Some(letters) => arguments.take_options(letters, &mut words)?,
                None => arguments.take_word(&word)?,
            }
        }
        Ok(arguments)
    }

    /// Takes the options in one word, such as `nj4`. The last may have its value in the next word.
    fn take_options(&mut self, letters: &str, words: &mut impl Iterator<Item = String>) -> Result<(), ArgumentError> {
        for (place, letter) in letters.char_indices() {
            match letter {
                'n' => self.is_dry_run = true,
                'k' => {}
                'h' => self.wants_help = true,
                'f' | 'j' => {
                    let attached = Some(&letters[place + 1..]).filter(|value| !value.is_empty());
                    let value = attached.map(str::to_string).or_else(|| words.next());
                    return self.take_value(letter, value.ok_or(ArgumentError::NoValue(letter))?);
                }
                _ => return Err(ArgumentError::UnknownOption(format!("-{letters}"))),
            }
        }
        Ok(())
    }

    fn take_value(&mut self, option: char, value: String) -> Result<(), ArgumentError> {
        if option == 'j' {
            let jobs = value.parse().ok().filter(|jobs| *jobs > 0);
            self.jobs = jobs.ok_or(ArgumentError::Jobs(value))?;
            return Ok(());
        }
        match self.file.replace(value) {
            Some(_) => Err(ArgumentError::SecondFile),
            None => Ok(()),
        }
    }

    /// Takes a variable or a goal.
    fn take_word(&mut self, word: &str) -> Result<(), ArgumentError> {
        let Some((name, value)) = word.split_once('=') else {
            let goal = Some(plain(word)).filter(|goal| !goal.is_empty());
            self.goals.push(goal.ok_or(ArgumentError::EmptyGoal)?.to_string());
            return Ok(());
        };
        if !is_variable_name(name) || is_special(name) || Template::parse(value).is_err() {
            return Err(ArgumentError::Variable(word.to_string()));
        }
        self.variables.push((name.to_string(), value.to_string()));
        Ok(())
    }
}

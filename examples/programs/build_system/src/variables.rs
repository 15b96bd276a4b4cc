//! The variables of a makefile, of the command line and of the environment.

use crate::fault::{Fault, Problem};
use crate::template::Template;
use std::collections::BTreeMap;

/// Variables that mean something to make. The subset has none of them.
const SPECIAL: [&str; 13] = [
    "CURDIR",
    "GNUMAKEFLAGS",
    "GPATH",
    "MAKE",
    "MAKECMDGOALS",
    "MAKEFILES",
    "MAKEFILE_LIST",
    "MAKEFLAGS",
    "MAKELEVEL",
    "MFLAGS",
    "SHELL",
    "SUFFIXES",
    "VPATH",
];

/// Whether the subset leaves out this variable.
pub fn is_special(name: &str) -> bool {
    name.starts_with('.') || SPECIAL.contains(&name)
}

/// Where a variable has its value from. A greater origin overrides a lesser one.
#[derive(Clone, Copy, Debug, PartialEq, Eq, PartialOrd, Ord)]
enum Origin {
    Environment,
    Makefile,
    CommandLine,
}

#[derive(Clone, Debug)]
struct Variable {
    origin: Origin,
    /// Whether commands have it in their environment.
    is_exported: bool,
    value: Result<Template, Problem>,
    /// The makefile's line that has it.
    line: Option<usize>,
}

/// The values of variables, by their names.
#[derive(Clone, Debug, Default)]
pub struct Variables {
    by_name: BTreeMap<String, Variable>,
}

impl Variables {
    /// The environment's variables, and those of the command line.
    pub fn new(
        environment: impl IntoIterator<Item = (String, String)>,
        command_line: impl IntoIterator<Item = (String, String)>,
    ) -> Variables {
        let mut variables = Variables::default();
        for (name, value) in environment.into_iter().filter(|(name, _)| !is_special(name)) {
            variables.insert(name, Origin::Environment, Template::parse(&value), None);
        }
        for (name, value) in command_line {
            variables.insert(name, Origin::CommandLine, Template::parse(&value), None);
        }
        variables
    }

    /// Takes a value that the makefile gives. One of the command line overrides it.
    pub fn define(&mut self, name: &str, value: Template, line: usize) {
        self.insert(name.to_string(), Origin::Makefile, Ok(value), Some(line));
    }

    fn insert(&mut self, name: String, origin: Origin, value: Result<Template, Problem>, line: Option<usize>) {
        let known = self.by_name.get(&name);
        if known.is_some_and(|known| known.origin > origin) {
            return;
        }
        let is_exported = origin != Origin::Makefile || known.is_some_and(|known| known.is_exported);
        let variable = Variable {
            origin,
            is_exported,
            value,
            line,
        };
        self.by_name.insert(name, variable);
    }

    /// A variable's value.
    pub fn get(&self, name: &str) -> Result<&Template, Problem> {
        let variable = self.by_name.get(name).ok_or_else(|| Problem::NoValue(name.to_string()))?;
        variable.value.as_ref().map_err(Problem::clone)
    }

    /// The variables that commands have in their environment, with other values than there: those of the command line, and those
    /// of the environment to which the makefile gives a value.
    pub fn exported(&self) -> Result<Vec<(String, String)>, Fault> {
        self.by_name
            .iter()
            .filter(|(_, variable)| variable.is_exported && variable.origin != Origin::Environment)
            .map(|(name, variable)| {
                let value = self.get(name).and_then(|value| value.expand(self, None));
                let line = variable.line;
                value.map(|value| (name.clone(), value)).map_err(|problem| Fault { line, problem })
            })
            .collect()
    }
}

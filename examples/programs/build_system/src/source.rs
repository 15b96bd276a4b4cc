//! The makefile as a file.

use crate::arguments::Arguments;
use crate::fault::{Fault, Part};
use crate::lines::text_of;
use crate::makefile::Makefile;
use crate::names::plain;
use crate::variables::Variables;
use std::env;
use std::fs;
use std::io::{self, Read};

/// The names that make looks for, in this order.
const DEFAULT_NAMES: [&str; 3] = ["GNUmakefile", "makefile", "Makefile"];

/// A makefile's bytes and its name in messages.
pub struct Source {
    pub name: String,
    bytes: Vec<u8>,
}

impl Source {
    /// Reads the file that the command line names, or else the first that make looks for.
    pub fn read(named: Option<&str>) -> Result<Source, String> {
        let existing = || DEFAULT_NAMES.into_iter().find(|name| fs::metadata(name).is_ok_and(|found| found.is_file()));
        let name = named.or_else(existing).ok_or("*** No targets specified and no makefile found.  Stop.")?;
        match bytes_of(name) {
            Ok(bytes) => Ok(Source {
                name: name.to_string(),
                bytes,
            }),
            Err(error) => Err(format!("*** the makefile '{name}' can't be read: {error}.  Stop.")),
        }
    }

    /// What the makefile says.
    pub fn makefile(&self, arguments: &Arguments) -> Result<Makefile, String> {
        let environment =
            env::vars_os().filter_map(|(name, value)| Some((name.into_string().ok()?, value.into_string().ok()?)));
        let variables = Variables::new(environment, arguments.variables.clone());
        let read = text_of(&self.bytes).and_then(|text| Makefile::read(text, variables));
        let makefile = read.map_err(|fault| self.place(&fault))?;
        // Make would make its makefile first, and read it again.
        if makefile.rules.contains_key(plain(&self.name)) {
            return Err(self.place(&Fault {
                line: None,
                problem: Part::OwnMakefile(self.name.clone()).into(),
            }));
        }
        Ok(makefile)
    }

    /// A fault with its place, as make says it.
    pub fn place(&self, fault: &Fault) -> String {
        let Fault { line, problem } = fault;
        match line {
            Some(line) => format!("{}:{line}: *** {problem}.  Stop.", self.name),
            None => format!("{}: *** {problem}.  Stop.", self.name),
        }
    }
}

fn bytes_of(name: &str) -> io::Result<Vec<u8>> {
    if name == "-" {
        let mut bytes = Vec::new();
        io::stdin().lock().read_to_end(&mut bytes)?;
        return Ok(bytes);
    }
    fs::read(name)
}

//! Tests of what is read: makefiles, graphs and command lines; and of builds in many orders.

mod arguments;
mod explored;
mod faults;
mod graph;
mod reader;

use crate::fault::Fault;
use crate::makefile::Makefile;
use crate::variables::Variables;

/// A pair of strings, as variables have it.
fn pair(name: &str, value: &str) -> (String, String) {
    (name.to_string(), value.to_string())
}

fn names(names: &[&str]) -> Vec<String> {
    names.iter().map(|name| name.to_string()).collect()
}

/// Reads a makefile with an empty environment.
fn read(text: &str) -> Result<Makefile, Fault> {
    Makefile::read(text, Variables::default())
}

fn read_well(text: &str) -> Makefile {
    read(text).unwrap_or_else(|fault| panic!("{fault:?} in {text:?}"))
}

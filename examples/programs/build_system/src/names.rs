//! Names of targets and prerequisites.

use crate::fault::{NameProblem, Part, Problem};
use crate::lines::is_blank;

/// The names in a text, without a leading `./`.
pub fn names_in(text: &str) -> Result<Vec<String>, Problem> {
    text.split(is_blank).filter(|word| !word.is_empty()).map(name_of).collect()
}

/// A name that the subset has.
fn name_of(word: &str) -> Result<String, Problem> {
    if word.contains('|') {
        return Err(Part::OrderOnly.into());
    }
    match problem_of(word) {
        Some(why) => Err(Problem::Name {
            name: word.to_string(),
            why,
        }),
        None => Ok(plain(word).to_string()),
    }
}

fn problem_of(word: &str) -> Option<NameProblem> {
    let problems = [
        (word.contains('%'), NameProblem::Pattern),
        (word.contains(['*', '?', '[']), NameProblem::Wildcard),
        (word.starts_with('~'), NameProblem::Home),
        (word.contains('\\'), NameProblem::Backslash),
        (word.contains(['(', ')']), NameProblem::Archive),
        (word.ends_with('&'), NameProblem::Grouped),
        (word.contains([':', ';', '=']), NameProblem::Separator),
    ];
    problems.into_iter().find(|(is_so, _)| *is_so).map(|(_, why)| why)
}

/// A name without a leading `./`, as make takes it: `./a` and `a` are one file.
pub fn plain(name: &str) -> &str {
    let mut plain = name;
    while let Some(behind) = plain.strip_prefix("./") {
        plain = behind.trim_start_matches('/');
    }
    if plain.is_empty() && !name.is_empty() {
        return "./";
    }
    plain
}

/// Whether a target is special in make, or a suffix rule, or begins with a dot as these do.
pub fn is_dotted(target: &str) -> bool {
    target.starts_with('.') && !target.contains('/') && target != ".." && target != "."
}

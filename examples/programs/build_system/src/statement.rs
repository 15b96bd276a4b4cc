//! What a line of a makefile is: a variable or a rule.

use crate::fault::{Part, Problem};
use crate::lines::is_blank;
use crate::template::is_variable_name;
use crate::variables::is_special;

/// Words that begin lines of make's language which the subset leaves out.
const DIRECTIVES: [&str; 19] = [
    "include", "-include", "sinclude", "define", "endef", "ifdef", "ifndef", "ifeq", "ifneq", "else", "endif", "export",
    "unexport", "override", "private", "undefine", "vpath", "load", "-load",
];

/// A line that is no command, before its variables are replaced.
#[derive(Clone, Copy, Debug, PartialEq, Eq)]
pub enum Statement<'a> {
    Blank,
    Assignment { name: &'a str, value: &'a str },
    Rule { targets: &'a str, prerequisites: &'a str },
}

/// Reads a line without its comment.
pub fn statement_of(line: &str) -> Result<Statement<'_>, Problem> {
    let text = line.trim_start_matches(is_blank);
    let Some(first) = text.split(is_blank).next().filter(|word| !word.is_empty()) else {
        return Ok(Statement::Blank);
    };
    if DIRECTIVES.contains(&first) {
        return Err(Part::Directive(first.to_string()).into());
    }
    let place = find_outside(text, &[':', '=']).ok_or(Problem::NoSeparator)?;
    let (front, behind) = (&text[..place], &text[place + 1..]);
    if text[place..].starts_with('=') {
        assignment(front, behind)
    } else {
        rule(front, behind)
    }
}

fn assignment<'a>(front: &'a str, behind: &'a str) -> Result<Statement<'a>, Problem> {
    for (mark, operator) in [('?', "?="), ('+', "+="), ('!', "!=")] {
        if front.ends_with(mark) {
            return Err(Problem::Assignment(operator));
        }
    }
    let name = front.trim_end_matches(is_blank);
    if is_special(name) {
        return Err(Part::SpecialVariable(name.to_string()).into());
    }
    if !is_variable_name(name) {
        return Err(Problem::VariableName(name.to_string()));
    }
    let value = behind.trim_start_matches(is_blank);
    Ok(Statement::Assignment { name, value })
}

fn rule<'a>(targets: &'a str, prerequisites: &'a str) -> Result<Statement<'a>, Problem> {
    for (front, operator) in [("=", ":="), (":=", "::="), ("::=", ":::=")] {
        if prerequisites.starts_with(front) {
            return Err(Problem::Assignment(operator));
        }
    }
    if prerequisites.starts_with(':') {
        return Err(Part::DoubleColon.into());
    }
    match find_outside(prerequisites, &[';', ':', '=']).map(|place| prerequisites.as_bytes()[place]) {
        _ if find_outside(targets, &[';']).is_some() => Err(Problem::CommandOnRuleLine),
        Some(b';') => Err(Problem::CommandOnRuleLine),
        Some(b':') => Err(Part::SecondColon.into()),
        Some(_) => Err(Part::TargetVariable.into()),
        None => Ok(Statement::Rule { targets, prerequisites }),
    }
}

/// The place of the first of these letters that is in no reference to a variable.
fn find_outside(text: &str, wanted: &[char]) -> Option<usize> {
    let mut close = None;
    let mut before = ' ';
    for (place, letter) in text.char_indices() {
        close = match (close, before, letter) {
            (Some(end), _, _) => (letter != end).then_some(end),
            (None, '$', '(') => Some(')'),
            (None, '$', '{') => Some('}'),
            (None, _, _) if wanted.contains(&letter) => return Some(place),
            (None, _, _) => None,
        };
        // The second of two dollar signs begins no reference.
        before = if (before, letter) == ('$', '$') { ' ' } else { letter };
    }
    None
}

//! A makefile's lines, with continued lines joined and comments dropped.

use crate::fault::{Fault, Problem};

/// A line as make sees it.
#[derive(Clone, Debug, PartialEq, Eq)]
pub struct Line {
    /// Its first physical line, counted from 1.
    pub number: usize,
    pub kind: Kind,
    /// A recipe's line has no tab at its start, and keeps its comments and its joined lines. Another line has neither.
    pub text: String,
}

#[derive(Clone, Copy, Debug, PartialEq, Eq)]
pub enum Kind {
    /// A tab begins the line.
    Recipe,
    Other,
}

/// A makefile's bytes as text. Drops a mark of the byte order.
pub fn text_of(bytes: &[u8]) -> Result<&str, Fault> {
    let line_at = |place: usize| 1 + bytes[..place].iter().filter(|byte| **byte == b'\n').count();
    if let Some(place) = bytes.iter().position(|byte| *byte == 0) {
        return Err(Problem::Nul.at(line_at(place)));
    }
    let text = std::str::from_utf8(bytes).map_err(|error| Problem::NotUtf8.at(line_at(error.valid_up_to())))?;
    Ok(text.strip_prefix('\u{feff}').unwrap_or(text))
}

/// The lines of a makefile, each with what continues it.
pub fn lines_of(text: &str) -> Result<Vec<Line>, Fault> {
    let mut physical = (1..).zip(text.lines());
    let mut lines = Vec::new();
    while let Some((number, first)) = physical.next() {
        lines.push(match first.strip_prefix('\t') {
            Some(first) => recipe_line(number, first, &mut physical)?,
            None => other_line(number, first, &mut physical)?,
        });
    }
    Ok(lines)
}

/// A recipe's line. The shell joins what continues it, so the backslashes stay.
fn recipe_line<'a>(
    number: usize,
    first: &str,
    physical: &mut impl Iterator<Item = (usize, &'a str)>,
) -> Result<Line, Fault> {
    let mut text = first.to_string();
    while is_continued(&text) {
        let (_, next) = physical.next().ok_or(Problem::OpenContinuation.at(number))?;
        text.push('\n');
        text.push_str(next.strip_prefix('\t').unwrap_or(next));
    }
    Ok(Line {
        number,
        kind: Kind::Recipe,
        text,
    })
}

/// Another line: one blank is left of a backslash at a line's end and of the blanks around it.
fn other_line<'a>(
    number: usize,
    first: &str,
    physical: &mut impl Iterator<Item = (usize, &'a str)>,
) -> Result<Line, Fault> {
    let mut text = first.to_string();
    while let Some(front) = text.strip_suffix('\\') {
        if front.ends_with('\\') {
            return Err(Problem::BackslashRun.at(number));
        }
        let (_, next) = physical.next().ok_or(Problem::OpenContinuation.at(number))?;
        text.truncate(front.trim_end_matches(is_blank).len());
        text.push(' ');
        text.push_str(next.trim_start_matches(is_blank));
    }
    Ok(Line {
        number,
        kind: Kind::Other,
        text: without_comment(&text),
    })
}

/// What make takes for a blank within a line.
pub fn is_blank(letter: char) -> bool {
    letter == ' ' || letter == '\t'
}

/// An odd number of backslashes ends the text.
fn is_continued(text: &str) -> bool {
    (text.len() - text.trim_end_matches('\\').len()) & 1 == 1
}

/// The text up to its comment. An odd number of backslashes before a `#` makes it a letter, and two of them leave one.
fn without_comment(text: &str) -> String {
    let mut kept = String::with_capacity(text.len());
    for (place, part) in text.split('#').enumerate() {
        if place > 0 {
            let run = kept.len() - kept.trim_end_matches('\\').len();
            kept.truncate(kept.len() - run.div_ceil(2));
            if run & 1 == 0 {
                return kept;
            }
            kept.push('#');
        }
        kept.push_str(part);
    }
    kept
}

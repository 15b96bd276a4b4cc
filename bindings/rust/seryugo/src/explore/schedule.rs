//! A schedule: who goes on at each choice of a run, as one short line.

use super::moves::{By, Move};
use std::fmt::{self, Write};

/// Who goes on at one choice.
#[derive(Clone, Copy, PartialEq, Eq, Debug)]
pub(crate) struct Choice {
    pub task: usize,
    /// Which of its futures goes on, if it waits for several.
    pub at: usize,
    /// Its call ends by its time or fails as stalled, and isn't made.
    pub is_late: bool,
}

impl Choice {
    pub fn of(taken: &Move) -> Choice {
        Choice {
            task: taken.task,
            at: taken.at,
            is_late: taken.by != By::Step,
        }
    }
}

/// The choices of a run, where more than one thread could go on. A digit or a letter is a thread,
/// `(36)` one with a higher number, `[1]` its second future, `!` says that its call ends by its time
/// or as stalled, and `{9}` that the same thread is chosen nine times. A `+` before all says that
/// calls are let fail as stalled, a `=` that open waits may fail so, a `*` that polls of futures are
/// steps, and `!2:` that two calls may end by their time though something else can happen.
#[derive(Clone, Default, PartialEq, Eq, Debug)]
pub(crate) struct Schedule {
    pub choices: Vec<Choice>,
    pub tells_stalls: bool,
    pub open_waits_stall: bool,
    pub polls_are_steps: bool,
    pub time_outs: u32,
}

/// If the same choice follows this many times or more, the line has their count.
const MANY: usize = 4;

impl fmt::Display for Schedule {
    fn fmt(&self, f: &mut fmt::Formatter<'_>) -> fmt::Result {
        if self.tells_stalls {
            f.write_char('+')?;
        }
        if self.open_waits_stall {
            f.write_char('=')?;
        }
        if self.polls_are_steps {
            f.write_char('*')?;
        }
        if self.time_outs > 0 {
            write!(f, "!{}:", self.time_outs)?;
        }
        for same in self.choices.chunk_by(PartialEq::eq) {
            let (text, count) = (one(same[0]), same.len());
            match count {
                0..MANY => f.write_str(&text.repeat(count))?,
                _ => write!(f, "{text}{{{count}}}")?,
            }
        }
        Ok(())
    }
}

fn one(choice: Choice) -> String {
    let digit = u32::try_from(choice.task).ok().and_then(|task| char::from_digit(task, 36));
    let mut text = digit.map_or_else(|| format!("({})", choice.task), String::from);
    if choice.at != 0 {
        text.push_str(&["[", &choice.at.to_string(), "]"].concat());
    }
    if choice.is_late {
        text.push('!');
    }
    text
}

impl Schedule {
    /// Reads a line that a schedule was written as. `None` if it is no such line.
    pub fn read(line: &str) -> Option<Schedule> {
        let (rest, tells_stalls) = has_prefix(line, '+');
        let (rest, open_waits_stall) = has_prefix(rest, '=');
        let (rest, polls_are_steps) = has_prefix(rest, '*');
        let (time_outs, rest) = match rest.strip_prefix('!') {
            Some(rest) => number_until(rest, ':')?,
            None => (0, rest),
        };
        let mut rest = rest.trim();
        let mut choices = Vec::new();
        while !rest.is_empty() {
            let (choice, count, behind) = read_one(rest)?;
            choices.extend(std::iter::repeat_n(choice, count));
            rest = behind;
        }
        Some(Schedule {
            choices,
            tells_stalls,
            open_waits_stall,
            polls_are_steps,
            time_outs: u32::try_from(time_outs).ok()?,
        })
    }
}

/// The rest of a line, and whether this was before it.
fn has_prefix(line: &str, prefix: char) -> (&str, bool) {
    line.strip_prefix(prefix).map_or((line, false), |rest| (rest, true))
}

/// The first choice of a line, how often it follows, and the rest.
fn read_one(line: &str) -> Option<(Choice, usize, &str)> {
    let (task, rest) = if let Some(rest) = line.strip_prefix('(') {
        number_until(rest, ')')?
    } else {
        let first = line.chars().next()?;
        (first.to_digit(36)? as usize, &line[first.len_utf8()..])
    };
    let (at, rest) = match rest.strip_prefix('[') {
        Some(rest) => number_until(rest, ']')?,
        None => (0, rest),
    };
    let (rest, is_late) = has_prefix(rest, '!');
    let (count, rest) = match rest.strip_prefix('{') {
        Some(rest) => number_until(rest, '}')?,
        None => (1, rest),
    };
    (count <= 1 << 24).then_some((Choice { task, at, is_late }, count, rest))
}

fn number_until(line: &str, end: char) -> Option<(usize, &str)> {
    let (number, rest) = line.split_once(end)?;
    Some((number.parse().ok()?, rest))
}

#[cfg(test)]
mod tests {
    use super::*;

    fn choice(task: usize, is_late: bool) -> Choice {
        Choice {
            task,
            at: 0,
            is_late,
        }
    }

    #[test]
    fn a_schedule_is_read_as_it_was_written() {
        let mut choices = vec![choice(0, false), choice(11, false), choice(40, true)];
        choices.extend([choice(2, false); 9]);
        choices.push(Choice {
            at: 2,
            ..choice(1, true)
        });
        let schedule = Schedule {
            choices,
            tells_stalls: true,
            open_waits_stall: true,
            polls_are_steps: true,
            time_outs: 12,
        };
        assert_eq!(schedule.to_string(), "+=*!12:0b(40)!2{9}1[2]!");
        assert_eq!(Schedule::read("+=*!12:0b(40)!2{9}1[2]!"), Some(schedule));
        assert_eq!(Schedule::read(""), Some(Schedule::default()));
        for line in [
            "?",
            "(1",
            "1{",
            "1{x}",
            "()",
            "!",
            "!1",
            "!:1",
            "1{99999999999}",
        ] {
            assert_eq!(Schedule::read(line), None, "{line}");
        }
    }
}

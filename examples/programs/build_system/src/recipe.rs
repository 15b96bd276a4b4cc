//! The commands of one target, with the values of the variables.

use crate::fault::{Fault, Part, Problem};
use crate::lines::is_blank;
use crate::makefile::Recipe;
use crate::template::AutomaticValues;
use crate::variables::Variables;

/// A line of a recipe, as the shell has it.
#[derive(Clone, Debug, PartialEq, Eq)]
pub struct Command {
    pub line: usize,
    pub text: String,
    /// `@`: the command isn't printed.
    pub is_silent: bool,
    /// `-`: the target is made even if the command fails.
    pub ignores_failure: bool,
}

/// The commands of a target. Lines without a command are left out.
pub fn commands_of(recipe: &Recipe, variables: &Variables, values: &AutomaticValues) -> Result<Vec<Command>, Fault> {
    let mut commands = Vec::new();
    for line in &recipe.commands {
        let text = line.text.expand(variables, Some(values)).map_err(|problem| problem.at(line.line))?;
        let command = command_of(&text, line.line).map_err(|problem| problem.at(line.line))?;
        commands.extend(Some(command).filter(|command| !command.text.is_empty()));
    }
    Ok(commands)
}

/// A command without the marks before it.
fn command_of(text: &str, line: usize) -> Result<Command, Problem> {
    let command = text.trim_start_matches(|letter| is_blank(letter) || "@-+".contains(letter));
    let marks = &text[..text.len() - command.len()];
    if marks.contains('+') {
        return Err(Part::PlusPrefix.into());
    }
    Ok(Command {
        line,
        text: command.to_string(),
        is_silent: marks.contains('@'),
        ignores_failure: marks.contains('-'),
    })
}

//! A makefile: its rules and variables.

use crate::fault::{Fault, NameProblem, Problem};
use crate::lines::{is_blank, lines_of, Kind, Line};
use crate::names::{is_dotted, names_in};
use crate::statement::{statement_of, Statement};
use crate::template::Template;
use crate::variables::Variables;
use std::collections::{BTreeMap, BTreeSet};
use std::mem;
use std::sync::Arc;

/// What was read.
#[derive(Clone, Debug, Default)]
pub struct Makefile {
    pub variables: Variables,
    pub rules: BTreeMap<String, Rule>,
    pub phony: BTreeSet<String>,
    /// The first target, which is made if the command line names none.
    pub default_goal: Option<String>,
}

/// What is said of one target, in all rules that have it.
#[derive(Clone, Debug, Default, PartialEq, Eq)]
pub struct Rule {
    pub prerequisites: Vec<String>,
    pub recipe: Option<Arc<Recipe>>,
}

/// A rule's commands. Of a tab alone there are none, and such a recipe does nothing.
#[derive(Clone, Debug, PartialEq, Eq)]
pub struct Recipe {
    /// The line of the rule.
    pub line: usize,
    pub commands: Vec<RecipeLine>,
}

#[derive(Clone, Debug, PartialEq, Eq)]
pub struct RecipeLine {
    pub line: usize,
    pub text: Template,
}

impl Makefile {
    /// Reads a makefile's text. The variables are those of the command line and the environment.
    pub fn read(text: &str, variables: Variables) -> Result<Makefile, Fault> {
        let mut reader = Reader {
            makefile: Makefile {
                variables,
                ..Makefile::default()
            },
            rule: None,
        };
        for line in lines_of(text)? {
            reader.read(&line)?;
        }
        reader.end_rule()?;
        Ok(reader.makefile)
    }
}

/// A rule to which commands may still be added.
struct OpenRule {
    line: usize,
    targets: Vec<String>,
    prerequisites: Vec<String>,
    commands: Vec<RecipeLine>,
}

struct Reader {
    makefile: Makefile,
    rule: Option<OpenRule>,
}

impl Reader {
    fn read(&mut self, line: &Line) -> Result<(), Fault> {
        let at = |problem: Problem| problem.at(line.number);
        if line.kind == Kind::Recipe {
            return self.add_command(line).map_err(at);
        }
        match statement_of(&line.text).map_err(at)? {
            Statement::Blank => Ok(()),
            Statement::Assignment { name, value } => {
                self.end_rule()?;
                let value = Template::parse(value).map_err(at)?;
                self.makefile.variables.define(name, value, line.number);
                Ok(())
            }
            Statement::Rule { targets, prerequisites } => {
                self.end_rule()?;
                self.begin_rule(targets, prerequisites, line.number).map_err(at)
            }
        }
    }

    fn add_command(&mut self, line: &Line) -> Result<(), Problem> {
        let is_empty = line.text.trim_start_matches(is_blank).is_empty();
        match &mut self.rule {
            Some(rule) => {
                let (line, text) = (line.number, Template::parse(&line.text)?);
                rule.commands.push(RecipeLine { line, text });
                Ok(())
            }
            None if is_empty || line.text.trim_start_matches(is_blank).starts_with('#') => Ok(()),
            None => Err(Problem::RecipeWithoutRule),
        }
    }

    fn begin_rule(&mut self, targets: &str, prerequisites: &str, line: usize) -> Result<(), Problem> {
        let mut targets = self.names(targets)?;
        keep_first_of_each(&mut targets);
        let prerequisites = self.names(prerequisites)?;
        if targets.is_empty() {
            return Err(Problem::NoTarget);
        }
        if targets != [".PHONY"] {
            refuse_dotted(&targets)?;
            self.makefile.default_goal.get_or_insert_with(|| targets[0].clone());
        }
        self.rule = Some(OpenRule {
            line,
            targets,
            prerequisites,
            commands: Vec::new(),
        });
        Ok(())
    }

    /// The names in a part of a rule, with the values that the variables have so far.
    fn names(&self, text: &str) -> Result<Vec<String>, Problem> {
        names_in(&Template::parse(text)?.expand(&self.makefile.variables, None)?)
    }

    fn end_rule(&mut self) -> Result<(), Fault> {
        let Some(rule) = self.rule.take() else {
            return Ok(());
        };
        if rule.targets == [".PHONY"] {
            self.makefile.phony.extend(rule.prerequisites);
            return match rule.commands.first() {
                Some(command) => Err(Problem::PhonyMixed.at(command.line)),
                None => Ok(()),
            };
        }
        let recipe = (!rule.commands.is_empty()).then(|| {
            Arc::new(Recipe {
                line: rule.line,
                commands: rule.commands,
            })
        });
        rule.targets
            .into_iter()
            .try_for_each(|target| self.add_rule(target, &rule.prerequisites, recipe.as_ref()))
            .map_err(|problem| problem.at(rule.line))
    }

    /// Adds to what is said of a target. The prerequisites of the rule with the commands come first, so that `$<` is one of them.
    fn add_rule(&mut self, target: String, more: &[String], recipe: Option<&Arc<Recipe>>) -> Result<(), Problem> {
        let rule = self.makefile.rules.entry(target.clone()).or_default();
        match (&rule.recipe, recipe) {
            (Some(known), Some(_)) => {
                let first = known.line;
                return Err(Problem::SecondRecipe { target, first });
            }
            (None, Some(recipe)) => {
                rule.recipe = Some(recipe.clone());
                let others = mem::replace(&mut rule.prerequisites, more.to_vec());
                rule.prerequisites.extend(others);
            }
            (_, None) => rule.prerequisites.extend_from_slice(more),
        }
        Ok(())
    }
}

fn refuse_dotted(targets: &[String]) -> Result<(), Problem> {
    match targets.iter().find(|target| is_dotted(target)) {
        Some(target) if target == ".PHONY" => Err(Problem::PhonyMixed),
        Some(target) => Err(Problem::Name {
            name: target.clone(),
            why: NameProblem::Dotted,
        }),
        None => Ok(()),
    }
}

/// Keeps the first of equal names.
pub fn keep_first_of_each(names: &mut Vec<String>) {
    let mut known = BTreeSet::new();
    names.retain(|name| known.insert(name.clone()));
}

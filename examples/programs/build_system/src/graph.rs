//! The graph of what the goals need.

use crate::fault::Fault;
use crate::makefile::{keep_first_of_each, Makefile, Rule};
use crate::recipe::{commands_of, Command};
use crate::template::AutomaticValues;
use std::collections::HashMap;
use std::fmt;

/// The goals and all that they need, each once.
#[derive(Debug)]
pub struct Graph {
    /// Each object is after its prerequisites.
    pub objects: Vec<Object>,
    /// The places of the goals, in the order of the command line.
    pub goals: Vec<usize>,
}

/// A target or a file.
#[derive(Debug, PartialEq, Eq)]
pub struct Object {
    pub name: String,
    pub is_phony: bool,
    /// Whether a rule has it as a target.
    pub is_target: bool,
    /// The places of its prerequisites.
    pub prerequisites: Vec<usize>,
    pub commands: Option<Vec<Command>>,
    /// The object that brought it into the graph. A goal has none.
    pub needed_by: Option<String>,
}

/// Why there is no graph.
#[derive(Debug, PartialEq, Eq)]
pub enum GraphError {
    Fault(Fault),
    /// These need each other, the last one the first.
    Cycle(Vec<String>),
}

impl From<Fault> for GraphError {
    fn from(fault: Fault) -> GraphError {
        GraphError::Fault(fault)
    }
}

impl fmt::Display for GraphError {
    fn fmt(&self, f: &mut fmt::Formatter<'_>) -> fmt::Result {
        match self {
            GraphError::Fault(fault) => fault.problem.fmt(f),
            GraphError::Cycle(names) => {
                f.write_str("circular dependency: ")?;
                names.iter().try_for_each(|name| write!(f, "{name} <- "))?;
                f.write_str(&names[0])
            }
        }
    }
}

impl Graph {
    /// What these goals need.
    pub fn of(makefile: &Makefile, goals: &[String]) -> Result<Graph, GraphError> {
        let mut walk = Walk {
            makefile,
            objects: Vec::new(),
            found: HashMap::new(),
            path: Vec::new(),
        };
        goals.iter().try_for_each(|goal| walk.visit(goal))?;
        Ok(Graph {
            goals: walk.places(goals),
            objects: walk.objects,
        })
    }

    /// How many prerequisites all objects have.
    pub fn edges(&self) -> usize {
        self.objects.iter().map(|object| object.prerequisites.len()).sum()
    }
}

/// What the walk knows of a name.
#[derive(Clone, Copy)]
enum Found {
    /// It is on the path from a goal to where the walk is.
    OnPath,
    Placed(usize),
}

/// An object on the path.
struct Step {
    name: String,
    prerequisites: Vec<String>,
    /// How many of them were visited.
    visited: usize,
}

/// A walk from the goals along the prerequisites. It keeps its path in a list, since a graph may be deeper than a thread's stack.
struct Walk<'a> {
    makefile: &'a Makefile,
    objects: Vec<Object>,
    found: HashMap<String, Found>,
    path: Vec<Step>,
}

impl Walk<'_> {
    /// Places an object after all that it needs.
    fn visit(&mut self, goal: &str) -> Result<(), GraphError> {
        self.go_to(goal)?;
        while let Some(step) = self.path.last_mut() {
            match step.prerequisites.get(step.visited).cloned() {
                Some(next) => {
                    step.visited += 1;
                    self.go_to(&next)?;
                }
                None => self.place_last()?,
            }
        }
        Ok(())
    }

    /// Goes on to an object, unless it has its place.
    fn go_to(&mut self, name: &str) -> Result<(), GraphError> {
        match self.found.get(name) {
            Some(Found::Placed(_)) => return Ok(()),
            Some(Found::OnPath) => return Err(self.cycle_at(name)),
            None => {}
        }
        let mut prerequisites = self.rule(name).map(|rule| rule.prerequisites.clone()).unwrap_or_default();
        keep_first_of_each(&mut prerequisites);
        self.found.insert(name.to_string(), Found::OnPath);
        self.path.push(Step {
            name: name.to_string(),
            prerequisites,
            visited: 0,
        });
        Ok(())
    }

    /// The objects from this one on, which is on the path and needs itself.
    fn cycle_at(&self, name: &str) -> GraphError {
        GraphError::Cycle(self.path.iter().map(|step| step.name.clone()).skip_while(|known| known != name).collect())
    }

    /// Gives the last object on the path its place. All its prerequisites have theirs.
    fn place_last(&mut self) -> Result<(), GraphError> {
        let Some(step) = self.path.pop() else {
            return Ok(());
        };
        let object = Object {
            is_phony: self.makefile.phony.contains(&step.name),
            is_target: self.rule(&step.name).is_some(),
            prerequisites: self.places(&step.prerequisites),
            commands: self.commands(&step)?,
            needed_by: self.path.last().map(|parent| parent.name.clone()),
            name: step.name,
        };
        self.found.insert(object.name.clone(), Found::Placed(self.objects.len()));
        self.objects.push(object);
        Ok(())
    }

    fn commands(&self, step: &Step) -> Result<Option<Vec<Command>>, Fault> {
        let Some(recipe) = self.rule(&step.name).and_then(|rule| rule.recipe.as_ref()) else {
            return Ok(None);
        };
        let values = AutomaticValues {
            target: step.name.clone(),
            first: step.prerequisites.first().cloned().unwrap_or_default(),
            all: step.prerequisites.join(" "),
        };
        commands_of(recipe, &self.makefile.variables, &values).map(Some)
    }

    fn places(&self, names: &[String]) -> Vec<usize> {
        let place_of = |name| match self.found.get(name) {
            Some(Found::Placed(place)) => Some(*place),
            _ => None,
        };
        names.iter().filter_map(place_of).collect()
    }

    fn rule(&self, name: &str) -> Option<&Rule> {
        self.makefile.rules.get(name)
    }
}

//! What is wrong with a makefile, and in which line.

use std::fmt;

/// A fault of a makefile.
#[derive(Clone, Debug, PartialEq, Eq)]
pub struct Fault {
    /// The first physical line of what has the fault, counted from 1. A fault of a variable of the command line has none.
    pub line: Option<usize>,
    pub problem: Problem,
}

/// Why a makefile is refused.
#[derive(Clone, Debug, PartialEq, Eq)]
pub enum Problem {
    LeftOut(Part),
    NotUtf8,
    Nul,
    OpenContinuation,
    BackslashRun,
    NoSeparator,
    NoTarget,
    RecipeWithoutRule,
    SecondRecipe { target: String, first: usize },
    PhonyMixed,
    Assignment(&'static str),
    VariableName(String),
    CommandOnRuleLine,
    Name { name: String, why: NameProblem },
    Reference(String),
    ShortReference(char),
    OpenReference,
    LoneDollar,
    AutomaticOutside,
    NoValue(String),
    Recursive(String),
    TooLong,
    TooDeep,
}

/// A part of make's language that the subset leaves out.
#[derive(Clone, Debug, PartialEq, Eq)]
pub enum Part {
    Directive(String),
    SpecialVariable(String),
    DoubleColon,
    SecondColon,
    TargetVariable,
    OrderOnly,
    OwnMakefile(String),
    PlusPrefix,
}

/// Why a target or a prerequisite has no such name.
#[derive(Clone, Copy, Debug, PartialEq, Eq)]
pub enum NameProblem {
    Pattern,
    Wildcard,
    Home,
    Backslash,
    Archive,
    Grouped,
    Separator,
    Dotted,
}

impl Problem {
    /// The problem in this line.
    pub fn at(self, line: usize) -> Fault {
        Fault {
            line: Some(line),
            problem: self,
        }
    }
}

impl fmt::Display for Problem {
    fn fmt(&self, f: &mut fmt::Formatter<'_>) -> fmt::Result {
        match self {
            Problem::LeftOut(part) => write!(f, "{part} isn't in the subset"),
            Problem::NotUtf8 => f.write_str("the line isn't UTF-8"),
            Problem::Nul => f.write_str("the line has a NUL character"),
            Problem::OpenContinuation => f.write_str("a backslash ends the file"),
            Problem::BackslashRun => f.write_str("several backslashes end the line"),
            Problem::NoSeparator => f.write_str("missing separator: the line is neither a rule nor a variable"),
            Problem::NoTarget => f.write_str("the rule has no target"),
            Problem::RecipeWithoutRule => f.write_str("recipe commences before first target: a tab begins the line"),
            Problem::SecondRecipe { target, first } => {
                write!(f, "target '{target}' has commands here and in line {first}")
            }
            Problem::PhonyMixed => f.write_str(".PHONY has other targets beside it, or commands"),
            Problem::Assignment(operator) => {
                write!(f, "the assignment '{operator}' isn't in the subset: write NAME = value")
            }
            Problem::VariableName(name) => write!(f, "'{name}' is no name of a variable"),
            Problem::CommandOnRuleLine => {
                f.write_str("a command in a rule's own line isn't in the subset: write it in a line after a tab")
            }
            Problem::Name { name, why } => write!(f, "'{name}': {why} in the subset"),
            Problem::Reference(text) => {
                write!(f, "the reference '{text}' isn't in the subset: write $(NAME), $@, $< or $^")
            }
            Problem::ShortReference(letter) => {
                write!(f, "the reference '${letter}' isn't in the subset: write $(NAME), or $${letter} for the shell")
            }
            Problem::OpenReference => f.write_str("unterminated variable reference"),
            Problem::LoneDollar => f.write_str("a dollar sign ends the text: write $$ for the shell"),
            Problem::AutomaticOutside => f.write_str("$@, $< and $^ have a value only in commands"),
            Problem::NoValue(name) => write!(f, "the variable '{name}' has no value here"),
            Problem::Recursive(name) => write!(f, "recursive variable '{name}' references itself"),
            Problem::TooLong => f.write_str("the text is too long once its variables are replaced"),
            Problem::TooDeep => f.write_str("the variables refer to each other too deeply"),
        }
    }
}

impl fmt::Display for Part {
    fn fmt(&self, f: &mut fmt::Formatter<'_>) -> fmt::Result {
        match self {
            Part::Directive(word) => write!(f, "the directive '{word}'"),
            Part::SpecialVariable(name) => write!(f, "the special variable '{name}'"),
            Part::DoubleColon => f.write_str("the double-colon rule"),
            Part::SecondColon => f.write_str("the second colon"),
            Part::TargetVariable => f.write_str("the variable of one target"),
            Part::OrderOnly => f.write_str("the order-only prerequisite"),
            Part::OwnMakefile(name) => write!(f, "the rule for the makefile '{name}' itself"),
            Part::PlusPrefix => f.write_str("the prefix '+' of a command"),
        }
    }
}

impl From<Part> for Problem {
    fn from(part: Part) -> Problem {
        Problem::LeftOut(part)
    }
}

impl fmt::Display for NameProblem {
    fn fmt(&self, f: &mut fmt::Formatter<'_>) -> fmt::Result {
        f.write_str(match self {
            NameProblem::Pattern => "a pattern with '%' isn't",
            NameProblem::Wildcard => "a wildcard isn't",
            NameProblem::Home => "a name that begins with '~' isn't",
            NameProblem::Backslash => "a backslash in a name isn't",
            NameProblem::Archive => "a member of an archive isn't",
            NameProblem::Grouped => "grouped targets with '&' aren't",
            NameProblem::Separator => "a name with ':', ';' or '=' isn't",
            NameProblem::Dotted => "a special target or a suffix rule isn't, nor is another target that begins with a dot,",
        })
    }
}

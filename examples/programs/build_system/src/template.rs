//! Text with references to variables.

use crate::fault::Problem;
use crate::variables::Variables;

/// What a text may grow to.
const MOST_BYTES: usize = 1 << 26;
/// A reference counts as this many bytes, since one of a variable without a value takes time too.
const REFERENCE: usize = 64;
/// How deep variables may refer to each other.
const MOST_DEPTH: usize = 1_000;

/// A text that was read, with its references.
#[derive(Clone, Debug, Default, PartialEq, Eq)]
pub struct Template {
    pieces: Vec<Piece>,
}

#[derive(Clone, Debug, PartialEq, Eq)]
enum Piece {
    Text(String),
    Variable(String),
    Automatic(Automatic),
}

#[derive(Clone, Copy, Debug, PartialEq, Eq)]
enum Automatic {
    Target,
    FirstPrerequisite,
    AllPrerequisites,
}

/// The values of `$@`, `$<` and `$^` in a rule's commands.
#[derive(Clone, Debug)]
pub struct AutomaticValues {
    pub target: String,
    pub first: String,
    pub all: String,
}

impl AutomaticValues {
    fn of(&self, automatic: Automatic) -> &str {
        match automatic {
            Automatic::Target => &self.target,
            Automatic::FirstPrerequisite => &self.first,
            Automatic::AllPrerequisites => &self.all,
        }
    }
}

impl Template {
    /// Reads a text, and refuses each reference that the subset leaves out.
    pub fn parse(text: &str) -> Result<Template, Problem> {
        let mut pieces = Vec::new();
        let mut rest = text;
        while let Some((before, after)) = rest.split_once('$') {
            pieces.extend(piece_of(before));
            let (piece, behind) = reference(after)?;
            pieces.push(piece);
            rest = behind;
        }
        pieces.extend(piece_of(rest));
        Ok(Template { pieces })
    }

    /// The text with the variables' values. `$@` and its like have a value if these are there.
    pub fn expand(&self, variables: &Variables, automatic: Option<&AutomaticValues>) -> Result<String, Problem> {
        let mut expansion = Expansion {
            variables,
            automatic,
            text: String::new(),
            references: 0,
            within: Vec::new(),
        };
        expansion.add(self)?;
        Ok(expansion.text)
    }
}

fn piece_of(text: &str) -> Option<Piece> {
    (!text.is_empty()).then(|| Piece::Text(text.to_string()))
}

/// What a dollar sign begins, and the text after that.
fn reference(after: &str) -> Result<(Piece, &str), Problem> {
    let letter = after.chars().next().ok_or(Problem::LoneDollar)?;
    let behind = &after[letter.len_utf8()..];
    if let Some(automatic) = automatic_of(letter) {
        return Ok((Piece::Automatic(automatic), behind));
    }
    match letter {
        '$' => Ok((Piece::Text("$".to_string()), behind)),
        '(' => named(behind, ')'),
        '{' => named(behind, '}'),
        _ => Err(Problem::ShortReference(letter)),
    }
}

/// A reference in parentheses, after the opening one.
fn named(text: &str, close: char) -> Result<(Piece, &str), Problem> {
    let (name, behind) = text.split_once(close).ok_or(Problem::OpenReference)?;
    if is_variable_name(name) {
        return Ok((Piece::Variable(name.to_string()), behind));
    }
    let mut letters = name.chars();
    match (letters.next().and_then(automatic_of), letters.next()) {
        (Some(automatic), None) => Ok((Piece::Automatic(automatic), behind)),
        _ => Err(Problem::Reference(format!("$({name})"))),
    }
}

fn automatic_of(letter: char) -> Option<Automatic> {
    match letter {
        '@' => Some(Automatic::Target),
        '<' => Some(Automatic::FirstPrerequisite),
        '^' => Some(Automatic::AllPrerequisites),
        _ => None,
    }
}

/// Letters, digits, `_`, `.` and `-`.
pub fn is_variable_name(name: &str) -> bool {
    !name.is_empty() && name.bytes().all(|byte| byte.is_ascii_alphanumeric() || b"_.-".contains(&byte))
}

/// A text while it grows.
struct Expansion<'a> {
    variables: &'a Variables,
    automatic: Option<&'a AutomaticValues>,
    text: String,
    /// The bytes for which the references count.
    references: usize,
    /// The variables whose values it is in.
    within: Vec<&'a str>,
}

impl<'a> Expansion<'a> {
    fn add(&mut self, template: &'a Template) -> Result<(), Problem> {
        template.pieces.iter().try_for_each(|piece| match piece {
            Piece::Text(text) => self.add_text(text),
            Piece::Automatic(automatic) => {
                let values = self.automatic.ok_or(Problem::AutomaticOutside)?;
                self.add_text(values.of(*automatic))
            }
            Piece::Variable(name) => self.add_variable(name),
        })
    }

    fn add_text(&mut self, text: &str) -> Result<(), Problem> {
        if self.text.len() + self.references + text.len() > MOST_BYTES {
            return Err(Problem::TooLong);
        }
        self.text.push_str(text);
        Ok(())
    }

    fn add_variable(&mut self, name: &'a str) -> Result<(), Problem> {
        if self.within.contains(&name) {
            return Err(Problem::Recursive(name.to_string()));
        }
        if self.within.len() >= MOST_DEPTH {
            return Err(Problem::TooDeep);
        }
        self.references += REFERENCE;
        self.add_text("")?;
        let value = self.variables.get(name)?;
        self.within.push(name);
        self.add(value)?;
        self.within.pop();
        Ok(())
    }
}

//! What the program prints: whole lines, and the lines of one command together.

use crate::capture::Capture;
use std::fmt::Display;
use std::io::{self, Write};
use std::sync::{Mutex, PoisonError};

/// Standard output and standard error, for one thread at a time.
#[derive(Debug, Default)]
pub struct Console {
    /// The first error of a write.
    error: Mutex<Option<io::Error>>,
}

impl Console {
    /// Prints a line on standard output.
    pub fn line(&self, text: impl Display) {
        self.write(|| print_line(text));
    }

    /// Prints a text that ends with a line's end.
    pub fn text(&self, text: &str) {
        self.line(text.trim_end());
    }

    /// Prints a line on standard error, after the program's name.
    pub fn error(&self, text: impl Display) {
        self.write(|| writeln!(io::stderr().lock(), "cml_make: {text}"));
    }

    /// Prints a command, if there is one, and all that was captured of it.
    pub fn captured(&self, command: Option<&str>, capture: &mut Capture) {
        self.write(|| {
            command.map_or(Ok(()), print_line)?;
            capture.print()
        });
    }

    fn write(&self, write: impl FnOnce() -> io::Result<()>) {
        let mut error = self.error.lock().unwrap_or_else(PoisonError::into_inner);
        if let Err(new) = write() {
            error.get_or_insert(new);
        }
    }

    /// The first error of a write, if one failed.
    pub fn into_error(self) -> Option<io::Error> {
        self.error.into_inner().unwrap_or_else(PoisonError::into_inner)
    }
}

fn print_line(text: impl Display) -> io::Result<()> {
    let mut output = io::stdout().lock();
    writeln!(output, "{text}")?;
    output.flush()
}

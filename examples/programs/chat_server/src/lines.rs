//! The lines that a client sends, each of a bounded length.

use std::io::{self, Read};

/// How many bytes a line may have before its line feed.
pub const LONGEST: usize = 4_096;

/// One line, or what is there in its place.
#[derive(Debug, PartialEq, Eq)]
pub enum Line<'a> {
    /// A line without its line feed. The last one may have none.
    Whole(&'a [u8]),
    /// A line has more than [`LONGEST`] bytes. The next one is the line after it.
    TooLong,
    /// The client sends no more.
    End,
}

/// Reads lines, and keeps at most one.
pub struct Lines<R> {
    reader: R,
    buffer: Box<[u8]>,
    /// What was read and not yet returned is `buffer[start..end]`.
    start: usize,
    end: usize,
    /// Whether the line at `start` was too long, and is skipped.
    is_skipping: bool,
}

impl<R: Read> Lines<R> {
    pub fn new(reader: R) -> Lines<R> {
        Lines {
            reader,
            buffer: vec![0; 2 * LONGEST].into_boxed_slice(),
            start: 0,
            end: 0,
            is_skipping: false,
        }
    }

    /// The next line.
    ///
    /// Errors: what the reader fails with. Then a later call reads on.
    pub fn next(&mut self) -> io::Result<Line<'_>> {
        loop {
            if let Some(length) = self.held().iter().position(|byte| *byte == b'\n') {
                let start = self.start;
                self.start += length + 1;
                if self.is_skipping {
                    self.is_skipping = false;
                } else if length > LONGEST {
                    return Ok(Line::TooLong);
                } else {
                    return Ok(Line::Whole(&self.buffer[start..start + length]));
                }
            } else if self.is_skipping {
                self.start = self.end;
                if self.fill()? == 0 {
                    return Ok(Line::End);
                }
            } else if self.held().len() > LONGEST {
                self.is_skipping = true;
                return Ok(Line::TooLong);
            } else if self.fill()? == 0 {
                return Ok(self.last());
            }
        }
    }

    /// What is left after the last line feed.
    fn last(&mut self) -> Line<'_> {
        let start = self.start;
        self.start = self.end;
        match &self.buffer[start..self.end] {
            [] => Line::End,
            line => Line::Whole(line),
        }
    }

    fn held(&self) -> &[u8] {
        &self.buffer[self.start..self.end]
    }

    /// Reads some bytes after those that are held: how many.
    fn fill(&mut self) -> io::Result<usize> {
        self.buffer.copy_within(self.start..self.end, 0);
        self.end -= self.start;
        self.start = 0;
        let count = self.reader.read(&mut self.buffer[self.end..])?;
        self.end += count;
        Ok(count)
    }
}

#[cfg(test)]
mod tests {
    use super::*;

    /// Hands over at most this many bytes at once.
    struct Slowly<'a>(&'a [u8], usize);

    impl Read for Slowly<'_> {
        fn read(&mut self, to: &mut [u8]) -> io::Result<usize> {
            let most = self.1.min(to.len());
            self.0.read(&mut to[..most])
        }
    }

    fn all(text: &[u8], at_once: usize) -> Vec<String> {
        let mut lines = Lines::new(Slowly(text, at_once));
        let mut all = Vec::new();
        loop {
            match lines.next().unwrap() {
                Line::Whole(line) => all.push(String::from_utf8_lossy(line).into_owned()),
                Line::TooLong => all.push("too long".to_owned()),
                Line::End => return all,
            }
        }
    }

    #[test]
    fn lines_are_the_same_however_they_come() {
        for at_once in [1, 2, 3, 7, 100_000] {
            assert_eq!(all(b"", at_once), [""; 0]);
            assert_eq!(all(b"one\ntwo", at_once), ["one", "two"]);
            assert_eq!(all(b"\n\none\n", at_once), ["", "", "one"]);
        }
    }

    #[test]
    fn a_line_that_is_too_long_is_skipped_to_its_end() {
        let longest = "x".repeat(LONGEST);
        for at_once in [1, 4_096, 4_097, 100_000] {
            let text = format!("{longest}\n{longest}y\nshort\n{longest}{longest}{longest}\nlast");
            assert_eq!(all(text.as_bytes(), at_once), [longest.as_str(), "too long", "short", "too long", "last"]);
            assert_eq!(all(format!("{longest}y").as_bytes(), at_once), ["too long"]);
            assert_eq!(all(longest.as_bytes(), at_once), [longest.as_str()]);
        }
    }

    #[test]
    fn a_megabyte_takes_no_more_memory() {
        let text = vec![b'x'; 1 << 20];
        let mut lines = Lines::new(&text[..]);
        assert_eq!(lines.next().unwrap(), Line::TooLong);
        assert_eq!(lines.next().unwrap(), Line::End);
        assert_eq!(lines.buffer.len(), 2 * LONGEST);
    }
}

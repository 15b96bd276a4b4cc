//! Why the system refused a call on a journal's file.

use std::cell::RefCell;
use std::fmt;
use std::hash::{Hash, Hasher};
use std::io;
use std::sync::Arc;

/// Why the system refused a call on a journal's file, in words, and with the system's error.
///
/// ```
/// use seryugo::{Error, Switchboard};
/// use std::io::{self, ErrorKind};
///
/// let refused = Switchboard::open("/no/such/folder/x.journal").unwrap_err();
/// let Error::FileFailed(cause) = &refused else { panic!("{refused}") };
/// assert_eq!(cause.io_error().map(io::Error::kind), Some(ErrorKind::NotFound));
/// assert!(std::error::Error::source(&refused).is_some_and(|source| source.is::<io::Error>()));
/// ```
#[derive(Clone, Debug, Default)]
pub struct FileCause {
    words: String,
    error: Option<Arc<io::Error>>,
}

thread_local! {
    /// Why the last call of this thread failed that failed on a file. The library returns a code,
    /// and the call's error is made of that on the same thread.
    static LAST: RefCell<FileCause> = RefCell::default();
}

impl FileCause {
    /// With the cause as `errno`, or 0 if the system gave none.
    pub(crate) fn new(words: String, errno: i32) -> FileCause {
        let error = (errno != 0).then(|| Arc::new(io::Error::from_raw_os_error(errno)));
        FileCause { words, error }
    }

    /// Has the next error of this thread say this.
    pub(crate) fn note(self) {
        // As a thread ends, an error says less.
        let _ = LAST.try_with(|last| last.replace(self));
    }

    /// What was noted last.
    pub(crate) fn last() -> FileCause {
        LAST.try_with(|last| last.borrow().clone()).unwrap_or_default()
    }

    /// The system's error. `None` if it gave none, as where another program cut the file.
    #[must_use]
    pub fn io_error(&self) -> Option<&io::Error> {
        self.error.as_deref()
    }

    /// These words, and the cause's if it has some.
    pub(super) fn after(&self, words: &str, f: &mut fmt::Formatter<'_>) -> fmt::Result {
        match self.words.is_empty() {
            true => f.write_str(words),
            false => write!(f, "{words}: {self}"),
        }
    }

    fn errno(&self) -> Option<i32> {
        self.io_error().and_then(io::Error::raw_os_error)
    }
}

impl fmt::Display for FileCause {
    fn fmt(&self, f: &mut fmt::Formatter<'_>) -> fmt::Result {
        f.write_str(&self.words)
    }
}

impl PartialEq for FileCause {
    fn eq(&self, other: &FileCause) -> bool {
        (&self.words, self.errno()) == (&other.words, other.errno())
    }
}

impl Eq for FileCause {}

impl Hash for FileCause {
    fn hash<H: Hasher>(&self, state: &mut H) {
        (&self.words, self.errno()).hash(state);
    }
}

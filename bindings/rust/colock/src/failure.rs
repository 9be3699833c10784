use std::fmt;
use std::io;
use std::ops::Deref;
use std::sync::Arc;

/// What went wrong with a file or a program, in words; and the error of the system, where it was one. It is as a `str`.
///
/// ```
/// use colock::{Error, OpenOptions};
/// use std::io::ErrorKind;
///
/// match OpenOptions::new().program("/no/such/program").open("seats.db") {
///     Err(Error::CannotOpen(failure)) => {
///         assert!(failure.starts_with("/no/such/program: "));
///         assert_eq!(failure.io_error().map(|error| error.kind()), Some(ErrorKind::NotFound));
///     }
///     other => panic!("{other:?}"),
/// }
/// ```
#[derive(Clone)]
pub struct Failure {
    words: String,
    io_error: Option<Arc<io::Error>>,
}

impl Failure {
    /// That of an error of the system.
    pub(crate) fn of(what: impl fmt::Display, error: io::Error) -> Failure {
        Failure { words: format!("{what}: {error}"), io_error: Some(Arc::new(error)) }
    }

    /// The error of the system, whose words are among these.
    pub fn io_error(&self) -> Option<&io::Error> {
        self.io_error.as_deref()
    }
}

impl From<String> for Failure {
    fn from(words: String) -> Failure {
        Failure { words, io_error: None }
    }
}

impl Deref for Failure {
    type Target = str;

    fn deref(&self) -> &str {
        &self.words
    }
}

/// By the words, which say what the error of the system says.
impl PartialEq for Failure {
    fn eq(&self, other: &Failure) -> bool {
        self.words == other.words
    }
}

impl Eq for Failure {}

impl fmt::Display for Failure {
    fn fmt(&self, f: &mut fmt::Formatter<'_>) -> fmt::Result {
        f.write_str(self)
    }
}

impl fmt::Debug for Failure {
    fn fmt(&self, f: &mut fmt::Formatter<'_>) -> fmt::Result {
        fmt::Debug::fmt(&self.words, f)
    }
}

//! The kinds of recovery.

use serde::{Deserialize, Serialize};
use std::fmt;

/// How an object recovers.
#[derive(Clone, Copy, Debug, PartialEq, Eq, Hash, PartialOrd, Ord, Serialize, Deserialize)]
#[serde(rename_all = "lowercase")]
pub enum Recovery {
    /// Update in place.
    Undo,
    /// Deferred update.
    Intentions,
    /// A number between its bounds.
    Escrow,
}

impl Recovery {
    /// All of them.
    pub const ALL: [Recovery; 3] = [Recovery::Undo, Recovery::Intentions, Recovery::Escrow];

    /// The kind that a word names.
    pub fn of(word: &str) -> Option<Recovery> {
        Recovery::ALL.into_iter().find(|kind| kind.word() == word)
    }

    /// Its word.
    pub fn word(self) -> &'static str {
        match self {
            Recovery::Undo => "undo",
            Recovery::Intentions => "intentions",
            Recovery::Escrow => "escrow",
        }
    }
}

impl fmt::Display for Recovery {
    fn fmt(&self, f: &mut fmt::Formatter<'_>) -> fmt::Result {
        f.write_str(self.word())
    }
}

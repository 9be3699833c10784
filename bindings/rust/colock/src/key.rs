//! Keys, which clients give transactions, so that each is done once.

use crate::asked::words_in;
use crate::error::Error;
use crate::objects::is_name;
use std::fmt;

/// A key: it has the shape of an object's name, and no slash.
#[derive(Clone, Copy, Debug, PartialEq, Eq)]
pub(crate) struct Key<'k>(&'k str);

impl<'k> Key<'k> {
    /// The key of a text.
    pub(crate) fn of(text: &'k str) -> Result<Key<'k>, Error> {
        if is_name(text) && !text.contains('/') {
            Ok(Key(text))
        } else {
            Err(Error::BadKey(text.to_string()))
        }
    }

    pub(crate) fn as_str(self) -> &'k str {
        self.0
    }
}

impl fmt::Display for Key<'_> {
    fn fmt(&self, f: &mut fmt::Formatter<'_>) -> fmt::Result {
        f.write_str(self.0)
    }
}

/// Whose work committed under a key, where a commit is told that it is done.
#[derive(Clone, Copy, Debug, PartialEq, Eq)]
pub(crate) enum Doer {
    /// That of this commit, as far as the client can tell.
    This,
    /// That of another one: what this one was to commit is aborted.
    Another,
}

/// What became of the transaction of a key, by [`SharedStore::outcome`](crate::SharedStore::outcome).
#[derive(Clone, Debug, PartialEq, Eq)]
#[non_exhaustive]
pub enum KeyOutcome {
    /// The store knows of no transaction that committed under the key, is prepared or was aborted: it is free.
    Unknown,
    /// It committed.
    Committed {
        /// The replies of its calls, in their order, where an [attempt](crate::SharedStore::attempt_under) did it; else none.
        replies: Vec<String>,
    },
    /// It was aborted, and nothing is done under the key.
    Aborted,
    /// One is [prepared](crate::SharedTransaction::prepare) under it, and isn't decided.
    Prepared,
}

impl KeyOutcome {
    /// That of one that committed with these replies, with a space between two.
    pub(crate) fn of_replies(replies: &str) -> KeyOutcome {
        KeyOutcome::Committed { replies: words_in(replies).into_iter().map(str::to_string).collect() }
    }
}

#[cfg(test)]
mod tests {
    use super::{Key, KeyOutcome};
    use crate::Error;

    #[test]
    fn keys_have_a_shape() {
        let longest = "k".repeat(64);
        for text in ["a", "order:4711", "A-Z_0.9", "-", "..", &longest] {
            assert_eq!(Key::of(text).map(Key::as_str), Ok(text));
        }
        let too_long = "k".repeat(65);
        for text in ["", " ", "a b", "a/b", "/", "=a", "@a", "a\n", "\u{e9}", "a\u{0}", &too_long] {
            assert_eq!(Key::of(text), Err(Error::BadKey(text.to_string())));
        }
    }

    #[test]
    fn replies_are_words() {
        for (text, words) in [("", &[][..]), ("ok", &["ok"][..]), ("ok 7 ok", &["ok", "7", "ok"][..])] {
            assert_eq!(KeyOutcome::of_replies(text), KeyOutcome::Committed { replies: words.iter().map(ToString::to_string).collect() });
        }
    }
}

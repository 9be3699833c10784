//! What the store is asked.

use crate::engine::flight::Form;

/// A line for the store.
#[derive(Debug)]
pub struct Question<A> {
    /// Its words, without a tag.
    pub words: String,
    /// How the answer looks.
    pub form: Form,
    /// What it is about, for whoever is told the answers.
    pub about: A,
}

impl<A> Question<A> {
    /// A line with an answer of one line.
    pub fn about(words: impl Into<String>, about: A) -> Question<A> {
        Question { words: words.into(), form: Form::One, about }
    }

    /// A line with an answer of many.
    pub fn list_about(words: impl Into<String>, about: A) -> Question<A> {
        Question { words: words.into(), form: Form::List, about }
    }
}

impl<A: Default> Question<A> {
    /// A line with an answer of one line, of which nothing is to be noted.
    pub fn of(words: impl Into<String>) -> Question<A> {
        Question::about(words, A::default())
    }

    /// A line with an answer of many.
    pub fn list(words: impl Into<String>) -> Question<A> {
        Question::list_about(words, A::default())
    }

    /// A line whose answer may come late.
    pub fn late(words: impl Into<String>) -> Question<A> {
        Question { words: words.into(), form: Form::Late, about: A::default() }
    }
}

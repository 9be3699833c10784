//! What the text of a type says of its operations. Its faults are the store's to find; what is read here was accepted before, or
//! is shown as far as it can be read.

use crate::store::recovery::Recovery;
use std::collections::BTreeSet;

/// An operation's call and reply.
#[derive(Clone, Debug, PartialEq, Eq)]
pub struct OperationWords {
    /// The call.
    pub call: String,
    /// The reply.
    pub reply: String,
}

/// How a type is given.
#[derive(Clone, Debug, PartialEq, Eq)]
pub enum Form {
    /// By a table of its states.
    Table,
    /// As a number up to this one.
    Number(u32),
}

/// The text of a type.
#[derive(Clone, Debug, PartialEq, Eq)]
pub struct TypeText {
    name: String,
    form: Form,
    operations: Vec<OperationWords>,
    undo: BTreeSet<(u8, u8)>,
    intentions: BTreeSet<(u8, u8)>,
    text: String,
}

impl TypeText {
    /// Reads a text: without comments, with one space between two words.
    pub fn read(text: &str) -> TypeText {
        let lines = text.lines().filter(|line| !line.starts_with('#')).map(|line| line.split(' ').filter(|word| !word.is_empty()).collect::<Vec<_>>());
        let mut read = TypeText {
            name: String::new(),
            form: Form::Table,
            operations: Vec::new(),
            undo: BTreeSet::new(),
            intentions: BTreeSet::new(),
            text: String::new(),
        };
        for words in lines.filter(|words| !words.is_empty()) {
            read.take(&words);
            read.text.push_str(&words.join(" "));
            read.text.push('\n');
        }
        read
    }

    fn take(&mut self, words: &[&str]) {
        match *words {
            ["type" | "number", name] => self.name = name.to_string(),
            ["max", most] => self.form = Form::Number(most.parse().unwrap_or(0)),
            ["op", call, reply] => self.add(call, reply),
            ["take", amount] => ["ok", "short"].iter().for_each(|reply| self.add(&format!("take:{amount}"), reply)),
            ["give", amount] => ["ok", "full"].iter().for_each(|reply| self.add(&format!("give:{amount}"), reply)),
            ["atleast", amount] => ["yes", "no"].iter().for_each(|reply| self.add(&format!("atleast:{amount}"), reply)),
            ["value"] => (0..2).for_each(|_| self.add("value", "n")),
            ["conflict", kind, requested, held] => {
                if let (Ok(requested), Ok(held)) = (requested.parse(), held.parse()) {
                    let table = if kind == "undo" { &mut self.undo } else { &mut self.intentions };
                    table.insert((requested, held));
                }
            }
            _ => {}
        }
    }

    fn add(&mut self, call: &str, reply: &str) {
        self.operations.push(OperationWords { call: call.to_string(), reply: reply.to_string() });
    }

    /// The name that the text gives.
    pub fn name(&self) -> &str {
        &self.name
    }

    /// How the type is given.
    pub fn form(&self) -> &Form {
        &self.form
    }

    /// The operations, by their places; of a number two for each line.
    pub fn operations(&self) -> &[OperationWords] {
        &self.operations
    }

    /// The text.
    pub fn text(&self) -> &str {
        &self.text
    }

    /// The same type with another name.
    pub fn named(&self, name: &str) -> TypeText {
        let (keyword, _) = self.text.split_once(' ').unwrap_or(("type", ""));
        let rest = self.text.split_once('\n').map_or("", |(_, rest)| rest);
        TypeText { name: name.to_string(), text: format!("{keyword} {name}\n{rest}"), ..self.clone() }
    }

    /// The place of the first operation of a call; nothing where there is none.
    pub fn class(&self, call: &str) -> Option<u8> {
        let place = self.operations.iter().position(|operation| operation.call == call).or_else(|| {
            let any = format!("{}:any", call.split_once(':')?.0);
            self.operations.iter().position(|operation| operation.call == any)
        });
        place.and_then(|place| u8::try_from(place).ok())
    }

    /// The words of the operation of a place, which may have an amount.
    pub fn words(&self, place: usize, amount: Option<u32>) -> Option<OperationWords> {
        let operation = self.operations.get(place)?;
        let Some(amount) = amount else { return Some(operation.clone()) };
        let amount = amount.to_string();
        match operation.call.strip_suffix(":any") {
            Some(word) => Some(OperationWords { call: format!("{word}:{amount}"), reply: operation.reply.clone() }),
            None => Some(OperationWords { call: operation.call.clone(), reply: amount }),
        }
    }

    /// Whether a call, once done, may keep another one out. Of escrow it is what holds far from the bounds.
    pub fn blocks(&self, recovery: Recovery, call: u8, other: u8) -> bool {
        let of = |class: u8| {
            let call = self.operations.get(usize::from(class)).map(|operation| operation.call.clone()).unwrap_or_default();
            (0_u8..).zip(&self.operations).filter(move |(_, operation)| operation.call == call).map(|(place, _)| place)
        };
        match recovery {
            Recovery::Escrow => self.moves_alike(call, other),
            Recovery::Undo => of(call).any(|held| of(other).any(|requested| self.undo.contains(&(requested, held)))),
            Recovery::Intentions => of(call).any(|held| of(other).any(|requested| self.intentions.contains(&(requested, held)))),
        }
    }

    /// Whether two calls at a number compete for the same bound, or one looks at what the other moves.
    fn moves_alike(&self, call: u8, other: u8) -> bool {
        let word = |class: u8| self.operations.get(usize::from(class)).map_or("", |operation| operation.call.split(':').next().unwrap_or(""));
        let (call, other) = (word(call), word(other));
        let looks = |word: &str| matches!(word, "value" | "atleast" | "balance");
        match (looks(call), looks(other)) {
            (true, true) => false,
            (false, false) => call == other,
            _ => true,
        }
    }

    /// Whether two operations conflict, of a kind with a table: the one that is requested, and the one that is held.
    pub fn conflicts(&self, recovery: Recovery, requested: u8, held: u8) -> bool {
        match recovery {
            Recovery::Undo => self.undo.contains(&(requested, held)),
            Recovery::Intentions => self.intentions.contains(&(requested, held)),
            Recovery::Escrow => false,
        }
    }
}

#[cfg(test)]
mod tests {
    use super::{Form, OperationWords, TypeText};
    use crate::store::recovery::Recovery;

    const COUNTER: &str = "# a counter\ntype  counter\nstates 3\ninitial 0\nop inc:1 ok\nop dec:1 ok\nstep 0 0 1\n\nconflict undo 0 1\nconflict undo 1 0\nconflict intentions 0 0\nend\n";
    const PURSE: &str = "number purse\nmax 4294967295\ninitial 0\ntake 5\ntake any\ngive any\nvalue\nend\n";

    fn words(call: &str, reply: &str) -> OperationWords {
        OperationWords { call: call.to_string(), reply: reply.to_string() }
    }

    #[test]
    fn a_table_is_read() {
        let counter = TypeText::read(COUNTER);
        assert_eq!((counter.name(), counter.form(), counter.operations().len()), ("counter", &Form::Table, 2));
        assert_eq!((counter.class("inc:1"), counter.class("dec:1"), counter.class("x")), (Some(0), Some(1), None));
        assert!(counter.blocks(Recovery::Undo, 0, 1) && !counter.blocks(Recovery::Undo, 0, 0) && counter.blocks(Recovery::Intentions, 0, 0));
        assert!(counter.text().starts_with("type counter\nstates 3\n") && counter.text().ends_with("end\n"));
    }

    #[test]
    fn a_number_is_read() {
        let purse = TypeText::read(PURSE);
        assert_eq!((purse.name(), purse.form(), purse.operations().len()), ("purse", &Form::Number(u32::MAX), 8));
        assert_eq!(["take:5", "take:7", "give:7", "value", "atleast:1"].map(|call| purse.class(call)), [Some(0), Some(2), Some(4), Some(6), None]);
        assert_eq!(purse.words(3, Some(17)), Some(words("take:17", "short")));
        assert_eq!((purse.words(6, Some(9)), purse.words(0, None), purse.words(8, None)), (Some(words("value", "9")), Some(words("take:5", "ok")), None));
        let blocks = |call, other| purse.blocks(Recovery::Escrow, call, other);
        assert!(blocks(0, 2) && !blocks(2, 4) && blocks(4, 6) && !blocks(6, 6));
    }

    #[test]
    fn another_name_changes_the_name_alone() {
        let counter = TypeText::read(COUNTER).named("sold");
        assert_eq!((counter.name(), counter.text().lines().next()), ("sold", Some("type sold")));
        assert_eq!(TypeText::read(counter.text()), counter);
        assert_eq!(TypeText::read(PURSE).named("b").text().lines().next(), Some("number b"));
    }
}

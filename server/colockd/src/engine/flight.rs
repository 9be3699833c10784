//! What was written to a child and isn't answered. Answers come in the order of the requests, but that to an `extend`, which may
//! come after those to later ones.

use std::collections::VecDeque;

/// The most bytes of an answer of many lines.
pub const LONGEST_LIST: usize = 64 << 20;

/// How an answer looks.
#[derive(Clone, Copy, Debug, PartialEq, Eq)]
pub enum Form {
    /// One line.
    One,
    /// Lines up to one whose word is `ok`, or a refusal.
    List,
    /// One line, which may come later than the answers to what was asked after it.
    Late,
}

/// A request without an answer, and who is to have it.
#[derive(Debug)]
pub struct Pending<T> {
    tag: u64,
    form: Form,
    listed: String,
    asker: T,
}

/// An answer that is whole.
#[derive(Debug, PartialEq, Eq)]
pub struct Whole<'l, T> {
    /// Who asked.
    pub asker: T,
    /// The lines before the last one, each with its LF.
    pub listed: String,
    /// The last line, without its tag.
    pub line: &'l str,
}

/// A line that is no answer to what was asked.
#[derive(Clone, Debug, PartialEq, Eq)]
pub struct NoAnswer(pub String);

/// What was written and isn't answered.
#[derive(Debug)]
pub struct Flight<T> {
    written: VecDeque<Pending<T>>,
    late: Vec<Pending<T>>,
    tags: u64,
}

impl<T> Default for Flight<T> {
    fn default() -> Flight<T> {
        Flight { written: VecDeque::new(), late: Vec::new(), tags: 0 }
    }
}

impl<T> Flight<T> {
    /// A request is written; the result is its tag.
    pub fn expect(&mut self, form: Form, asker: T) -> u64 {
        self.tags += 1;
        let pending = Pending { tag: self.tags, form, listed: String::new(), asker };
        match form {
            Form::Late => self.late.push(pending),
            Form::One | Form::List => self.written.push_back(pending),
        }
        self.tags
    }

    /// How many aren't answered.
    pub fn len(&self) -> usize {
        self.written.len() + self.late.len()
    }

    /// Whether all is answered.
    pub fn is_empty(&self) -> bool {
        self.len() == 0
    }

    /// Takes a line. Where an answer is whole by it, that is the result.
    ///
    /// # Errors
    ///
    /// [`NoAnswer`] where nobody waits for such a line.
    pub fn take<'l>(&mut self, line: &'l str) -> Result<Option<Whole<'l, T>>, NoAnswer> {
        let (tag, rest) = line.split_once(' ').ok_or_else(|| no_answer("without words", line))?;
        let tag: u64 = tag.parse().map_err(|_| no_answer("without a tag", line))?;
        if let Some(place) = self.late.iter().position(|pending| pending.tag == tag) {
            let Pending { asker, listed, .. } = self.late.swap_remove(place);
            return Ok(Some(Whole { asker, listed, line: rest }));
        }
        let head = self.written.front_mut().ok_or_else(|| no_answer("that nobody asked for", line))?;
        if head.tag != tag {
            return Err(no_answer("to another request", line));
        }
        if head.form == Form::List && !is_end_of_list(rest) {
            return list(head, rest).map(|()| None);
        }
        Ok(self.written.pop_front().map(|Pending { asker, listed, .. }| Whole { asker, listed, line: rest }))
    }

    /// No answer comes any more to what was written.
    pub fn lose(&mut self) -> Vec<T> {
        let pending = self.written.drain(..).chain(self.late.drain(..));
        pending.map(|pending| pending.asker).collect()
    }
}

/// A line of a list is added to those before it.
fn list<T>(head: &mut Pending<T>, line: &str) -> Result<(), NoAnswer> {
    if head.listed.len() + line.len() >= LONGEST_LIST {
        return Err(no_answer("that is too long", line));
    }
    head.listed.push_str(line);
    head.listed.push('\n');
    Ok(())
}

/// A key may be `refused`: such a line has more words.
fn is_end_of_list(line: &str) -> bool {
    let is_fault = matches!(line.split_once(' '), Some(("refused" | "fault", why)) if !why.contains(' '));
    line == "ok" || is_fault
}

fn no_answer(why: &str, line: &str) -> NoAnswer {
    let shown: String = line.chars().take(80).collect();
    NoAnswer(format!("an answer {why}: {}", shown.escape_debug()))
}

#[cfg(test)]
mod tests {
    use super::{Flight, Form, NoAnswer, Whole};

    fn whole<'l>(asker: &'static str, listed: &str, line: &'l str) -> Whole<'l, &'static str> {
        Whole { asker, listed: listed.to_string(), line }
    }

    #[test]
    fn answers_go_to_those_who_asked_in_their_order() {
        let mut flight = Flight::default();
        assert_eq!((flight.expect(Form::One, "a"), flight.expect(Form::One, "b")), (1, 2));
        assert_eq!(flight.take("1 reply ok"), Ok(Some(whole("a", "", "reply ok"))));
        assert_eq!(flight.take("2 busy 1.0"), Ok(Some(whole("b", "", "busy 1.0"))));
        assert!(flight.is_empty());
    }

    #[test]
    fn lists_end_by_ok() {
        let mut flight = Flight::default();
        flight.expect(Form::List, "types");
        flight.expect(Form::List, "events");
        assert_eq!(flight.take("1 type seat"), Ok(None));
        assert_eq!(flight.take("1 refused 4.2 17"), Ok(None));
        assert_eq!(flight.take("1 "), Ok(None));
        assert_eq!(flight.take("1 ok"), Ok(Some(whole("types", "type seat\nrefused 4.2 17\n\n", "ok"))));
        assert_eq!(flight.take("2 refused NoMemory"), Ok(Some(whole("events", "", "refused NoMemory"))));
    }

    #[test]
    fn a_late_answer_may_come_behind_others() {
        let mut flight = Flight::default();
        flight.expect(Form::Late, "extend");
        flight.expect(Form::One, "a");
        assert_eq!(flight.take("2 ok"), Ok(Some(whole("a", "", "ok"))));
        assert_eq!(flight.len(), 1);
        assert_eq!(flight.take("1 ok 7"), Ok(Some(whole("extend", "", "ok 7"))));
        assert!(flight.take("1 ok 7").is_err());
    }

    #[test]
    fn nonsense_is_found() {
        let mut flight = Flight::default();
        assert_eq!(flight.take("1 ok"), Err(NoAnswer("an answer that nobody asked for: 1 ok".to_string())));
        flight.expect(Form::One, "a");
        for line in ["", "ok", "2 ok", "x ok", "- fault TooLong", "-1 ok"] {
            assert!(flight.take(line).is_err(), "{line}");
        }
        assert_eq!(flight.lose(), ["a"]);
    }
}

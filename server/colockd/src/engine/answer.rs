//! What `colock serve` answers.

use crate::names::{number_of, TransactionName};
use std::fmt;

/// Why the store refuses something.
#[derive(Clone, Copy, Debug, PartialEq, Eq)]
pub enum Refusal {
    /// The transaction isn't open.
    NotOpen,
    /// There is no such object.
    NoObject,
    /// The type of the object has no such call.
    NoCall,
    /// As many transactions are open as may be.
    TooManyOpen,
    /// The epoch has no room for another event.
    HistoryFull,
    /// The store has no memory left.
    NoMemory,
    /// So many operations can't be rolled back.
    BadRollback,
    /// The transaction of the key was aborted.
    Aborted,
    /// Another key has the place of this one.
    KeyTaken,
    /// An operation of a call that is peeked may change something.
    Changes,
    /// The transaction is prepared: it ends by a decision alone.
    Prepared,
    /// Another transaction is prepared under the key.
    KeyPrepared,
    /// The transaction of the key committed.
    Committed,
    /// The transaction of the key ended otherwise.
    Decided,
    /// Nobody has the key.
    Unknown,
}

impl Refusal {
    const ALL: [(&'static str, Refusal); 15] = [
        ("NotOpen", Refusal::NotOpen),
        ("NoObject", Refusal::NoObject),
        ("NoCall", Refusal::NoCall),
        ("TooManyOpen", Refusal::TooManyOpen),
        ("HistoryFull", Refusal::HistoryFull),
        ("NoMemory", Refusal::NoMemory),
        ("BadRollback", Refusal::BadRollback),
        ("Aborted", Refusal::Aborted),
        ("KeyTaken", Refusal::KeyTaken),
        ("Changes", Refusal::Changes),
        ("Prepared", Refusal::Prepared),
        ("KeyPrepared", Refusal::KeyPrepared),
        ("Committed", Refusal::Committed),
        ("Decided", Refusal::Decided),
        ("Unknown", Refusal::Unknown),
    ];

    fn of(word: &str) -> Option<Refusal> {
        Refusal::ALL.iter().find(|(name, _)| *name == word).map(|(_, refusal)| *refusal)
    }
}

impl fmt::Display for Refusal {
    fn fmt(&self, f: &mut fmt::Formatter<'_>) -> fmt::Result {
        let name = Refusal::ALL.iter().find(|(_, refusal)| refusal == self).map_or("", |(name, _)| name);
        f.write_str(name)
    }
}

/// How many transactions had committed in a life when something was read.
#[derive(Clone, Copy, Debug, PartialEq, Eq, PartialOrd, Ord)]
pub struct Moment {
    /// The life.
    pub life: u32,
    /// The commits of the epoch.
    pub commits: u32,
}

/// The last line of an answer, without its tag.
#[derive(Clone, Copy, Debug, PartialEq, Eq)]
pub enum Answer<'a> {
    /// It is done; with what comes behind `ok`.
    Ok(&'a str),
    /// The reply of the operation that was done.
    Reply(&'a str),
    /// This transaction stands in the way.
    Busy(TransactionName),
    /// Of a whole transaction: at the call of this place.
    BusyAt(usize, TransactionName),
    /// The epoch is full.
    Drain,
    /// No operation is legal.
    Illegal,
    /// Of several calls: that of this place.
    IllegalAt(usize),
    /// The store refuses it.
    Refused(Refusal),
    /// Of several calls: that of this place.
    RefusedAt(usize, Refusal),
    /// A whole transaction is done, with these replies.
    Done(&'a str),
    /// The transaction of the key committed, with these replies.
    Committed(&'a str),
    /// The transaction of the key was aborted.
    Aborted,
    /// The transaction of the key is prepared, and not decided.
    Prepared,
    /// The key is unknown.
    Unknown,
    /// What was read, and when.
    Seen(Moment, &'a str),
    /// No objects are added, for this reason.
    No(&'a str),
    /// The line is no request.
    Fault(&'a str),
}

impl<'a> Answer<'a> {
    /// What a line says; nothing where it is no answer.
    pub fn read(line: &'a str) -> Option<Answer<'a>> {
        let (verb, rest) = line.split_once(' ').unwrap_or((line, ""));
        match verb {
            "ok" => Some(Answer::Ok(rest)),
            "reply" if !rest.is_empty() => Some(Answer::Reply(rest)),
            "done" => Some(Answer::Done(rest)),
            "busy" => Answer::busy(rest),
            "none" if rest.is_empty() => Some(Answer::Illegal),
            "none" => Some(Answer::IllegalAt(place_of(rest)?)),
            "refused" => Answer::refused(rest),
            "committed" => Some(Answer::Committed(rest)),
            "aborted" => Some(Answer::Aborted),
            "prepared" => Some(Answer::Prepared),
            "unknown" => Some(Answer::Unknown),
            "seen" => Answer::seen(rest),
            "no" => Some(Answer::No(rest)),
            "fault" => Some(Answer::Fault(rest)),
            _ => None,
        }
    }

    fn busy(rest: &'a str) -> Option<Answer<'a>> {
        match rest.split_once(' ') {
            Some((place, name)) => Some(Answer::BusyAt(place_of(place)?, name.parse().ok()?)),
            None if rest == "drain" => Some(Answer::Drain),
            None => Some(Answer::Busy(rest.parse().ok()?)),
        }
    }

    fn refused(rest: &'a str) -> Option<Answer<'a>> {
        match rest.split_once(' ') {
            Some((place, why)) => Some(Answer::RefusedAt(place_of(place)?, Refusal::of(why)?)),
            None => Some(Answer::Refused(Refusal::of(rest)?)),
        }
    }

    fn seen(rest: &'a str) -> Option<Answer<'a>> {
        let (moment, words) = rest.split_once(' ').unwrap_or((rest, ""));
        let TransactionName { life, number } = moment.parse().ok()?;
        Some(Answer::Seen(Moment { life, commits: number }, words))
    }
}

fn place_of(word: &str) -> Option<usize> {
    number_of(word).map(|place| place as usize)
}

#[cfg(test)]
mod tests {
    use super::{Answer, Moment, Refusal};
    use crate::names::TransactionName;

    #[test]
    fn each_answer_is_read() {
        let name = TransactionName { life: 4, number: 2 };
        for (line, answer) in [
            ("ok", Answer::Ok("")),
            ("ok 4.0", Answer::Ok("4.0")),
            ("reply short", Answer::Reply("short")),
            ("busy 4.2", Answer::Busy(name)),
            ("busy 3 4.2", Answer::BusyAt(3, name)),
            ("busy drain", Answer::Drain),
            ("none", Answer::Illegal),
            ("none 1", Answer::IllegalAt(1)),
            ("refused NotOpen", Answer::Refused(Refusal::NotOpen)),
            ("refused 0 NoCall", Answer::RefusedAt(0, Refusal::NoCall)),
            ("done ok short", Answer::Done("ok short")),
            ("committed ok", Answer::Committed("ok")),
            ("committed", Answer::Committed("")),
            ("aborted", Answer::Aborted),
            ("prepared", Answer::Prepared),
            ("unknown", Answer::Unknown),
            ("seen 4.7 1 2", Answer::Seen(Moment { life: 4, commits: 7 }, "1 2")),
            ("no TooLarge", Answer::No("TooLarge")),
            ("fault BadTag", Answer::Fault("BadTag")),
        ] {
            assert_eq!(Answer::read(line), Some(answer), "{line}");
        }
    }

    #[test]
    fn nonsense_is_no_answer() {
        for line in ["", "oh", "busy", "busy x", "busy x 1.1", "refused", "refused Because", "none x", "seen", "seen x", "reply"] {
            assert_eq!(Answer::read(line), None, "{line}");
        }
    }

    #[test]
    fn refusals_are_written_as_they_are_read() {
        for (name, refusal) in Refusal::ALL {
            assert_eq!((Refusal::of(name), refusal.to_string().as_str()), (Some(refusal), name));
        }
    }
}

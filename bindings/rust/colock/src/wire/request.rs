//! The lines of `colock serve`: what is asked, and what is answered.

use crate::error::Error;
use crate::event::Event;
use crate::key::{Key, KeyOutcome};
use crate::moment::Moment;
use crate::operation_id::OperationId;
use crate::prepared::{Decision, Prepared};
use crate::transaction_id::{decimal, TransactionId};
use std::fmt;

/// What is asked. It is displayed as its line, without the tag.
#[derive(Clone, Copy, Debug)]
pub(crate) enum Request<'a> {
    Begin,
    Call(TransactionId, u32, &'a str),
    Would(TransactionId, u32, &'a str),
    Commit(TransactionId),
    CommitUnder(TransactionId, Key<'a>),
    Abort(TransactionId),
    Rollback(TransactionId, u32),
    /// Calls of a whole transaction, as `X NAME X NAME..`.
    Do(&'a str),
    DoUnder(Key<'a>, &'a str),
    /// A key, of whose transaction it is asked what became of it.
    Outcome(Key<'a>),
    Prepare(TransactionId, Key<'a>, u32),
    Decide(Key<'a>, Decision),
    Prepared,
    /// Calls of a read, in the same way.
    Peek(&'a str),
    /// Objects, whose committed states are asked for.
    Committed(&'a str),
    Kept(u32),
    Objects,
    Types,
    Events(u32, u32),
    Stats,
    /// Files, of objects and of types.
    Extend(&'a str),
    End,
}

impl<'a> Request<'a> {
    /// Whether lines come before the last one of its answer.
    pub(crate) fn is_list(&self) -> bool {
        matches!(self, Request::Objects | Request::Types | Request::Events(..) | Request::Prepared)
    }

    /// Whether it asks for what all transactions have done.
    pub(crate) fn is_of_store(&self) -> bool {
        matches!(self, Request::Events(..) | Request::Stats)
    }

    /// What it commits.
    pub(crate) fn commits(&self) -> Commits {
        match self {
            Request::Commit(id) | Request::CommitUnder(id, _) => Commits::Transaction(*id),
            Request::Do(_) | Request::DoUnder(..) => Commits::Attempt,
            Request::Prepare(id, ..) => Commits::Preparation(*id),
            _ => Commits::Nothing,
        }
    }

    /// The key under which something is committed by it, where it has one.
    pub(crate) fn key(&self) -> Option<Key<'a>> {
        match self {
            Request::CommitUnder(_, key) | Request::DoUnder(key, _) | Request::Decide(key, Decision::Commit) => Some(*key),
            _ => None,
        }
    }
}

impl fmt::Display for Request<'_> {
    fn fmt(&self, f: &mut fmt::Formatter<'_>) -> fmt::Result {
        match self {
            Request::Begin => f.write_str("begin"),
            Request::Call(id, object, name) => write!(f, "call {id} {object} {name}"),
            Request::Would(id, object, name) => write!(f, "would {id} {object} {name}"),
            Request::Commit(id) => write!(f, "commit {id}"),
            Request::CommitUnder(id, key) => write!(f, "commit {id} {key}"),
            Request::Abort(id) => write!(f, "abort {id}"),
            Request::Rollback(id, count) => write!(f, "rollback {id} {count}"),
            Request::Do(calls) => write!(f, "do {calls}"),
            Request::DoUnder(key, calls) => write!(f, "do ={key} {calls}"),
            Request::Outcome(key) => write!(f, "outcome {key}"),
            Request::Prepare(id, key, until) => write!(f, "prepare {id} {key} {until}"),
            Request::Decide(key, decision) => write!(f, "decide {key} {decision}"),
            Request::Prepared => f.write_str("prepared"),
            Request::Peek(calls) => write!(f, "peek {calls}"),
            Request::Committed(objects) => write!(f, "committed {objects}"),
            Request::Kept(object) => write!(f, "kept {object}"),
            Request::Objects => f.write_str("objects"),
            Request::Types => f.write_str("types"),
            Request::Events(from, count) => write!(f, "events {from} {count}"),
            Request::Stats => f.write_str("stats"),
            Request::Extend(files) => write!(f, "extend {files}"),
            Request::End => f.write_str("end"),
        }
    }
}

/// What a request commits. Where no answer comes, nothing is known of that.
#[derive(Clone, Copy, Debug, PartialEq, Eq)]
pub(crate) enum Commits {
    Nothing,
    Transaction(TransactionId),
    /// A transaction without a name that the client knows.
    Attempt,
    /// It is prepared, for a commit.
    Preparation(TransactionId),
}

/// The last line of an answer, without the tag.
#[derive(Clone, Debug, PartialEq, Eq)]
pub(crate) enum Answer<'a> {
    /// It is done, with what comes after the word.
    Ok(&'a str),
    Reply(&'a str),
    Busy(TransactionId),
    /// The epoch is full, or others add objects.
    Drain,
    None,
    /// The replies of an attempt. Under the key of a commit there is none.
    Done(&'a str),
    /// How the call at a place ended an attempt, or kept a read from its answer.
    BusyAt(usize, TransactionId),
    NoneAt(usize),
    RefusedAt(usize, Error),
    /// What was read, and at which moment.
    Seen(Moment, &'a str),
    /// Why no objects are added.
    No(&'a str),
    Refused(Error),
}

/// The answer of a line; nothing where it is none.
pub(crate) fn answer(line: &str) -> Option<Answer<'_>> {
    let (word, rest) = line.split_once(' ').unwrap_or((line, ""));
    match (word, rest) {
        ("ok", rest) => Some(Answer::Ok(rest)),
        ("reply", name) if !name.is_empty() => Some(Answer::Reply(name)),
        ("busy", "drain") => Some(Answer::Drain),
        ("busy", rest) => busy(rest),
        ("none", "") => Some(Answer::None),
        ("none", at) => place(at).map(Answer::NoneAt),
        ("done", replies) if !replies.is_empty() || line == word => Some(Answer::Done(replies)),
        ("seen", rest) => seen(rest),
        ("no", why) if !why.is_empty() => Some(Answer::No(why)),
        ("refused", rest) => refused(rest),
        _ => None,
    }
}

/// Who is in the way of a call, which may be told by its place.
fn busy(rest: &str) -> Option<Answer<'_>> {
    match rest.split_once(' ') {
        None => rest.parse().ok().map(Answer::Busy),
        Some((at, id)) => Some(Answer::BusyAt(place(at)?, id.parse().ok()?)),
    }
}

/// Why a call is refused, which may be told by its place.
fn refused(rest: &str) -> Option<Answer<'_>> {
    match rest.split_once(' ') {
        None => refusal(rest).map(Answer::Refused),
        Some((at, kind)) => Some(Answer::RefusedAt(place(at)?, refusal(kind)?)),
    }
}

/// What was seen at a moment, which is spelled as the name of a transaction.
fn seen(rest: &str) -> Option<Answer<'_>> {
    let (at, words) = rest.split_once(' ')?;
    let TransactionId { life, number } = at.parse().ok()?;
    Some(Answer::Seen(Moment::new(life, number), words)).filter(|_| !words.is_empty())
}

fn place(word: &str) -> Option<usize> {
    decimal(word).and_then(small)
}

fn refusal(kind: &str) -> Option<Error> {
    Some(match kind {
        "NotOpen" => Error::NotOpen,
        "NoObject" => Error::NoObject,
        "NoCall" => Error::NoCall,
        "TooManyOpen" => Error::TooManyOpen,
        "HistoryFull" => Error::HistoryFull,
        "NoMemory" => Error::NoMemory,
        "BadRollback" => Error::BadRollback,
        "Changes" => Error::Changes,
        "Aborted" => Error::KeyAborted,
        "KeyTaken" => Error::KeyTaken,
        "Prepared" => Error::Prepared,
        "KeyPrepared" => Error::KeyPrepared,
        "Committed" => Error::KeyCommitted,
        "Unknown" => Error::KeyUnknown,
        "Decided" => Error::Decided,
        _ => return None,
    })
}

/// What a line says that became of the transaction of a key; nothing where it says no such thing.
pub(crate) fn outcome(line: &str) -> Option<KeyOutcome> {
    match line.split_once(' ') {
        None if line == "unknown" => Some(KeyOutcome::Unknown),
        None if line == "aborted" => Some(KeyOutcome::Aborted),
        None if line == "prepared" => Some(KeyOutcome::Prepared),
        None if line == "committed" => Some(KeyOutcome::of_replies("")),
        Some(("committed", replies)) if replies.split(' ').all(|reply| !reply.is_empty()) => Some(KeyOutcome::of_replies(replies)),
        _ => None,
    }
}

/// The transaction of a line that lists it as prepared; nothing where it is none.
pub(crate) fn prepared(line: &str) -> Option<Prepared> {
    let mut words = line.split(' ');
    let key = Key::of(words.next()?).ok()?.as_str().to_string();
    let id = words.next()?.parse().ok()?;
    let number = |word: &str| decimal(word).and_then(small);
    let until = number(words.next()?)?;
    let objects = words.map(number).collect::<Option<Vec<u32>>>()?;
    Some(Prepared { key, id, until, objects })
}

/// The most numbers of a line of a history.
const MOST_NUMBERS: usize = 5;

/// The event of a line of a history; nothing where it is none.
pub(crate) fn event(line: &str) -> Option<Event> {
    let (kind, rest) = line.split_once(' ')?;
    let (mut numbers, mut count) = ([0; MOST_NUMBERS], 0);
    for word in rest.split(' ') {
        *numbers.get_mut(count)? = decimal(word)?;
        count += 1;
    }
    let (&worker, numbers) = numbers[..count].split_first()?;
    let worker = small(worker)?;
    Some(match (kind, numbers) {
        ("begin", &[transaction]) => Event::Begin { worker, transaction },
        ("op", &[transaction, object, place]) => {
            Event::Operation { worker, transaction, object: small(object)?, operation: OperationId::listed(small(place)?) }
        }
        ("op", &[transaction, object, place, amount]) => {
            Event::Operation { worker, transaction, object: small(object)?, operation: OperationId::with(small(place)?, small(amount)?) }
        }
        ("busy", &[transaction, object, call, blocker]) => Event::Busy { worker, transaction, object: small(object)?, call: small(call)?, blocker },
        ("none", &[transaction, object, call]) => Event::None { worker, transaction, object: small(object)?, call: small(call)? },
        ("commit", &[transaction]) => Event::Commit { worker, transaction },
        ("abort", &[transaction]) => Event::Abort { worker, transaction },
        ("rollback", &[transaction, operations]) => Event::Rollback { worker, transaction, operations },
        _ => return None,
    })
}

/// A number that has fewer bits.
fn small<N: TryFrom<u64>>(number: u64) -> Option<N> {
    number.try_into().ok()
}

#[cfg(test)]
mod tests {
    use super::{answer, event, outcome, prepared, Answer, Commits, Request};
    use crate::key::{Key, KeyOutcome};
    use crate::{Decision, Error, Event, Moment, OperationId, TransactionId};

    #[test]
    fn requests_are_spelled() {
        let id = TransactionId { life: 3, number: 14 };
        let rows = [
            (Request::Begin, "begin"),
            (Request::Call(id, 2, "inc:1"), "call 3.14 2 inc:1"),
            (Request::Would(id, 2, "inc:1"), "would 3.14 2 inc:1"),
            (Request::Rollback(id, 4_294_967_295), "rollback 3.14 4294967295"),
            (Request::Events(5, 65_536), "events 5 65536"),
            (Request::Do("2 inc:1 3 hold"), "do 2 inc:1 3 hold"),
            (Request::Peek("2 value"), "peek 2 value"),
            (Request::Committed("2 3"), "committed 2 3"),
            (Request::Extend("a b.type"), "extend a b.type"),
        ];
        for (request, line) in rows {
            assert_eq!((request.to_string(), request.key()), (line.to_string(), None));
        }
    }

    #[test]
    fn requests_under_keys_are_spelled() {
        let (id, key) = (TransactionId { life: 3, number: 14 }, Key::of("order:4711").unwrap());
        let rows = [
            (Request::CommitUnder(id, key), "commit 3.14 order:4711", Some(key), Commits::Transaction(id)),
            (Request::DoUnder(key, "2 inc:1 3 hold"), "do =order:4711 2 inc:1 3 hold", Some(key), Commits::Attempt),
            (Request::Outcome(key), "outcome order:4711", None, Commits::Nothing),
            (Request::Prepare(id, key, u32::MAX), "prepare 3.14 order:4711 4294967295", None, Commits::Preparation(id)),
            // what is decided is committed by it under the key, or isn't
            (Request::Decide(key, Decision::Commit), "decide order:4711 commit", Some(key), Commits::Nothing),
            (Request::Decide(key, Decision::Abort), "decide order:4711 abort", None, Commits::Nothing),
        ];
        for (request, line, key, commits) in rows {
            assert_eq!((request.to_string(), request.key(), request.commits(), request.is_list()), (line.to_string(), key, commits, false));
        }
        assert_eq!((Request::Prepared.to_string(), Request::Prepared.is_list()), ("prepared".to_string(), true));
    }

    #[test]
    fn what_is_prepared_is_read() {
        let rows = [
            ("order:4711 3.14 1800000000 0 7 300", ("order:4711", TransactionId::new(3, 14), 1_800_000_000, vec![0, 7, 300])),
            ("refused 3.0 0", ("refused", TransactionId::new(3, 0), 0, vec![])),
            ("- 1.4294967294 4294967295 65535", ("-", TransactionId::new(1, 4_294_967_294), u32::MAX, vec![65_535])),
        ];
        for (line, (key, id, until, objects)) in rows {
            let told = prepared(line).unwrap();
            assert_eq!((told.key.as_str(), told.id, told.until, told.objects), (key, id, until, objects));
        }
        let wrong = ["", "a", "a 3.14", "a 3.14 ", "a 3 0", "a/b 3.14 0", " 3.14 0", "a 3.14 -1", "a 3.14 4294967296", "a 3.14 0 ", "a 3.14 0 x", "a  3.14 0"];
        for line in wrong {
            assert_eq!(prepared(line), None, "{line:?}");
        }
    }

    #[test]
    fn outcomes_are_read() {
        let committed = |replies: &[&str]| Some(KeyOutcome::Committed { replies: replies.iter().map(ToString::to_string).collect() });
        let rows = [
            ("unknown", Some(KeyOutcome::Unknown)),
            ("aborted", Some(KeyOutcome::Aborted)),
            ("prepared", Some(KeyOutcome::Prepared)),
            ("committed", committed(&[])),
            ("committed ok", committed(&["ok"])),
            ("committed ok 7 short", committed(&["ok", "7", "short"])),
        ];
        for (line, wanted) in rows {
            assert_eq!(outcome(line), wanted, "{line}");
        }
        for wrong in [
            "",
            "prepared ",
            "prepared ok",
            "committed ",
            "committed  ok",
            "committed ok ",
            "unknown ok",
            "aborted ",
            "ok",
            "done ok",
            "refused KeyTaken",
            "seen 1.0 ok",
        ] {
            assert_eq!(outcome(wrong), None, "{wrong}");
        }
    }

    #[test]
    fn answers_are_read() {
        let rows = [
            ("ok", Some(Answer::Ok(""))),
            ("ok 3.14", Some(Answer::Ok("3.14"))),
            ("reply ok", Some(Answer::Reply("ok"))),
            ("busy 3.14", Some(Answer::Busy(TransactionId { life: 3, number: 14 }))),
            ("busy drain", Some(Answer::Drain)),
            ("none", Some(Answer::None)),
            ("no a: cannot read", Some(Answer::No("a: cannot read"))),
            ("no", None),
            ("refused NotOpen", Some(Answer::Refused(Error::NotOpen))),
            ("refused Else", None),
            ("fault BadTag", None),
            ("busy 3", None),
            ("busy 3.+4", None),
            ("done ok 7", Some(Answer::Done("ok 7"))),
            ("busy 2 3.14", Some(Answer::BusyAt(2, TransactionId { life: 3, number: 14 }))),
            ("none 4", Some(Answer::NoneAt(4))),
            ("refused 1 NoCall", Some(Answer::RefusedAt(1, Error::NoCall))),
            ("seen 3.14 ok 7", Some(Answer::Seen(Moment::new(3, 14), "ok 7"))),
            ("refused Changes", Some(Answer::Refused(Error::Changes))),
            ("refused Aborted", Some(Answer::Refused(Error::KeyAborted))),
            ("refused KeyTaken", Some(Answer::Refused(Error::KeyTaken))),
            ("refused Prepared", Some(Answer::Refused(Error::Prepared))),
            ("refused KeyPrepared", Some(Answer::Refused(Error::KeyPrepared))),
            ("refused Committed", Some(Answer::Refused(Error::KeyCommitted))),
            ("refused Unknown", Some(Answer::Refused(Error::KeyUnknown))),
            ("refused Decided", Some(Answer::Refused(Error::Decided))),
            ("done", Some(Answer::Done(""))),
            ("done ", None),
            ("busy 2 drain", None),
            ("busy x 3.14", None),
            ("none x", None),
            ("none +4", None),
            ("refused x NoCall", None),
            ("refused 1 Else", None),
            ("seen 3.14", None),
            ("seen 3.14 ", None),
            ("seen 14 ok", None),
            ("reply", None),
            ("", None),
        ];
        for (line, wanted) in rows {
            assert_eq!(answer(line), wanted, "{line}");
        }
    }

    #[test]
    fn events_are_read_as_they_are_displayed() {
        let events = [
            Event::Begin { worker: 0, transaction: 7 },
            Event::Operation { worker: 255, transaction: 7, object: 1, operation: OperationId::listed(2) },
            Event::Operation { worker: 0, transaction: 7, object: 1, operation: OperationId::with(2, 0) },
            Event::Operation { worker: 0, transaction: 7, object: 255, operation: OperationId::with(63, u32::MAX) },
            Event::Busy { worker: 0, transaction: 7, object: 1, call: 2, blocker: 3 },
            Event::None { worker: 0, transaction: 7, object: 1, call: 2 },
            Event::Commit { worker: 0, transaction: 7 },
            Event::Abort { worker: 0, transaction: 7 },
            Event::Rollback { worker: 0, transaction: 7, operations: 4 },
        ];
        for wanted in events {
            assert_eq!(event(&wanted.to_string()), Some(wanted));
        }
        assert_eq!(event("op 0 7 1 2 17"), Some(Event::Operation { worker: 0, transaction: 7, object: 1, operation: OperationId::with(2, 17) }));
        let wrong_amounts = ["op 0 7 1 2 17 3", "op 0 7 1 2 x", "op 0 7 1 2 4294967296", "op 0 7 1 256", "none 0 7 1 2 17", "busy 0 7 1 2 17 3", "op 0 7 1 2 "];
        for wrong in ["", "begin", "begin 0", "begin 256 0", "begin 0 0 0", "op 0 0 0", "other 0 0", "begin 0 x"].iter().chain(&wrong_amounts) {
            assert_eq!(event(wrong), None, "{wrong}");
        }
    }
}

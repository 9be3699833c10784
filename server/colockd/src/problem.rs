//! What is answered where something isn't done, as RFC 9457 has it.

use serde_json::{Map, Value};
use std::fmt::Display;

/// Why something isn't done. Each has a type of its own, which stays what it is.
#[derive(Clone, Copy, Debug, PartialEq, Eq, Hash)]
pub enum ProblemKind {
    /// The path is none.
    NoRoute,
    /// The path doesn't take this method.
    NoMethod,
    /// The path is too long.
    LongPath,
    /// The body isn't what is read here.
    BadBody,
    /// The query isn't what is read here.
    BadQuery,
    /// A header isn't what is read here.
    BadHeader,
    /// A word isn't a name.
    BadName,
    /// A number is out of its range.
    OutOfRange,
    /// The body is too large.
    LargeBody,
    /// The body doesn't come.
    SlowBody,
    /// A transaction has too many calls.
    TooManyCalls,
    /// A list has too many members.
    LongList,
    /// No token was given, or none that is known.
    NoToken,
    /// The token has no right to it.
    NoRight,
    /// It comes from a page of another server.
    ForeignOrigin,
    /// There is no such object.
    NoObject,
    /// There is no such type.
    NoType,
    /// The object has no such call.
    NoCall,
    /// There is no such transaction.
    NoTransaction,
    /// The transaction has ended.
    Ended,
    /// Another one has the name.
    NameTaken,
    /// Another transaction is in the way.
    Busy,
    /// No operation of the call is legal.
    Illegal,
    /// The transaction was aborted, since it waited in a circle.
    Deadlock,
    /// There isn't so much to roll back.
    BadRollback,
    /// The transaction of the key was aborted.
    KeyAborted,
    /// The row of the key has another one.
    KeyTaken,
    /// Another transaction is prepared under the key.
    KeyPrepared,
    /// The transaction of the key committed.
    KeyCommitted,
    /// Nobody has the key.
    NoKey,
    /// The transaction is prepared.
    Prepared,
    /// It was decided otherwise.
    Decided,
    /// An operation of the call may change something.
    Changes,
    /// The text of a type has a fault.
    TypeFault,
    /// The checker says no.
    TypeRefused,
    /// The store has no room for more objects or types.
    StoreFull,
    /// As many transactions are open as one token may have.
    TooManyOfToken,
    /// As many transactions are open as may be.
    TooManyOpen,
    /// As many requests are being answered as may be.
    TooManyRequests,
    /// As many connections are there as may be.
    TooManyConnections,
    /// As many clients follow the events as may.
    TooManyFollowers,
    /// The epoch is full, and the next one hasn't begun.
    EpochEnding,
    /// The epoch has no room for another event.
    HistoryFull,
    /// The store has no memory.
    NoMemory,
    /// What was read isn't of one moment.
    NoMoment,
    /// The events aren't there any more.
    EventsGone,
    /// The store is being started.
    StoreAway,
    /// The store ended before it answered: whether it is done isn't known.
    OutcomeUnknown,
    /// The server ends.
    Draining,
    /// The server did what it shouldn't.
    Internal,
}

/// What is said of a kind: its name, its status, its title, and what to do.
struct Words(ProblemKind, &'static str, u16, &'static str, &'static str);

const WORDS: [Words; 50] = [
    Words(ProblemKind::NoRoute, "no-route", 404, "There is no such path", "See /openapi.json for those that there are."),
    Words(ProblemKind::NoMethod, "no-method", 405, "The path doesn't take this method", "Take one of those that the header Allow names."),
    Words(ProblemKind::LongPath, "long-path", 414, "The path and its query are too long", "Ask for less at once."),
    Words(ProblemKind::BadBody, "bad-body", 400, "The body can't be read", "Mend it at the line and column that are told."),
    Words(ProblemKind::BadQuery, "bad-query", 400, "The query can't be read", "Mend the parameter that is told."),
    Words(ProblemKind::BadHeader, "bad-header", 400, "A header can't be read", "Mend the header that is told."),
    Words(ProblemKind::BadName, "bad-name", 422, "A word isn't a name", "Names are 1 to 32, of objects and keys 1 to 64 bytes of those that are told."),
    Words(ProblemKind::OutOfRange, "out-of-range", 422, "A number is out of its range", "Take one of the range that is told."),
    Words(ProblemKind::LargeBody, "large-body", 413, "The body is too large", "Send less at once."),
    Words(ProblemKind::SlowBody, "slow-body", 408, "The body didn't come in time", "Send it again."),
    Words(ProblemKind::TooManyCalls, "too-many-calls", 422, "There are too many calls, or none", "Make 1 to 64 in one transaction of one request."),
    Words(ProblemKind::LongList, "long-list", 422, "The list is too long, or empty", "Split it."),
    Words(ProblemKind::NoToken, "no-token", 401, "A token is needed", "Send a header `Authorization: Bearer TOKEN` with a token that is known."),
    Words(ProblemKind::NoRight, "no-right", 403, "The token has no right to this", "Ask with another token, or give it the right."),
    Words(ProblemKind::ForeignOrigin, "foreign-origin", 403, "It comes from a page of another server", "Ask from a page of this server, or from no page."),
    Words(ProblemKind::NoObject, "no-object", 404, "There is no such object", "Add it, or mend its name."),
    Words(ProblemKind::NoType, "no-type", 404, "There is no such type", "Put its text first."),
    Words(ProblemKind::NoCall, "no-call", 422, "The type of the object has no such call", "Take a call of its type."),
    Words(ProblemKind::NoTransaction, "no-transaction", 404, "There is no such transaction", "Begin another one."),
    Words(ProblemKind::Ended, "ended", 410, "The transaction has ended", "Begin another one, and do its work again where it didn't commit."),
    Words(ProblemKind::NameTaken, "name-taken", 409, "Another one has the name", "Take another name."),
    Words(ProblemKind::Busy, "busy", 409, "Another transaction is in the way", "Ask again when it has ended, or let the server wait by `wait`."),
    Words(ProblemKind::Illegal, "illegal", 409, "No operation of the call is legal now", "Ask again when the object has another state."),
    Words(
        ProblemKind::Deadlock,
        "deadlock",
        409,
        "The transaction was aborted, for those that waited for it waited in a circle",
        "Begin another one, and do its work again.",
    ),
    Words(ProblemKind::BadRollback, "bad-rollback", 409, "The transaction hasn't done so many operations", "Roll back fewer."),
    Words(ProblemKind::KeyAborted, "key-aborted", 409, "The transaction of the key was aborted", "Take another key."),
    Words(ProblemKind::KeyTaken, "key-taken", 409, "Another key has the place of this one", "Take another key."),
    Words(ProblemKind::KeyPrepared, "key-prepared", 409, "A transaction is prepared under the key", "Decide it, or take another key."),
    Words(ProblemKind::KeyCommitted, "key-committed", 409, "The transaction of the key committed", "Take another key."),
    Words(ProblemKind::NoKey, "no-key", 404, "Nobody has the key", "Mend the key, or prepare the transaction first."),
    Words(ProblemKind::Prepared, "prepared", 409, "The transaction is prepared", "Decide it under its key, by /v1/decisions/KEY."),
    Words(ProblemKind::Decided, "decided", 409, "It was decided otherwise", "Live with the outcome that is told."),
    Words(ProblemKind::Changes, "changes", 422, "The call may change something", "Read by a call that changes nothing."),
    Words(ProblemKind::TypeFault, "type-fault", 422, "The text of the type has a fault", "Mend the line that is told."),
    Words(ProblemKind::TypeRefused, "type-refused", 422, "The checker says no", "Mend the type as is told, or take another recovery."),
    Words(ProblemKind::StoreFull, "store-full", 507, "The store has no room for this", "Use the objects and types that there are."),
    Words(ProblemKind::TooManyOfToken, "too-many-of-token", 429, "As many transactions are open as one token may have", "End one."),
    Words(ProblemKind::TooManyOpen, "too-many-open", 503, "As many transactions are open as may be", "Ask again later."),
    Words(ProblemKind::TooManyRequests, "too-many-requests", 503, "As many requests are being answered as may be", "Ask again later."),
    Words(ProblemKind::TooManyConnections, "too-many-connections", 503, "As many connections are there as may be", "Come again later."),
    Words(ProblemKind::TooManyFollowers, "too-many-followers", 503, "As many clients follow the events as may", "Come again later."),
    Words(ProblemKind::EpochEnding, "epoch-ending", 503, "The epoch is full, and the next one hasn't begun", "Ask again: it begins within seconds."),
    Words(ProblemKind::HistoryFull, "history-full", 503, "The epoch has no room for this", "End the transaction, and begin another one."),
    Words(ProblemKind::NoMemory, "no-memory", 503, "The store has no memory left", "Ask again later."),
    Words(ProblemKind::NoMoment, "no-moment", 503, "What was read isn't of one moment", "Ask again, or for less at once."),
    Words(ProblemKind::EventsGone, "events-gone", 410, "These events aren't kept any more", "Follow from the first ones that are told."),
    Words(ProblemKind::StoreAway, "store-away", 503, "The store is being started", "Ask again: nothing was done."),
    Words(
        ProblemKind::OutcomeUnknown,
        "outcome-unknown",
        503,
        "The store ended before it answered",
        "Look whether it was done; with a key it is safe to ask again.",
    ),
    Words(ProblemKind::Draining, "draining", 503, "The server ends", "Ask another one, or again later."),
    Words(ProblemKind::Internal, "internal", 500, "The server failed", "Tell who runs it, with the request's id."),
];

impl ProblemKind {
    fn words(self) -> &'static Words {
        WORDS.iter().find(|words| words.0 == self).unwrap_or(&WORDS[WORDS.len() - 1])
    }

    /// All kinds.
    pub fn all() -> impl Iterator<Item = ProblemKind> {
        WORDS.iter().map(|words| words.0)
    }

    /// The kind of a name.
    pub fn named(name: &str) -> Option<ProblemKind> {
        ProblemKind::all().find(|kind| kind.name() == name)
    }

    /// Its name, which ends its type.
    pub fn name(self) -> &'static str {
        self.words().1
    }

    /// The status.
    pub fn status(self) -> u16 {
        self.words().2
    }

    /// Its title.
    pub fn title(self) -> &'static str {
        self.words().3
    }

    /// What to do.
    pub fn advice(self) -> &'static str {
        self.words().4
    }

    /// After how many seconds to ask again, where waiting helps.
    pub fn retry_after(self) -> Option<u32> {
        (matches!(self.status(), 429 | 503) && self != ProblemKind::OutcomeUnknown).then_some(1)
    }
}

/// Why something isn't done, of one request.
#[derive(Clone, Debug, PartialEq)]
pub struct Problem {
    /// The kind.
    pub kind: ProblemKind,
    detail: String,
    more: Map<String, Value>,
}

impl Problem {
    /// A problem in words.
    pub fn new(kind: ProblemKind, detail: impl Display) -> Problem {
        Problem { kind, detail: detail.to_string(), more: Map::new() }
    }

    /// The same with something more.
    #[must_use]
    pub fn with(mut self, name: &str, value: impl Into<Value>) -> Problem {
        self.more.insert(name.to_string(), value.into());
        self
    }

    /// Its members.
    pub fn members(&self) -> Map<String, Value> {
        let mut members = Map::new();
        members.insert("type".to_string(), format!("/problems/{}", self.kind.name()).into());
        members.insert("title".to_string(), self.kind.title().into());
        members.insert("status".to_string(), self.kind.status().into());
        members.insert("detail".to_string(), self.detail.clone().into());
        members.insert("todo".to_string(), self.kind.advice().into());
        members.extend(self.more.clone());
        members
    }
}

impl From<ProblemKind> for Problem {
    fn from(kind: ProblemKind) -> Problem {
        Problem::new(kind, kind.title())
    }
}

#[cfg(test)]
mod tests {
    use super::{Problem, ProblemKind, WORDS};
    use std::collections::HashSet;

    #[test]
    fn each_kind_has_its_words() {
        let names: HashSet<_> = ProblemKind::all().map(ProblemKind::name).collect();
        let kinds: HashSet<_> = ProblemKind::all().collect();
        assert_eq!((names.len(), kinds.len()), (WORDS.len(), WORDS.len()));
        assert!(ProblemKind::all().all(|kind| ProblemKind::named(kind.name()) == Some(kind) && kind.status() >= 400));
    }

    #[test]
    fn members_are_those_of_the_rfc_and_more() {
        let members = Problem::new(ProblemKind::Busy, "seat A12").with("blocker", "4.0").members();
        assert_eq!((members["type"].as_str(), members["status"].as_u64(), members["blocker"].as_str()), (Some("/problems/busy"), Some(409), Some("4.0")));
    }
}

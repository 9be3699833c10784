use crate::failure::Failure;
use crate::transaction_id::TransactionId;
use colock_sys::{code, Fault};
use std::fmt;

/// Why something wasn't done. Nothing has changed then, but where an error says that it has.
#[derive(Clone, Debug, PartialEq, Eq)]
#[non_exhaustive]
pub enum Error {
    /// The transaction isn't open.
    NotOpen,
    /// The store has no object of this number.
    NoObject,
    /// The store has no object of this name.
    NoObjectNamed(String),
    /// An object was given this name, which isn't 1 to 64 bytes of `a-z`, `A-Z`, `0-9`, `_`, `:`, `-`, `.` and `/`.
    BadName(String),
    /// An object was given this name, which another one has.
    NameTaken(String),
    /// A transaction was given this key, which isn't 1 to 64 bytes of `a-z`, `A-Z`, `0-9`, `_`, `:`, `-` and `.`. Nothing was asked.
    BadKey(String),
    /// The key's transaction was aborted, and nothing is done under the key.
    KeyAborted,
    /// The place where the file would keep what becomes of the key has another key. Nothing was done. Of keys that differ, two have one
    /// place by a chance of one in 2^62: another key is to be taken.
    KeyTaken,
    /// The transaction is [prepared](crate::SharedTransaction::prepare): nothing but [`SharedStore::decide`](crate::SharedStore::decide)
    /// ends it, or changes what it holds.
    Prepared,
    /// A transaction is [prepared](crate::SharedTransaction::prepare) under the key and isn't decided. Nothing was done.
    KeyPrepared,
    /// A transaction committed under the key, so that none is prepared under it.
    KeyCommitted,
    /// Nobody has the key, so that there is nothing to commit by a [decision](crate::SharedStore::decide).
    KeyUnknown,
    /// The key's transaction ended otherwise than it was to be [decided](crate::SharedStore::decide): it was aborted where it is to
    /// commit, or has committed where it is to be aborted.
    Decided,
    /// What committed under the key aren't calls as those of this [attempt](crate::SharedStore::attempt_under): the key is of other
    /// work. Nothing was done.
    OtherCalls,
    /// No operation of the object's type has this call.
    NoCall,
    /// As many transactions are open as may be: 1,024, or what its [`Limits`](crate::Limits) say.
    TooManyOpen,
    /// The history has no room for the event, and for the end of each open transaction. A store in memory whose events are forgotten goes
    /// on ([`Store::forget_when_full`](crate::Store::forget_when_full)).
    HistoryFull,
    /// Memory was refused.
    NoMemory,
    /// A rollback of no operation, or of more than the transaction has.
    BadRollback,
    /// The text of a type has a fault.
    BadText {
        /// The first refused line, from 1.
        line: u64,
        /// What is wrong with it.
        kind: FaultKind,
    },
    /// The checker refuses the type for this kind of recovery.
    Refused(CheckRefusal),
    /// A store of no object, or one in a file that is extended by none.
    NoObjects,
    /// A store of more objects than it may have: 256, or what its [`Limits`](crate::Limits) say.
    TooManyObjects,
    /// A limit of the store is out of its range. [`Limits`](crate::Limits) has the range of each.
    BadMax,
    /// A transaction is open.
    StillOpen,
    /// No command makes this event now.
    NotMade,
    /// These events were forgotten, or some of them.
    Forgotten,
    /// A parameter of a family is out of its range, or in a wrong order.
    BadParameter,
    /// The family would have more than 64 operations or 1,024 states.
    TooLarge,
    /// The type has no state of this number.
    NoState,
    /// The type has no operation of this number, or none of this call and reply.
    NoOperation,
    /// The text declares a number, which is for [`Kind::Escrow`](crate::Kind::Escrow) alone.
    NeedsEscrow,
    /// A call was busy, where [`Reply::executed`](crate::Reply::executed) asked for its operation.
    Busy {
        /// Who was in its way.
        blocker: TransactionId,
    },
    /// No operation of a call was legal, where [`Reply::executed`](crate::Reply::executed) asked for it.
    Illegal,
    /// No operation of the call at this place, from 0, was legal, where calls were [peeked](crate::SharedStore::peek) at.
    IllegalAt(usize),
    /// A call was [peeked](crate::SharedStore::peek) at of which an operation may change something.
    Changes,
    /// More calls in one [attempt](crate::SharedStore::attempt) than a child takes, which are 64.
    TooManyCalls,
    /// What was read of a child in several lines was of several moments, each time that it was asked again.
    NoMoment,
    /// A call was answered otherwise than its caller expected. The operation was executed, and is in the transaction as
    /// long as that isn't rolled back or aborted.
    Unexpected {
        /// The name of the call.
        call: String,
        /// What it was answered.
        reply: String,
    },
    /// The transaction waited in a circle and was the youngest in it. It has been aborted.
    Deadlock {
        /// For whom it waited.
        waited_for: TransactionId,
    },
    /// The limit of a wait is over. Nothing was executed, and the transaction is open.
    TimedOut,
    /// The end of an epoch aborted the transaction. It comes over a child alone, and only where the checker's yes to some object's type is
    /// one-way: else what is open goes on in the next epoch. A child that is lost is [`Error::ConnectionLost`].
    EpochEnded,
    /// The child is lost, in words. Nothing that was asked since the last answer is known to be done.
    ConnectionLost(String),
    /// The child was lost while a commit was in flight: it may be durable or not. This is the transaction's id,
    /// by which [`SharedStore::committed`](crate::SharedStore::committed) says what became of it, with the file open again.
    /// Under a key the work is done again then, by the same key: it is done once. Or
    /// [`SharedStore::outcome`](crate::SharedStore::outcome) says what became of it.
    OutcomeUnknown(TransactionId),
    /// The child was lost while an [attempt](crate::SharedStore::attempt) was in flight: it may be durable or not, and no id of
    /// it is known. [Under a key](crate::SharedStore::attempt_under) it is asked again then, with the file open again, and done once; or
    /// [`SharedStore::outcome`](crate::SharedStore::outcome) says what became of it.
    AttemptUnknown,
    /// The child was lost while a transaction was [prepared](crate::SharedTransaction::prepare), whose id this is: it is prepared, or
    /// was aborted. [`SharedStore::outcome`](crate::SharedStore::outcome) of its key says which, with the file open again:
    /// [`KeyOutcome::Unknown`](crate::KeyOutcome::Unknown) where it was aborted.
    PrepareUnknown(TransactionId),
    /// The store was closed, by [`SharedStore::close`](crate::SharedStore::close).
    Closed,
    /// A file wasn't opened or made, by the words of the program, or by why it wasn't started.
    CannotOpen(Failure),
    /// A store in a file got no more objects, by the words of the program, or by why it wasn't asked.
    CannotExtend(Failure),
    /// The objects of the file aren't those that were given.
    OtherObjects,
    /// Only a store in memory does this.
    InMemoryOnly,
    /// The thread is in a turn of this store, by [`SharedStore::transact`](crate::SharedStore::transact), for whose end
    /// this would wait.
    InTurn,
    /// A type of more than 1,024 states. This operation made the most new ones.
    TooManyStates {
        /// Its call.
        call: String,
        /// Its reply.
        reply: String,
    },
    /// A code, or a number of something else, that this crate doesn't know: it was made for another library.
    Unknown(u64),
}

/// What is wrong with a line of the text of a type.
#[derive(Clone, Copy, Debug, PartialEq, Eq)]
#[non_exhaustive]
pub enum FaultKind {
    /// A byte outside 32 to 126.
    NotAscii = 1,
    /// More than 200 bytes.
    LineTooLong = 2,
    /// No line feed ends the line.
    Unterminated = 3,
    /// An unknown keyword, a wrong number of words, or a word that is no name or kind.
    UnknownWord = 4,
    /// A word that isn't a number.
    BadNumber = 5,
    /// A number out of its range, or too many lines of a section.
    OutOfRange = 6,
    /// A section or an entry after its place.
    OutOfOrder = 7,
    /// A section that must be there isn't, or the text has no `end`.
    Missing = 8,
    /// A line after `end`.
    AfterEnd = 9,
    /// An operation that came before.
    TwiceOp = 10,
}

/// Why the checker refuses a type.
#[derive(Clone, Copy, Debug, PartialEq, Eq)]
#[non_exhaustive]
pub enum CheckRefusal {
    /// The initial state isn't in the set of states.
    InitialOutside,
    /// From a state of the set an operation leads out of it.
    NotClosed {
        /// The state.
        state: u64,
        /// The operation.
        operation: u64,
    },
    /// By the text a state looks like another, and an operation distinguishes them.
    NotSimulation {
        /// The state.
        state: u64,
        /// The one that it looks like.
        other: u64,
        /// The operation.
        operation: u64,
    },
    /// Two operations that have no conflict don't commute.
    NotCommuting {
        /// The operation that is requested.
        requested: u64,
        /// The operation that is held.
        held: u64,
        /// The state in which they fail.
        state: u64,
    },
    /// For [`Kind::Escrow`](crate::Kind::Escrow): an operation isn't one of numbers. In a state it isn't legal, though it
    /// is in a lower and in a higher one; or it is legal there, and moves it otherwise than the least state in which it
    /// is.
    NotNumeric {
        /// The operation.
        operation: u64,
        /// The state.
        state: u64,
    },
}

/// Events of which one wasn't made. Those before it were.
#[derive(Clone, Debug, PartialEq, Eq)]
#[non_exhaustive]
pub struct NotFollowed {
    /// How many were made.
    pub made: u64,
    /// Why the next wasn't.
    pub error: Error,
}

impl Error {
    /// Whether the same may go well in another transaction, since others were in the way: of [`Error::Busy`],
    /// [`Error::Deadlock`], [`Error::TimedOut`] and [`Error::EpochEnded`]. By these [`SharedStore::retry`](crate::SharedStore::retry)
    /// tries again.
    ///
    /// ```
    /// use colock::Error;
    ///
    /// assert!(Error::TimedOut.is_retryable() && !Error::Illegal.is_retryable());
    /// ```
    pub fn is_retryable(&self) -> bool {
        matches!(self, Error::Busy { .. } | Error::Deadlock { .. } | Error::TimedOut | Error::EpochEnded)
    }

    pub(crate) fn of_code(code: u32) -> Error {
        match code {
            code::NOT_OPEN => Error::NotOpen,
            code::NO_OBJECT => Error::NoObject,
            code::NO_CALL => Error::NoCall,
            code::TOO_MANY_OPEN => Error::TooManyOpen,
            code::HISTORY_FULL => Error::HistoryFull,
            code::NO_MEMORY => Error::NoMemory,
            code::BAD_ROLLBACK => Error::BadRollback,
            code::NO_OBJECTS => Error::NoObjects,
            code::TOO_MANY_OBJECTS => Error::TooManyObjects,
            code::BAD_MAX => Error::BadMax,
            code::STILL_OPEN => Error::StillOpen,
            code::NOT_MADE => Error::NotMade,
            code::FORGOTTEN => Error::Forgotten,
            code::BAD_PARAMETER => Error::BadParameter,
            code::TOO_LARGE => Error::TooLarge,
            code::NO_STATE => Error::NoState,
            code::NO_OPERATION => Error::NoOperation,
            code::NEEDS_ESCROW => Error::NeedsEscrow,
            code::CHANGES => Error::Changes,
            other => Error::Unknown(other.into()),
        }
    }

    /// The error of a type that wasn't made.
    pub(crate) fn of_type(code: u32, fault: &Fault) -> Error {
        match code {
            code::BAD_TEXT => match FaultKind::of(fault.kind) {
                Some(kind) => Error::BadText { line: fault.line, kind },
                None => Error::Unknown(fault.kind),
            },
            code::REFUSED => match CheckRefusal::of(fault) {
                Some(refusal) => Error::Refused(refusal),
                None => Error::Unknown(fault.kind),
            },
            other => Error::of_code(other),
        }
    }
}

impl FaultKind {
    fn of(kind: u64) -> Option<FaultKind> {
        Some(match kind {
            1 => FaultKind::NotAscii,
            2 => FaultKind::LineTooLong,
            3 => FaultKind::Unterminated,
            4 => FaultKind::UnknownWord,
            5 => FaultKind::BadNumber,
            6 => FaultKind::OutOfRange,
            7 => FaultKind::OutOfOrder,
            8 => FaultKind::Missing,
            9 => FaultKind::AfterEnd,
            10 => FaultKind::TwiceOp,
            _ => return None,
        })
    }
}

impl CheckRefusal {
    fn of(fault: &Fault) -> Option<CheckRefusal> {
        let Fault { kind, first, second, third, .. } = *fault;
        Some(match kind {
            1 => CheckRefusal::InitialOutside,
            2 => CheckRefusal::NotClosed { state: first, operation: second },
            3 => CheckRefusal::NotSimulation { state: first, other: second, operation: third },
            4 => CheckRefusal::NotCommuting { requested: first, held: second, state: third },
            5 => CheckRefusal::NotNumeric { operation: first, state: second },
            _ => return None,
        })
    }
}

impl fmt::Display for Error {
    fn fmt(&self, f: &mut fmt::Formatter<'_>) -> fmt::Result {
        match self {
            Error::NotOpen => f.write_str("the transaction isn't open"),
            Error::NoObject => f.write_str("the store has no object of this number"),
            Error::NoCall => f.write_str("no operation of the object's type has this call"),
            Error::TooManyOpen => f.write_str("too many transactions are open"),
            Error::HistoryFull => f.write_str("the history is full"),
            Error::NoMemory => f.write_str("memory was refused"),
            Error::BadRollback => f.write_str("a rollback of no operation, or of more than there are"),
            Error::BadText { line, kind } => write!(f, "line {line} of the type: {kind}"),
            Error::Refused(refusal) => write!(f, "the checker refuses the type: {refusal}"),
            Error::NoObjects => f.write_str("a store of no object"),
            Error::TooManyObjects => f.write_str("a store of too many objects"),
            Error::BadMax => f.write_str("a limit of the store is out of its range"),
            Error::StillOpen => f.write_str("a transaction is open"),
            Error::NotMade => f.write_str("no command makes this event now"),
            Error::Forgotten => f.write_str("these events were forgotten"),
            Error::BadParameter => f.write_str("a parameter is out of its range or in a wrong order"),
            Error::TooLarge => f.write_str("the type would have too many operations or states"),
            Error::NoState => f.write_str("the type has no state of this number"),
            Error::NoOperation => f.write_str("the type has no such operation"),
            Error::NeedsEscrow => f.write_str("the type is a number, which needs escrow"),
            Error::Unknown(number) => write!(f, "the library told {number}, which is unknown"),
            other => other.write_of_clients(f),
        }
    }
}

impl Error {
    /// The words of the errors that the library by itself never returns.
    fn write_of_clients(&self, f: &mut fmt::Formatter<'_>) -> fmt::Result {
        match self {
            Error::NoObjectNamed(name) => write!(f, "the store has no object {name:?}"),
            Error::BadName(name) => write!(f, "{name:?} is no name of an object"),
            Error::NameTaken(name) => write!(f, "two objects have the name {name}"),
            Error::BadKey(key) => write!(f, "{key:?} is no key of a transaction"),
            Error::KeyAborted => f.write_str("the transaction of this key was aborted"),
            Error::KeyTaken => f.write_str("the file has another key in the place of this one"),
            Error::OtherCalls => f.write_str("the key is of other calls"),
            Error::Prepared => f.write_str("the transaction is prepared, and only a decision ends it"),
            Error::KeyPrepared => f.write_str("a transaction is prepared under this key"),
            Error::KeyCommitted => f.write_str("the transaction of this key committed"),
            Error::KeyUnknown => f.write_str("nobody has this key"),
            Error::Decided => f.write_str("the transaction of this key was decided otherwise"),
            Error::Busy { blocker } => write!(f, "transaction {blocker} is in the way"),
            Error::Illegal => f.write_str("no operation of the call is legal"),
            Error::Deadlock { waited_for } => write!(f, "a deadlock: the transaction waited for {waited_for}, and was aborted"),
            Error::IllegalAt(at) => write!(f, "no operation of call {at} is legal"),
            Error::Changes => f.write_str("an operation of the call may change something"),
            Error::TooManyCalls => f.write_str("more calls in one attempt than a child takes"),
            Error::NoMoment => f.write_str("what was read was of several moments"),
            Error::Unexpected { call, reply } => write!(f, "{call} was answered {reply}"),
            Error::TimedOut => f.write_str("the limit of the wait is over"),
            Error::EpochEnded => f.write_str("a new epoch began, which aborted the transaction"),
            Error::ConnectionLost(words) => write!(f, "the store is lost: {words}"),
            Error::OutcomeUnknown(id) => write!(f, "the store was lost while transaction {id} was committed"),
            Error::AttemptUnknown => f.write_str("the store was lost while an attempt was made"),
            Error::PrepareUnknown(id) => write!(f, "the store was lost while transaction {id} was prepared"),
            Error::Closed => f.write_str("the store is closed"),
            Error::CannotOpen(words) => write!(f, "the store can't be opened: {words}"),
            Error::CannotExtend(words) => write!(f, "no objects were added: {words}"),
            Error::OtherObjects => f.write_str("the store has other objects"),
            Error::InTurn => f.write_str("the thread is in a turn of the store, for whose end this would wait"),
            Error::InMemoryOnly => f.write_str("only a store in memory does this"),
            Error::TooManyStates { call, reply } => write!(f, "the type has too many states, most of them by {call} {reply}"),
            other => fmt::Debug::fmt(other, f),
        }
    }
}

impl fmt::Display for FaultKind {
    fn fmt(&self, f: &mut fmt::Formatter<'_>) -> fmt::Result {
        fmt::Debug::fmt(self, f)
    }
}

impl fmt::Display for CheckRefusal {
    fn fmt(&self, f: &mut fmt::Formatter<'_>) -> fmt::Result {
        match self {
            CheckRefusal::InitialOutside => f.write_str("InitialOutside"),
            CheckRefusal::NotClosed { state, operation } => write!(f, "NotClosed {state} {operation}"),
            CheckRefusal::NotSimulation { state, other, operation } => write!(f, "NotSimulation {state} {other} {operation}"),
            CheckRefusal::NotCommuting { requested, held, state } => write!(f, "NotCommuting {requested} {held} {state}"),
            CheckRefusal::NotNumeric { operation, state } => write!(f, "NotNumeric {operation} {state}"),
        }
    }
}

impl fmt::Display for NotFollowed {
    fn fmt(&self, f: &mut fmt::Formatter<'_>) -> fmt::Result {
        write!(f, "{} events were made, and then: {}", self.made, self.error)
    }
}

/// Its source is an error of the system, whose words are among its own.
impl std::error::Error for Error {
    fn source(&self) -> Option<&(dyn std::error::Error + 'static)> {
        match self {
            Error::CannotOpen(failure) | Error::CannotExtend(failure) => Some(failure.io_error()?),
            _ => None,
        }
    }
}

impl std::error::Error for NotFollowed {
    fn source(&self) -> Option<&(dyn std::error::Error + 'static)> {
        Some(&self.error)
    }
}

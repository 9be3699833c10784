use crate::operation_id::OperationId;
use colock_sys as sys;
use std::fmt;

/// What happened in a store. It is displayed as its line in the text of a history.
#[derive(Clone, Copy, Debug, PartialEq, Eq, Hash)]
#[non_exhaustive]
pub enum Event {
    /// A transaction began.
    Begin {
        /// Whoever began it.
        worker: u8,
        /// The transaction.
        transaction: u64,
    },
    /// An operation was executed.
    Operation {
        /// Whoever called it.
        worker: u8,
        /// The transaction.
        transaction: u64,
        /// The object.
        object: u32,
        /// The operation.
        operation: OperationId,
    },
    /// What another transaction did was in the way of a call.
    Busy {
        /// Whoever called it.
        worker: u8,
        /// The transaction.
        transaction: u64,
        /// The object.
        object: u32,
        /// The place of the call, without its amount.
        call: u8,
        /// The other transaction.
        blocker: u64,
    },
    /// No operation of a call was legal.
    None {
        /// Whoever called it.
        worker: u8,
        /// The transaction.
        transaction: u64,
        /// The object.
        object: u32,
        /// The place of the call, without its amount.
        call: u8,
    },
    /// A transaction committed.
    Commit {
        /// Whoever committed it.
        worker: u8,
        /// The transaction.
        transaction: u64,
    },
    /// A transaction aborted.
    Abort {
        /// Whoever aborted it.
        worker: u8,
        /// The transaction.
        transaction: u64,
    },
    /// The last operations of a transaction were taken back.
    Rollback {
        /// Whoever rolled it back.
        worker: u8,
        /// The transaction.
        transaction: u64,
        /// How many they were.
        operations: u64,
    },
}

impl Event {
    /// The event of these words, with the numbers of its transactions out of those that the library gave them; or the number that is
    /// unknown.
    pub(crate) fn of(words: &sys::Event, number: impl Fn(u64) -> u64) -> Result<Event, u64> {
        let sys::Event { transaction, other, op, object, kind, worker, .. } = *words;
        let transaction = number(transaction);
        let worker = u8::try_from(worker).map_err(|_| u64::from(worker))?;
        let operation = || OperationId::try_from(op).map_err(|_| op);
        let call = || u8::try_from(op).map_err(|_| op);
        Ok(match kind {
            0 => Event::Begin { worker, transaction },
            1 => Event::Operation { worker, transaction, object, operation: operation()? },
            2 => Event::Busy { worker, transaction, object, call: call()?, blocker: number(other) },
            3 => Event::None { worker, transaction, object, call: call()? },
            4 => Event::Commit { worker, transaction },
            5 => Event::Abort { worker, transaction },
            6 => Event::Rollback { worker, transaction, operations: other },
            kind => return Err(kind.into()),
        })
    }

    /// The transaction of which it is.
    pub(crate) fn transaction(&self) -> u64 {
        match self {
            Event::Begin { transaction, .. }
            | Event::Operation { transaction, .. }
            | Event::Busy { transaction, .. }
            | Event::None { transaction, .. }
            | Event::Commit { transaction, .. }
            | Event::Abort { transaction, .. }
            | Event::Rollback { transaction, .. } => *transaction,
        }
    }

    /// Which transaction began, and by whom, where one did.
    pub(crate) fn begun(&self) -> Option<(u64, u8)> {
        match self {
            Event::Begin { worker, transaction } => Some((*transaction, *worker)),
            _ => None,
        }
    }

    /// Its words, with the numbers of its transactions in the library.
    pub(crate) fn words(self, in_library: impl Fn(u64) -> u64) -> sys::Event {
        let words = |kind, worker: u8, transaction, object, op, other| {
            let (transaction, worker) = (in_library(transaction), worker.into());
            sys::Event { transaction, other, op, object, kind, worker, reserved: 0 }
        };
        match self {
            Event::Begin { worker, transaction } => words(0, worker, transaction, 0, 0, 0),
            Event::Operation { worker, transaction, object, operation } => words(1, worker, transaction, object, operation.into(), 0),
            Event::Busy { worker, transaction, object, call, blocker } => words(2, worker, transaction, object, call.into(), in_library(blocker)),
            Event::None { worker, transaction, object, call } => words(3, worker, transaction, object, call.into(), 0),
            Event::Commit { worker, transaction } => words(4, worker, transaction, 0, 0, 0),
            Event::Abort { worker, transaction } => words(5, worker, transaction, 0, 0, 0),
            Event::Rollback { worker, transaction, operations } => words(6, worker, transaction, 0, 0, operations),
        }
    }
}

impl fmt::Display for Event {
    fn fmt(&self, f: &mut fmt::Formatter<'_>) -> fmt::Result {
        match self {
            Event::Begin { worker, transaction } => write!(f, "begin {worker} {transaction}"),
            Event::Operation { worker, transaction, object, operation } => write!(f, "op {worker} {transaction} {object} {operation}"),
            Event::Busy { worker, transaction, object, call, blocker } => write!(f, "busy {worker} {transaction} {object} {call} {blocker}"),
            Event::None { worker, transaction, object, call } => write!(f, "none {worker} {transaction} {object} {call}"),
            Event::Commit { worker, transaction } => write!(f, "commit {worker} {transaction}"),
            Event::Abort { worker, transaction } => write!(f, "abort {worker} {transaction}"),
            Event::Rollback { worker, transaction, operations } => write!(f, "rollback {worker} {transaction} {operations}"),
        }
    }
}

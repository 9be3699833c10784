//! What is to be noted of the answer to a question.

use crate::names::TransactionName;
use crate::store::bell::Bell;
use crate::store::calls::Call;
use colock_waiting::{Age, Asker, Number};
use hyper::Body;
use std::sync::Arc;
use std::time::Duration;

/// How a transaction is to end.
#[derive(Clone, Copy, Debug, PartialEq, Eq)]
pub enum Ending {
    /// Its operations are to stay.
    Commit,
    /// They are to be taken back, for this reason.
    Abort(Cause),
}

/// Why a transaction is aborted.
#[derive(Clone, Copy, Debug, PartialEq, Eq)]
pub enum Cause {
    /// Its client asked for that.
    Asked,
    /// Somebody with the right to.
    Admin,
    /// Nothing was asked of it for too long.
    Idle,
    /// It was the victim of a circle of transactions that waited for one another.
    Deadlock,
    /// Its epoch ended, in a store where some yes is one-way.
    Epoch,
    /// The store ended.
    Lost,
    /// The server ends.
    Drained,
    /// It was prepared, and nobody decided it in time.
    Undecided,
    /// Whoever has its key decided so.
    Decided,
}

impl Cause {
    /// Its word, in metrics and answers.
    pub fn word(self) -> &'static str {
        match self {
            Cause::Asked => "asked",
            Cause::Admin => "admin",
            Cause::Idle => "idle",
            Cause::Deadlock => "deadlock",
            Cause::Epoch => "epoch",
            Cause::Lost => "lost",
            Cause::Drained => "drained",
            Cause::Undecided => "undecided",
            Cause::Decided => "decided",
        }
    }
}

/// Whose transaction begins, and how long nothing may be asked of it.
#[derive(Clone, Debug)]
pub struct Beginning {
    /// The name of the token.
    pub owner: Arc<str>,
    /// How long.
    pub idle: Duration,
}

/// What holds a transaction that is prepared.
#[derive(Clone, Debug, PartialEq, Eq)]
pub struct Hold {
    /// The key under which it is decided.
    pub key: Arc<str>,
    /// The second since 1970 at which the server aborts it.
    pub until: u32,
}

/// The calls of a whole transaction.
#[derive(Debug)]
pub struct AttemptCalls {
    /// Each of them.
    pub calls: Vec<Call>,
    /// What it is among those that wait, where it may wait.
    pub place: Option<AttemptPlace>,
}

/// An attempt among those that wait.
#[derive(Clone, Debug)]
pub struct AttemptPlace {
    /// Its number, which is no transaction's.
    pub number: Number,
    /// Its age.
    pub age: Age,
    /// How it is woken.
    pub bell: Arc<Bell>,
}

/// What a question is about.
#[derive(Debug, Default)]
pub enum About {
    /// Nothing is to be noted.
    #[default]
    Nothing,
    /// A transaction begins.
    Begin(Beginning),
    /// A transaction calls; and how it is woken, where it may wait.
    Call(Asker, Option<Arc<Bell>>),
    /// What a call that waits would be answered.
    Would(Number),
    /// A whole transaction; and the body that asked for it, which wakes its connection where it is dropped, as the answer does.
    Attempt(Arc<AttemptCalls>, Option<Body>),
    /// A transaction ends.
    End(TransactionName, Ending),
    /// A transaction takes back so many operations.
    Rollback(TransactionName, u32),
    /// A transaction is prepared.
    Prepare(TransactionName, Hold),
    /// The transaction of a key is decided.
    Decide(Arc<str>, Ending),
    /// What became of the transaction of a key.
    Outcome(Arc<str>),
    /// All that are prepared.
    Prepared,
}

impl About {
    /// The transaction that a question asks something of, where it is one.
    pub fn transaction(&self) -> Option<TransactionName> {
        match self {
            About::Call(asker, _) => Some(TransactionName::unpacked(asker.number.0)),
            About::End(name, _) | About::Rollback(name, _) | About::Prepare(name, _) => Some(*name),
            _ => None,
        }
    }
}

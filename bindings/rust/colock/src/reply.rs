use crate::error::Error;
use crate::operation_id::OperationId;
use crate::transaction_id::{Sight, TransactionId};
use crate::types::calls::Calls;
use crate::word::Word;
use std::fmt;

/// An operation that was executed, in words. It is displayed as its call and its reply.
///
/// Its reply may be a refusal, as `short`, so that it isn't to be dropped unseen: [`Reply::expected`] makes an error of
/// each reply but one.
///
/// ```
/// use colock::{Kind, OperationId, Store, Type};
///
/// let purse = Type::read("number purse\nmax 10000\ninitial 500\ntake any\nvalue\nend\n", Kind::Escrow)?;
/// let store = Store::new([&purse], 100)?;
/// let taken = store.begin()?.call(0, "take:501")?.executed()?;
/// assert_eq!((taken.to_string(), taken.amount, taken.id), ("take:501 short".into(), Some(501), OperationId::with(1, 501)));
/// # Ok::<(), colock::Error>(())
/// ```
#[derive(Clone, Copy, Debug, PartialEq, Eq, Hash)]
#[non_exhaustive]
#[must_use = "the reply may be a refusal: look at it, or name the one that is wanted by `expect` or `expected`"]
pub struct Operation {
    /// The name of its call.
    pub call: Word,
    /// Its reply.
    pub reply: Word,
    /// As of [`OperationId::amount`].
    pub amount: Option<u32>,
    /// Its number in its type, by which events have it.
    pub id: OperationId,
}

impl Operation {
    #[inline]
    pub(crate) fn new(call: Word, reply: Word, id: OperationId) -> Operation {
        Operation { call, reply, amount: id.amount, id }
    }
}

impl fmt::Display for Operation {
    fn fmt(&self, f: &mut fmt::Formatter<'_>) -> fmt::Result {
        write!(f, "{} {}", self.call, self.reply)
    }
}

/// What a call is answered.
#[derive(Clone, Copy, Debug, PartialEq, Eq, Hash)]
#[must_use = "a call that was busy was not executed"]
// no answer is to be overlooked by a match, so it isn't `non_exhaustive`
pub enum Reply {
    /// This operation was executed.
    Operation(Operation),
    /// What another transaction did is in its way, and nothing was executed.
    Busy {
        /// The other transaction: ask again when it has ended, or abort.
        blocker: TransactionId,
    },
    /// No operation of the call is legal, and nothing was executed.
    Illegal,
}

impl Reply {
    /// [`Reply::Illegal`] by its name in version 0.1.
    #[deprecated(since = "0.2.0", note = "it is `Reply::Illegal`")]
    #[allow(non_upper_case_globals)]
    pub const None: Reply = Reply::Illegal;

    /// An outcome in words.
    #[inline(always)]
    pub(crate) fn of(outcome: Outcome, calls: &Calls, sight: Sight) -> Result<Reply, Error> {
        match outcome {
            Outcome::Operation(id) => match calls.in_words(id) {
                Some(operation) => Ok(Reply::Operation(operation)),
                None => Err(Error::Unknown(id.into())),
            },
            Outcome::Busy { blocker } => Ok(Reply::Busy { blocker: sight.id(blocker) }),
            Outcome::Illegal => Ok(Reply::Illegal),
        }
    }

    /// The operation of an outcome that has this reply. Its words are made only where it has another one.
    #[inline]
    pub(crate) fn expected_of(outcome: Outcome, calls: &Calls, sight: Sight, reply: &str) -> Result<OperationId, Error> {
        match outcome {
            Outcome::Operation(id) if calls.replies(id, reply) => Ok(id),
            other => Reply::of(other, calls, sight)?.expected(reply),
        }
    }

    /// Whether an operation of this reply was executed.
    ///
    /// ```
    /// # use colock::{Kind, Store, Type};
    /// # let store = Store::new([&Type::stock(5, &[1], Kind::Undo)?], 100)?;
    /// let mut transaction = store.begin()?;
    /// assert!(transaction.call(0, "take:1")?.is("short"));
    /// assert!(transaction.call(0, "give:1")?.is("ok"));
    /// # Ok::<(), colock::Error>(())
    /// ```
    pub fn is(&self, reply: &str) -> bool {
        matches!(self, Reply::Operation(operation) if operation.reply == reply)
    }

    /// The operation that was executed, with whatever reply.
    ///
    /// ```
    /// # use colock::{Error, Kind, Store, TransactionId, Type};
    /// # let account = Type::account(5, &[1], Kind::Undo)?;
    /// # let store = Store::new([&account], 100)?;
    /// let mut transaction = store.begin()?;
    /// assert_eq!(transaction.call(0, "withdraw:1")?.executed()?.reply, "short");
    /// assert_eq!(store.begin()?.call(0, "deposit:1")?.executed(), Err(Error::Busy { blocker: TransactionId::new(0, 0) }));
    /// # Ok::<(), Error>(())
    /// ```
    ///
    /// # Errors
    ///
    /// [`Error::Busy`] or [`Error::Illegal`] where nothing was executed.
    #[inline]
    pub fn executed(self) -> Result<Operation, Error> {
        match self {
            Reply::Operation(operation) => Ok(operation),
            Reply::Busy { blocker } => Err(Error::Busy { blocker }),
            Reply::Illegal => Err(Error::Illegal),
        }
    }

    /// The number of the operation that was executed, with this reply.
    ///
    /// ```
    /// # use colock::{Error, Kind, Store, Type};
    /// # let account = Type::account(5, &[1], Kind::Undo)?;
    /// # let store = Store::new([&account], 100)?;
    /// let mut transaction = store.begin()?;
    /// transaction.call(0, "deposit:1")?.expected("ok")?;
    /// transaction.call(0, "withdraw:1")?.expected("ok")?;
    /// let refused = transaction.call(0, "withdraw:1")?.expected("ok").unwrap_err();
    /// assert_eq!(refused.to_string(), "withdraw:1 was answered short");
    /// # Ok::<(), Error>(())
    /// ```
    ///
    /// # Errors
    ///
    /// [`Error::Unexpected`] where it has another reply: it was executed all the same, and stays in its transaction.
    /// [`Error::Busy`] or [`Error::Illegal`] where nothing was executed.
    #[inline]
    pub fn expected(self, reply: &str) -> Result<OperationId, Error> {
        let done = self.executed()?;
        if done.reply != *reply {
            return Err(Error::Unexpected { call: done.call.to_string(), reply: done.reply.to_string() });
        }
        Ok(done.id)
    }
}

/// The operation in words, `busy` with the blocker, or `illegal`.
impl fmt::Display for Reply {
    fn fmt(&self, f: &mut fmt::Formatter<'_>) -> fmt::Result {
        match self {
            Reply::Operation(operation) => operation.fmt(f),
            Reply::Busy { blocker } => write!(f, "busy {blocker}"),
            Reply::Illegal => f.write_str("illegal"),
        }
    }
}

/// What a call is answered, in numbers: words are put in where it is handed to the caller.
#[derive(Clone, Copy, Debug, PartialEq, Eq)]
pub(crate) enum Outcome {
    Operation(OperationId),
    Busy { blocker: u64 },
    Illegal,
}

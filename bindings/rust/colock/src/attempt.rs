use crate::asked::{Asked, Unasked, FEW_CALLS};
use crate::error::Error;
use crate::few::Few;
use crate::objects::Objects;
use crate::operation_id::OperationId;
use crate::reply::{Operation, Reply};
use crate::transaction_id::TransactionId;

/// What came of an attempt: a whole transaction that was asked in one call, by [`SharedStore::attempt`](crate::SharedStore::attempt) or
/// [`Store::attempt`](crate::Store::attempt).
#[derive(Clone, Debug, PartialEq, Eq)]
#[must_use = "an attempt may have been ended by one of its calls"]
// no answer is to be overlooked by a match, so it isn't `non_exhaustive`
pub enum Attempt {
    /// It committed: what its calls did, in their order. A reply may be a refusal, as `short`.
    Done(Vec<Operation>),
    /// A call ended it, and nothing stays of those before.
    Ended {
        /// The place of that call, from 0.
        at: usize,
        /// What that call was answered.
        how: Ending,
    },
}

/// How a call ended an attempt.
#[derive(Clone, Debug, PartialEq, Eq)]
// no answer is to be overlooked by a match, so it isn't `non_exhaustive`
pub enum Ending {
    /// What another transaction did is in its way.
    Busy {
        /// The other transaction: ask again when it has ended.
        blocker: TransactionId,
    },
    /// No operation of the call is legal.
    Illegal,
    /// It was refused, for this reason.
    Refused(Error),
}

impl Attempt {
    /// The operations of its calls, with whatever replies.
    ///
    /// ```
    /// # use colock::{Error, Kind, SharedStore, TransactionId, Type};
    /// # let store = SharedStore::new([&Type::counter(5, &[1], Kind::Undo)?], 100)?;
    /// let done = store.attempt([(0, "inc:1"), (0, "inc:1")])?.executed()?;
    /// assert_eq!((done.len(), done[0].reply.as_str()), (2, "ok"));
    /// let mut holder = store.begin()?;
    /// holder.expect(0, "dec:1", "ok")?;
    /// let busy = store.attempt([(0, "inc:1")])?.executed();
    /// assert_eq!(busy, Err(Error::Busy { blocker: TransactionId::new(0, 1) }));
    /// # Ok::<(), Error>(())
    /// ```
    ///
    /// # Errors
    ///
    /// [`Error::Busy`], [`Error::Illegal`] or the reason of the refusal, where a call ended it.
    pub fn executed(self) -> Result<Vec<Operation>, Error> {
        match self {
            Attempt::Done(operations) => Ok(operations),
            Attempt::Ended { how, .. } => Err(how.into()),
        }
    }
}

impl From<Ending> for Error {
    fn from(ending: Ending) -> Error {
        match ending {
            Ending::Busy { blocker } => Error::Busy { blocker },
            Ending::Illegal => Error::Illegal,
            Ending::Refused(error) => error,
        }
    }
}

/// What came of an attempt, in numbers: words are put in where it is handed to the caller.
#[derive(Debug, PartialEq, Eq)]
pub(crate) enum Came {
    /// The operations, as the library has them.
    Done(Few<u64, FEW_CALLS>),
    Ended {
        at: usize,
        how: Ending,
    },
}

/// What came of an attempt of one call, in numbers: its operation, or how the call ended it.
pub(crate) type CameOfOne = Result<OperationId, Ending>;

/// It in words, of a call at this object. Why that was refused is an error, as of any call.
#[inline]
pub(crate) fn reply_of(came: CameOfOne, object: u32, objects: &Objects) -> Result<Reply, Error> {
    match came {
        Ok(id) => objects.calls_at(object)?.in_words(id).map(Reply::Operation).ok_or_else(|| Error::Unknown(id.into())),
        Err(Ending::Busy { blocker }) => Ok(Reply::Busy { blocker }),
        Err(Ending::Illegal) => Ok(Reply::Illegal),
        Err(Ending::Refused(error)) => Err(error),
    }
}

impl Unasked {
    /// A call that can't be made ends an attempt before it begins.
    pub(crate) fn ended(self) -> Result<Came, Error> {
        match self.error {
            Error::NoObject | Error::NoObjectNamed(_) | Error::NoCall => Ok(Came::Ended { at: self.at, how: Ending::Refused(self.error) }),
            other => Err(other),
        }
    }
}

impl Came {
    /// That of an attempt of calls of these numbers that has these replies; nothing where they aren't those of such calls.
    pub(crate) fn of_replies(asked: &Asked, calls: &[OperationId], replies: &str, objects: &Objects) -> Option<Came> {
        asked.operations(calls, replies, objects).map(|operations| Came::Done(Few::from(&operations[..])))
    }

    /// What came of an attempt of these calls, in words, where they are asked.
    pub(crate) fn of(asked: Result<Asked, Unasked>, objects: &Objects, attempt: impl FnOnce(&Asked) -> Result<Came, Error>) -> Result<Attempt, Error> {
        match asked {
            Ok(asked) => attempt(&asked)?.in_words(&asked, objects),
            Err(unasked) => unasked.ended()?.in_words(&Asked::default(), objects),
        }
    }

    /// It in words, of these calls.
    fn in_words(self, asked: &Asked, objects: &Objects) -> Result<Attempt, Error> {
        match self {
            Came::Done(operations) => asked.in_words(&operations, objects).map(Attempt::Done),
            Came::Ended { at, how } => Ok(Attempt::Ended { at, how }),
        }
    }
}

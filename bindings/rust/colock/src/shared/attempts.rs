//! Whole transactions of a shared store in one call.

use crate::asked::Asked;
use crate::attempt::{reply_of, Attempt, Came, CameOfOne, Ending};
use crate::error::Error;
use crate::object::ObjectRef;
use crate::operation_id::OperationId;
use crate::reply::Reply;
use crate::shared::calling::Call;
use crate::shared::state::{Held, State};
use crate::shared::{Guard, SharedStore};
use crate::wire::remote::Remote;
use colock_waiting::{ObjectIndex, Touched};

/// What came of one try of an attempt, and the lock, which was kept since, or taken again after the answer.
pub(crate) struct Tried<'s> {
    pub(crate) guard: Guard<'s>,
    pub(crate) came: Came,
    /// Since when others may have let go, as of [`Remote::since`](crate::wire::remote::Remote::since); in memory nobody looks at it.
    pub(crate) since: u64,
}

impl SharedStore {
    /// A whole transaction in one call: it begins, makes these calls in their order, and commits; or aborts at the first that
    /// isn't answered by an operation. A call is a pair of an object and a name. Over a child it is one request, and durable
    /// when it is [done](Attempt::Done).
    ///
    /// It doesn't wait, and goes before those that do: it holds nothing afterwards that could keep them waiting.
    ///
    /// ```
    /// use colock::{Attempt, Ending, Kind, Object, SharedStore, Type};
    ///
    /// let (stock, seats) = (Type::counter(5, &[1], Kind::Undo)?, Type::seats(1, Kind::Undo)?);
    /// let store = SharedStore::new([("sold", &stock), ("A12", &seats)], 1_000)?;
    /// let done = store.attempt([("A12", "hold:1"), ("A12", "book:1"), ("sold", "inc:1")])?.executed()?;
    /// assert_eq!(done[1].to_string(), "book:1 ok");
    /// // a list of both numbers and names
    /// let ended = store.attempt([(Object::Number(0), "dec:1"), (Object::Name("A12"), "release:1")])?;
    /// assert_eq!(ended, Attempt::Ended { at: 1, how: Ending::Illegal }); // it is booked
    /// assert_eq!(store.kept("sold")?, 1);
    ///
    /// let mut holder = store.begin()?;
    /// holder.expect("sold", "dec:1", "ok")?;
    /// let ended = store.attempt([("sold", "inc:1")])?;
    /// assert!(matches!(ended, Attempt::Ended { at: 0, how: Ending::Busy { blocker } } if Some(blocker) == holder.id()));
    /// # Ok::<(), colock::Error>(())
    /// ```
    ///
    /// # Errors
    ///
    /// As of [`Store::attempt`](crate::Store::attempt), by which it isn't begun. Over a child [`Error::TooManyCalls`] of more
    /// than 64 calls; [`Error::TimedOut`] as of [`SharedStore::begin`]; [`Error::ConnectionLost`], or [`Error::AttemptUnknown`] where the child was lost before it answered.
    #[inline]
    pub fn attempt(&self, calls: impl IntoIterator<Item = (impl ObjectRef, impl AsRef<str>)>) -> Result<Attempt, Error> {
        let asked = Asked::of(calls, |object| self.number_of(object));
        Came::of(asked, self.objects(), |asked| Ok(self.tried(asked)?.came_alone()))
    }

    /// The same of one call, which [`SharedStore::call_number`] gave: it begins, makes the call, and commits; or aborts where the
    /// call isn't answered by an operation. It is the shortest way to do one call. A store in memory takes no memory for it but
    /// for its events and its operation.
    ///
    /// It commits whatever the reply is: [`Reply::expected`] makes an error of each but one. It doesn't wait, and goes before
    /// those that do.
    ///
    /// ```
    /// use colock::{Error, Kind, Reply, SharedStore, Type};
    ///
    /// let store = SharedStore::new([("seats", &Type::stock(2, &[1], Kind::Escrow)?)], 1_000)?;
    /// let (give, take) = (store.call_number("seats", "give:1")?, store.call_number("seats", "take:1")?);
    /// store.attempt_op("seats", give)?.expected("ok")?;
    /// let mut holder = store.begin()?;
    /// holder.expect("seats", "take:1", "ok")?;
    /// assert_eq!(store.attempt_op("seats", take)?, Reply::Busy { blocker: holder.begun()? });
    /// holder.commit()?;
    /// assert!(store.attempt_op("seats", take)?.is("short"));
    /// assert_eq!(store.attempt_op("seats", 200), Err(Error::NoCall));
    /// # Ok::<(), Error>(())
    /// ```
    ///
    /// # Errors
    ///
    /// [`Error::NoObjectNamed`] and as of [`SharedStore::attempt`], by which it isn't begun. [`Error::NoObject`], [`Error::NoCall`] or
    /// [`Error::NoMemory`] where the call can't be made.
    #[inline]
    pub fn attempt_op(&self, object: impl ObjectRef, call: impl Into<OperationId>) -> Result<Reply, Error> {
        let (object, call) = (self.number_of(object.as_object())?, call.into());
        let came = match self.remote() {
            None => self.one_tried_in_memory(object, call)?,
            Some(remote) => self.one_tried_by_child(remote, object, call)?,
        };
        reply_of(came, object, self.objects())
    }

    #[inline]
    fn one_tried_in_memory(&self, object: u32, call: OperationId) -> Result<CameOfOne, Error> {
        let mut guard = self.enter()?;
        let came = guard.memory()?.attempt_op_in_numbers(0, object, call)?;
        match &came {
            Ok(_) => guard.has_committed(&[object]),
            Err(how) => guard.has_aborted(Some(object), how),
        }
        Ok(came)
    }

    /// A child is asked by the name of the call.
    fn one_tried_by_child(&self, remote: &Remote, object: u32, call: OperationId) -> Result<CameOfOne, Error> {
        let name = match self.resolved(object, Call::Number(call)) {
            Ok((_, name)) => name,
            // that the store is closed is said first
            Err(error) => return self.enter().map(|_| Err(Ending::Refused(error))),
        };
        let asked = Asked::of([(object, name)], |object| self.number_of(object)).map_err(|unasked| unasked.error)?;
        match self.tried_by_child(remote, &asked, None)?.came_alone() {
            Came::Done(operations) => {
                let operation = operations.first().copied().unwrap_or_default();
                OperationId::try_from(operation).map(Ok).map_err(|_| Error::Unknown(operation))
            }
            Came::Ended { how, .. } => Ok(Err(how)),
        }
    }

    /// One try of an attempt.
    #[inline]
    pub(crate) fn tried(&self, asked: &Asked) -> Result<Tried<'_>, Error> {
        match self.remote() {
            None => self.tried_in_memory(asked),
            Some(remote) => self.tried_by_child(remote, asked, None),
        }
    }

    #[inline]
    fn tried_in_memory(&self, asked: &Asked) -> Result<Tried<'_>, Error> {
        let mut guard = self.enter()?;
        let came = guard.memory()?.attempt_in_numbers(0, asked)?;
        guard.has_tried(asked, &came);
        Ok(Tried { guard, came, since: 0 })
    }
}

impl Tried<'_> {
    /// What came of it, without the lock.
    #[inline]
    pub(crate) fn came_alone(self) -> Came {
        self.came
    }
}

impl State {
    /// A whole transaction came and went.
    #[inline]
    pub(crate) fn has_tried(&mut self, asked: &Asked, came: &Came) {
        match came {
            Came::Done(_) => self.has_committed(asked.objects()),
            Came::Ended { at, how } => self.has_aborted(asked.objects().get(*at).copied(), how),
        }
    }

    /// A whole transaction committed. Nobody has begun to wait for it. But states at its objects are others than before, by
    /// which somebody who waits there may be free.
    #[inline]
    fn has_committed(&mut self, objects: &[u32]) {
        self.stats.commits += 1;
        if let Held::Remote(remote_state) = &mut self.held {
            remote_state.let_go.lets_go(touched(objects));
        }
        if !self.waiters.is_empty() {
            self.waiters.let_go(touched(objects));
            self.settle();
        }
    }

    /// A call at an object ended a whole transaction.
    #[inline]
    fn has_aborted(&mut self, object: Option<u32>, how: &Ending) {
        self.stats.aborts += 1;
        if let (Ending::Busy { .. }, Some(object)) = (how, object) {
            self.stats.count_busy(object);
        }
    }
}

/// What is touched by who may have executed something at each of these objects.
fn touched(objects: &[u32]) -> Touched {
    objects.iter().copied().map(ObjectIndex).collect()
}

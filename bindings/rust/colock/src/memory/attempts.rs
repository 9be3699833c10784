//! Whole transactions in one call, in memory.

use crate::asked::Asked;
use crate::attempt::{reply_of, Attempt, Came, CameOfOne, Ending};
use crate::error::Error;
use crate::few::Few;
use crate::memory::handle::done;
use crate::memory::store::Store;
use crate::object::ObjectRef;
use crate::operation_id::OperationId;
use crate::reply::Reply;
use crate::transaction_id::TransactionId;
use colock_sys as sys;
use std::cell::Cell;

impl Store {
    /// A whole transaction in one call: it begins, makes these calls in their order, and commits; or aborts at the first that
    /// isn't answered by an operation. A call is a pair of an object and a name.
    ///
    /// ```
    /// use colock::{Attempt, Ending, Kind, Object, Store, Type};
    ///
    /// let (counter, seats) = (Type::counter(5, &[1], Kind::Undo)?, Type::seats(1, Kind::Undo)?);
    /// let store = Store::new([("sold", &counter), ("A12", &seats)], 1_000)?;
    /// let done = store.attempt([("A12", "hold:1"), ("A12", "book:1"), ("sold", "inc:1")])?.executed()?;
    /// assert_eq!(done[1].to_string(), "book:1 ok");
    /// // what is sold is booked, so that no release is legal
    /// let ended = store.attempt([(Object::Number(0), "dec:1"), (Object::Name("A12"), "release:1")])?;
    /// assert_eq!(ended, Attempt::Ended { at: 1, how: Ending::Illegal });
    /// assert_eq!((store.kept("sold")?, store.open_count()), (1, 0));
    /// # Ok::<(), colock::Error>(())
    /// ```
    ///
    /// # Errors
    ///
    /// [`Error::TooManyOpen`], [`Error::HistoryFull`] or [`Error::NoMemory`], by which it isn't begun. There is to be room for
    /// an event of each call and two more. A call that can't be made is [`Ending::Refused`]; where no object has the name that
    /// it gives, it isn't begun either.
    #[inline]
    pub fn attempt(&self, calls: impl IntoIterator<Item = (impl ObjectRef, impl AsRef<str>)>) -> Result<Attempt, Error> {
        let asked = Asked::of(calls, |object| self.number_of(object));
        Came::of(asked, self.objects(), |asked| self.attempt_in_numbers(0, asked))
    }

    /// The same of one call, which [`Store::call_number`] gave: it begins, makes the call, and commits; or aborts where the
    /// call isn't answered by an operation. It is the shortest way to do one call, and takes no memory but for its
    /// events and its operation.
    ///
    /// It commits whatever the reply is: [`Reply::expected`] makes an error of each but one.
    ///
    /// ```
    /// use colock::{Error, Kind, Reply, Store, Type};
    ///
    /// let store = Store::new([("seats", &Type::stock(2, &[1], Kind::Escrow)?)], 1_000)?;
    /// let (give, take) = (store.call_number("seats", "give:1")?, store.call_number("seats", "take:1")?);
    /// store.attempt_op("seats", give)?.expected("ok")?;
    /// let mut holder = store.begin()?;
    /// holder.expect("seats", "take:1", "ok")?;
    /// assert_eq!(store.attempt_op("seats", take)?, Reply::Busy { blocker: holder.id() });
    /// holder.commit()?;
    /// assert!(store.attempt_op("seats", take)?.is("short"));
    /// assert_eq!(store.attempt_op("seats", 200), Err(Error::NoCall));
    /// # Ok::<(), Error>(())
    /// ```
    ///
    /// # Errors
    ///
    /// [`Error::NoObjectNamed`] and as of [`Store::attempt`], by which it isn't begun. [`Error::NoObject`], [`Error::NoCall`] or
    /// [`Error::NoMemory`] where the call can't be made.
    #[inline]
    pub fn attempt_op(&self, object: impl ObjectRef, call: impl Into<OperationId>) -> Result<Reply, Error> {
        let object = self.number_of(object.as_object())?;
        reply_of(self.attempt_op_in_numbers(0, object, call.into())?, object, self.objects())
    }

    /// An attempt in numbers, as a worker.
    #[inline]
    pub(crate) fn attempt_in_numbers(&self, worker: u8, asked: &Asked) -> Result<Came, Error> {
        let (calls, mut operations) = (asked.numbers_or_none(self.objects())?, Few::room_of(asked.objects().len())?);
        let outcome = self.attempted(worker, asked.objects(), &calls, &mut operations)?;
        match self.how_ended(&outcome)? {
            None => Ok(Came::Done(operations)),
            Some(how) => Ok(Came::Ended { at: usize::try_from(outcome.at).map_err(|_| Error::Unknown(outcome.at))?, how }),
        }
    }

    /// The same of one call.
    #[inline]
    pub(crate) fn attempt_op_in_numbers(&self, worker: u8, object: u32, call: OperationId) -> Result<CameOfOne, Error> {
        let mut operation = 0;
        let outcome = self.attempted(worker, &[object], &[call.into()], std::slice::from_mut(&mut operation))?;
        match self.how_ended(&outcome)? {
            None => OperationId::try_from(operation).map(Ok).map_err(|_| Error::Unknown(operation)),
            Some(how) => Ok(Err(how)),
        }
    }

    /// What the library says of an attempt of calls at these objects. There is a room for an operation of each.
    #[inline]
    fn attempted(&self, worker: u8, objects: &[u32], calls: &[u64], operations: &mut [u64]) -> Result<sys::Outcome, Error> {
        let (at, outcome) = (self.handle().at(), Cell::new(sys::Outcome::default()));
        let (objects_at, calls_at, room_at) = (objects.as_ptr(), calls.as_ptr(), operations.as_mut_ptr());
        let counts = (objects.len(), calls.len(), operations.len());
        // SAFETY: a handle as `Handle::at` says; the objects, the calls and the operations are a slice each.
        let attempt = || unsafe { sys::colock_attempt_op(at, worker, objects_at, counts.0, calls_at, counts.1, room_at, counts.2, outcome.as_ptr()) };
        done(self.in_room(attempt))?;
        self.epoch().have_begun(1);
        Ok(outcome.get())
    }

    /// How a call ended an attempt; nothing where it is done. Whoever is in the way is of the present life.
    #[inline]
    fn how_ended(&self, outcome: &sys::Outcome) -> Result<Option<Ending>, Error> {
        match outcome.kind {
            0 => Ok(None),
            1 => Ok(Some(Ending::Busy { blocker: TransactionId::new(self.life(), self.epoch().number(outcome.number)) })),
            2 => Ok(Some(Ending::Illegal)),
            3 => refusal(outcome.number).map(|error| Some(Ending::Refused(error))),
            kind => Err(Error::Unknown(kind)),
        }
    }
}

/// The error of a code by which a call was refused.
#[cold]
fn refusal(code: u64) -> Result<Error, Error> {
    u32::try_from(code).map(Error::of_code).map_err(|_| Error::Unknown(code))
}

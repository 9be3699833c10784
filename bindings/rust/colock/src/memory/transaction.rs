use crate::error::Error;
use crate::memory::handle::done;
use crate::memory::store::Store;
use crate::object::ObjectRef;
use crate::operation_id::OperationId;
use crate::reply::{Outcome, Reply};
use crate::transaction_id::{Sight, TransactionId};
use colock_sys as sys;
use std::cell::Cell;
use std::mem;

/// A transaction that is open. Where it is dropped, it aborts.
///
/// ```
/// # use colock::{Kind, Store, Type};
/// # let counter = Type::counter(5, &[1], Kind::Undo)?;
/// let store = Store::new([&counter], 100)?;
/// let mut transaction = store.begin()?;
/// let _reply = transaction.call(0, "inc:1")?;
/// assert_eq!(store.kept(0)?, 1);
/// drop(transaction);
/// assert_eq!(store.kept(0)?, 0);
/// # Ok::<(), colock::Error>(())
/// ```
#[derive(Debug)]
#[must_use = "a transaction that is dropped aborts"]
pub struct Transaction<'s> {
    store: &'s Store,
    worker: u8,
    number: u64,
}

/// A transaction that was left open, for [`Store::resume`] of the same store.
#[derive(Clone, Copy, Debug, PartialEq, Eq, Hash)]
pub struct LeftOpen {
    /// As of [`Store::mark`].
    pub(crate) mark: u64,
    life: u64,
    pub(crate) worker: u8,
    pub(crate) number: u64,
}

impl<'s> Transaction<'s> {
    #[inline]
    pub(crate) fn of(store: &'s Store, worker: u8, number: u64) -> Transaction<'s> {
        Transaction { store, worker, number }
    }

    /// Its id: how often the store began anew, and its number.
    ///
    /// ```
    /// # use colock::{Kind, Store, Type};
    /// # let mut store = Store::new([&Type::counter(5, &[1], Kind::Undo)?], 100)?;
    /// assert_eq!(store.begin()?.id().to_string(), "0.0");
    /// store.renew()?;
    /// assert_eq!(store.begin()?.id().to_string(), "1.0");
    /// # Ok::<(), colock::Error>(())
    /// ```
    pub fn id(&self) -> TransactionId {
        TransactionId::new(self.store.life(), self.number)
    }

    /// Its number: that of the transactions before it.
    ///
    /// ```
    /// # use colock::{Kind, Store, Type};
    /// # let store = Store::new([&Type::counter(5, &[1], Kind::Undo)?], 100)?;
    /// assert_eq!(store.begin()?.number(), 0);
    /// assert_eq!(store.begin()?.number(), 1);
    /// # Ok::<(), colock::Error>(())
    /// ```
    pub fn number(&self) -> u64 {
        self.number
    }

    /// Its number in the library.
    #[inline]
    fn in_library(&self) -> u64 {
        self.store.epoch().in_library(self.number)
    }

    /// Calls the call of this name at an object.
    ///
    /// ```
    /// # use colock::{Kind, Reply, Store, Type};
    /// let account = Type::account(5, &[1, 2], Kind::Undo)?;
    /// let store = Store::new([&account], 100)?;
    /// let mut transaction = store.begin()?;
    /// assert_eq!(transaction.call(0, "withdraw:2")?.to_string(), "withdraw:2 short");
    /// # Ok::<(), colock::Error>(())
    /// ```
    ///
    /// # Errors
    ///
    /// [`Error::NotOpen`] where another [`LeftOpen`] of it ended it, [`Error::NoObject`], [`Error::NoObjectNamed`],
    /// [`Error::NoCall`], [`Error::HistoryFull`] or [`Error::NoMemory`].
    #[inline]
    pub fn call(&mut self, object: impl ObjectRef, name: &str) -> Result<Reply, Error> {
        let object = self.store.number_of(object.as_object())?;
        let outcome = self.call_in_numbers(object, name)?;
        self.in_words(object, outcome)
    }

    #[inline]
    pub(crate) fn call_in_numbers(&mut self, object: u32, name: &str) -> Result<Outcome, Error> {
        let (store, worker) = (self.store, self.worker);
        // SAFETY: `answered` gives an answer of its own; the handle is as `Handle::at` says, as in all below.
        let call = |answer| unsafe { sys::colock_call(store.handle().at(), worker, self.in_library(), object, name.as_ptr(), name.len(), answer) };
        answered(store, call)
    }

    /// Calls the call that [`Store::call_number`] gave.
    ///
    /// ```
    /// # use colock::{Kind, Reply, Store, Type};
    /// # let counter = Type::counter(5, &[1], Kind::Undo)?;
    /// # let store = Store::new([&counter], 100)?;
    /// let up = store.call_number(0, "inc:1")?;
    /// assert_eq!(store.begin()?.call_op(0, up)?.to_string(), "inc:1 ok");
    /// # Ok::<(), colock::Error>(())
    /// ```
    ///
    /// # Errors
    ///
    /// As of [`Transaction::call`].
    #[inline]
    pub fn call_op(&mut self, object: impl ObjectRef, call: impl Into<OperationId>) -> Result<Reply, Error> {
        let object = self.store.number_of(object.as_object())?;
        let outcome = self.call_op_in_numbers(object, call.into())?;
        self.in_words(object, outcome)
    }

    #[inline]
    pub(crate) fn call_op_in_numbers(&mut self, object: u32, call: OperationId) -> Result<Outcome, Error> {
        let (store, worker, call) = (self.store, self.worker, u64::from(call));
        // SAFETY: as in `call`.
        answered(store, |answer| unsafe { sys::colock_call_op(store.handle().at(), worker, self.in_library(), object, call, answer) })
    }

    /// Calls, and makes an error of each reply but one.
    ///
    /// ```
    /// # use colock::{Error, Kind, Store, Type};
    /// let account = Type::account(5, &[1, 2], Kind::Undo)?;
    /// let store = Store::new([&account], 100)?;
    /// let mut transaction = store.begin()?;
    /// transaction.expect(0, "deposit:1", "ok")?;
    /// let refused = transaction.expect(0, "withdraw:2", "ok");
    /// assert!(matches!(refused, Err(Error::Unexpected { call, reply }) if call == "withdraw:2" && reply == "short"));
    /// # Ok::<(), Error>(())
    /// ```
    ///
    /// # Errors
    ///
    /// [`Error::Unexpected`] where it has another reply: the operation was executed all the same, and stays in the
    /// transaction. [`Error::Busy`] or [`Error::Illegal`] where nothing was executed; and as of [`Transaction::call`].
    #[inline]
    pub fn expect(&mut self, object: impl ObjectRef, call: &str, reply: &str) -> Result<OperationId, Error> {
        let object = self.store.number_of(object.as_object())?;
        let outcome = self.call_in_numbers(object, call)?;
        self.expected(object, outcome, reply)
    }

    /// As [`Transaction::expect`], of the call that [`Store::call_number`] gave.
    ///
    /// ```
    /// # use colock::{Error, Kind, Store, Type};
    /// # let store = Store::new([&Type::counter(5, &[1], Kind::Undo)?], 100)?;
    /// let up = store.call_number(0, "inc:1")?;
    /// store.begin()?.expect_op(0, up, "ok")?;
    /// # Ok::<(), Error>(())
    /// ```
    ///
    /// # Errors
    ///
    /// As of [`Transaction::expect`].
    #[inline]
    pub fn expect_op(&mut self, object: impl ObjectRef, call: impl Into<OperationId>, reply: &str) -> Result<OperationId, Error> {
        let object = self.store.number_of(object.as_object())?;
        let outcome = self.call_op_in_numbers(object, call.into())?;
        self.expected(object, outcome, reply)
    }

    #[inline]
    fn expected(&self, object: u32, outcome: Outcome, reply: &str) -> Result<OperationId, Error> {
        Reply::expected_of(outcome, self.store.calls_at(object)?, Sight::InMemory(self.store.life()), reply)
    }

    /// What was answered, with its words.
    #[inline]
    fn in_words(&self, object: u32, outcome: Outcome) -> Result<Reply, Error> {
        Reply::of(outcome, self.store.calls_at(object)?, Sight::InMemory(self.store.life()))
    }

    /// What [`Transaction::call`] would be answered now. Nothing is executed, and it is no event.
    ///
    /// ```
    /// # use colock::{Kind, Reply, Store, Type};
    /// # let counter = Type::counter(5, &[1], Kind::Undo)?;
    /// # let store = Store::new([&counter], 100)?;
    /// assert_eq!(store.begin()?.would(0, "dec:1")?, Reply::Illegal);
    /// # Ok::<(), colock::Error>(())
    /// ```
    ///
    /// # Errors
    ///
    /// As of [`Transaction::call`].
    pub fn would(&self, object: impl ObjectRef, name: &str) -> Result<Reply, Error> {
        let object = self.store.number_of(object.as_object())?;
        self.in_words(object, self.would_in_numbers(object, name)?)
    }

    pub(crate) fn would_in_numbers(&self, object: u32, name: &str) -> Result<Outcome, Error> {
        let at = self.store.handle().at();
        // SAFETY: as in `call`.
        answered(self.store, |answer| unsafe { sys::colock_would(at, self.in_library(), object, name.as_ptr(), name.len(), answer) })
    }

    /// What [`Transaction::call_op`] would be answered now.
    ///
    /// ```
    /// # use colock::{Kind, Reply, Store, Type};
    /// # let counter = Type::counter(5, &[1], Kind::Undo)?;
    /// # let store = Store::new([&counter], 100)?;
    /// assert_eq!(store.begin()?.would_op(0, 0)?.to_string(), "inc:1 ok");
    /// # Ok::<(), colock::Error>(())
    /// ```
    ///
    /// # Errors
    ///
    /// As of [`Transaction::call`].
    pub fn would_op(&self, object: impl ObjectRef, call: impl Into<OperationId>) -> Result<Reply, Error> {
        let object = self.store.number_of(object.as_object())?;
        self.in_words(object, self.would_op_in_numbers(object, call.into())?)
    }

    pub(crate) fn would_op_in_numbers(&self, object: u32, call: OperationId) -> Result<Outcome, Error> {
        let (at, call) = (self.store.handle().at(), u64::from(call));
        // SAFETY: as in `call`.
        answered(self.store, |answer| unsafe { sys::colock_would_op(at, self.in_library(), object, call, answer) })
    }

    /// Takes back its last operations, over all objects together. It stays open.
    ///
    /// ```
    /// # use colock::{Kind, Store, Type};
    /// # let counter = Type::counter(5, &[1, 2], Kind::Undo)?;
    /// # let store = Store::new([&counter], 100)?;
    /// let mut transaction = store.begin()?;
    /// let _reply = transaction.call(0, "inc:1")?;
    /// let _reply = transaction.call(0, "inc:2")?;
    /// transaction.rollback(1)?;
    /// transaction.commit()?;
    /// assert_eq!(store.kept(0)?, 1);
    /// # Ok::<(), colock::Error>(())
    /// ```
    ///
    /// # Errors
    ///
    /// [`Error::NotOpen`], [`Error::BadRollback`], [`Error::HistoryFull`] or [`Error::NoMemory`].
    pub fn rollback(&mut self, operations: u64) -> Result<(), Error> {
        let at = self.store.handle().at();
        // SAFETY: as in `call`.
        done(self.store.in_room(|| unsafe { sys::colock_rollback(at, self.worker, self.in_library(), operations) }))
    }

    /// Commits it.
    ///
    /// ```
    /// # use colock::{Kind, Store, Type};
    /// # let store = Store::new([&Type::counter(5, &[1], Kind::Undo)?], 100)?;
    /// store.begin()?.commit()?;
    /// assert_eq!(store.open_count(), 0);
    /// # Ok::<(), colock::Error>(())
    /// ```
    ///
    /// # Errors
    ///
    /// [`Error::NotOpen`] where another [`LeftOpen`] of it ended it.
    #[inline]
    pub fn commit(self) -> Result<(), Error> {
        let (at, worker, number) = (self.store.handle().at(), self.worker, self.in_library());
        mem::forget(self);
        // SAFETY: as in `call`.
        done(unsafe { sys::colock_commit(at, worker, number) })
    }

    /// Aborts it: nothing stays of its operations. A drop does the same and reports no error.
    ///
    /// ```
    /// # use colock::{Kind, Store, Type};
    /// # let store = Store::new([&Type::counter(5, &[1], Kind::Undo)?], 100)?;
    /// store.begin()?.abort()?;
    /// # Ok::<(), colock::Error>(())
    /// ```
    ///
    /// # Errors
    ///
    /// As of [`Transaction::commit`].
    pub fn abort(self) -> Result<(), Error> {
        let result = self.aborted();
        mem::forget(self);
        result
    }

    /// Leaves it open, for [`Store::resume`].
    ///
    /// ```
    /// # use colock::{Kind, Store, Type};
    /// # let store = Store::new([&Type::counter(5, &[1], Kind::Undo)?], 100)?;
    /// let left = store.begin()?.leave();
    /// store.resume(left)?.commit()?;
    /// # Ok::<(), colock::Error>(())
    /// ```
    #[inline]
    pub fn leave(self) -> LeftOpen {
        let left = self.left();
        mem::forget(self);
        left
    }

    #[inline]
    fn left(&self) -> LeftOpen {
        LeftOpen { mark: self.store.mark(), life: self.store.life(), worker: self.worker, number: self.number }
    }

    fn aborted(&self) -> Result<(), Error> {
        // SAFETY: as in `call`.
        done(unsafe { sys::colock_abort(self.store.handle().at(), self.worker, self.in_library()) })
    }
}

impl Drop for Transaction<'_> {
    fn drop(&mut self) {
        // It fails only where the transaction has ended.
        let _ = self.aborted();
    }
}

impl LeftOpen {
    /// The id of the transaction.
    ///
    /// ```
    /// # use colock::{Kind, Store, Type};
    /// # let store = Store::new([&Type::counter(5, &[1], Kind::Undo)?], 100)?;
    /// assert_eq!(store.begin()?.leave().id().to_string(), "0.0");
    /// # Ok::<(), colock::Error>(())
    /// ```
    #[inline]
    pub fn id(self) -> TransactionId {
        TransactionId::new(self.life, self.number)
    }
}

/// What a call of the library answers. Where the history is full it is called once more, if the store could begin anew.
#[inline(always)]
pub(crate) fn answered(store: &Store, call: impl Fn(*mut sys::Answer) -> u32) -> Result<Outcome, Error> {
    let told = Cell::new(sys::Answer::default());
    done(store.in_room(|| call(told.as_ptr())))?;
    let answer = told.get();
    match answer.kind {
        0 => OperationId::try_from(answer.number).map(Outcome::Operation).map_err(|_| Error::Unknown(answer.number)),
        1 => Ok(Outcome::Busy { blocker: store.epoch().number(answer.number) }),
        2 => Ok(Outcome::Illegal),
        kind => Err(Error::Unknown(kind)),
    }
}

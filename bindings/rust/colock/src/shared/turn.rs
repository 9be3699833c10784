use crate::error::Error;
use crate::object::ObjectRef;
use crate::operation_id::OperationId;
use crate::reply::{Outcome, Reply};
use crate::shared::calling::{in_memory, Call, Question};
use crate::shared::commits::{abort_at_once, When};
use crate::shared::state::{Held, State, Ticket};
use crate::shared::{Begun, Guard, Guarded, Lock, SharedStore};
use crate::transaction_id::TransactionId;
use crate::wait::touched::note;
use crate::wire::remote::Remote;
use std::fmt;

/// A transaction that is done in one turn of a store: nobody's call comes between. Its calls don't wait.
///
/// [`SharedStore::transact`] has an example.
pub struct Turn<'s> {
    store: &'s SharedStore,
    /// The lock, until the turn is over.
    guard: Option<Guard<'s>>,
    ticket: Ticket,
}

impl SharedStore {
    /// Does a whole transaction in one turn of the store's lock: it begins, `f` makes its calls, and it commits. An
    /// error of `f` aborts it, and a panic too. Over a child the commit is awaited after the turn.
    ///
    /// `f` may use the store by its turn only. Any other call of this store in it is [`Error::InTurn`], and a transaction
    /// that is dropped in it is aborted after the turn. What another thread asks waits until `f` is done, so `f` may not
    /// wait for that.
    ///
    /// ```
    /// use colock::{Error, Kind, SharedStore, Type};
    ///
    /// let counter = Type::counter(5, &[1], Kind::Undo)?;
    /// let store = SharedStore::new([&counter, &counter], 100)?;
    /// store.transact(|turn| turn.expect(0, "inc:1", "ok"))?;
    /// // from the one to the other
    /// store.transact(|turn| {
    ///     turn.expect(0, "dec:1", "ok")?;
    ///     turn.expect(1, "inc:1", "ok")
    /// })?;
    /// assert_eq!((store.kept(0), store.kept(1)), (Ok(0), Ok(1)));
    /// let nothing_left = store.transact(|turn| turn.expect(0, "dec:1", "ok"));
    /// assert_eq!(nothing_left, Err(Error::Illegal));
    /// # Ok::<(), Error>(())
    /// ```
    ///
    /// # Errors
    ///
    /// That of `f`, and as of [`SharedStore::begin`] and
    /// [`SharedTransaction::commit`](crate::SharedTransaction::commit).
    pub fn transact<T, E: From<Error>>(&self, f: impl FnOnce(&mut Turn<'_>) -> Result<T, E>) -> Result<T, E> {
        let mut turn = self.turn()?;
        let told = f(&mut turn)?; // where it fails, the turn is dropped, and aborts
        turn.commit()?;
        Ok(told)
    }

    /// A turn, whose transaction has begun.
    #[inline]
    fn turn(&self) -> Result<Turn<'_>, Error> {
        let Begun { mut guard, id } = match self.remote() {
            None => self.begin_in_memory(0)?,
            Some(remote) => self.begin_kept(remote)?,
        };
        let age = guard.waiters.next_age();
        self.in_turn.begins();
        Ok(Turn { store: self, guard: Some(guard), ticket: Ticket::new(id, age, 0) })
    }
}

impl SharedStore {
    /// Begins a transaction over a child, with a lock that is kept from now on.
    fn begin_kept(&self, remote: &Remote) -> Result<Begun<'_>, Error> {
        let guard = self.enter()?;
        self.in_turn.keeps();
        let begun = self.begin_remote(remote, guard, Lock::Kept);
        if begun.is_err() {
            self.abort_left_to_none();
        }
        begun
    }
}

impl<'s> Turn<'s> {
    /// Does something with the lock, which comes back.
    fn with<T>(&mut self, act: impl FnOnce(&'s SharedStore, Guard<'s>) -> Guarded<'s, T>) -> Result<T, Error> {
        self.store.is_here()?;
        let guard = self.guard.take().ok_or(Error::NotOpen)?;
        let (guard, told) = act(self.store, guard);
        self.guard = Some(guard);
        told
    }

    #[inline(always)]
    fn called(&mut self, object: u32, call: Call<'_>) -> Result<Outcome, Error> {
        let ticket = self.ticket;
        let outcome = match self.called_at_once(object, call) {
            Some(outcome) => outcome,
            None => self.with(|store, guard| store.call_within_turn(guard, ticket, object, call, Lock::Kept)),
        };
        note(&mut self.ticket.touched, object, &outcome);
        outcome
    }

    #[inline]
    fn expected(&mut self, object: u32, call: Call<'_>, reply: &str) -> Result<OperationId, Error> {
        let outcome = self.called(object, call)?;
        Reply::expected_of(outcome, self.store.calls_at(object)?, self.store.sight(self.ticket.id.life), reply)
    }

    /// The shortest way, in memory and where nobody waits: no life ends in a turn.
    #[inline(always)]
    fn called_at_once(&mut self, object: u32, call: Call<'_>) -> Option<Result<Outcome, Error>> {
        let State { held: Held::Memory(store), waiters, stats, .. } = self.guard.as_deref_mut()? else { return None };
        if !waiters.is_empty() {
            return None;
        }
        if let Err(error) = self.store.is_here() {
            return Some(Err(error));
        }
        let outcome = in_memory(store, self.ticket, Question::call(object, call));
        if let Ok(Outcome::Busy { .. }) = outcome {
            stats.count_busy(object);
        }
        Some(outcome)
    }

    fn asked(&mut self, object: u32, call: Call<'_>) -> Result<Reply, Error> {
        let ticket = self.ticket;
        let outcome = self.with(|store, guard| store.reply(guard, ticket, Question::would(object, call), Lock::Kept))?;
        self.store.in_words(object, outcome, ticket.id.life)
    }

    #[inline]
    fn commit(mut self) -> Result<(), Error> {
        self.store.is_here()?;
        let mut guard = self.guard.take().ok_or(Error::NotOpen)?;
        self.store.in_turn.ends();
        self.store.abort_left(&mut guard);
        // the next turn is to find that it has ended
        let done = self.store.commit(guard, self.ticket, When::InOrder);
        if self.store.in_turn.has_dropped() {
            self.store.abort_dropped();
        }
        done
    }

    fn abort(&self, mut guard: Guard<'s>) {
        self.store.in_turn.ends();
        // in a fork nothing of it is to be aborted
        if self.store.is_here().is_ok() {
            abort_at_once(&mut guard, self.ticket);
            self.store.abort_left(&mut guard);
            self.store.leave(guard);
            self.store.abort_dropped();
        }
    }

    /// Its number: that of the transactions before it, since the store began, or began anew.
    ///
    /// ```
    /// # use colock::{Error, Kind, SharedStore, Type};
    /// # let store = SharedStore::new([&Type::counter(5, &[1], Kind::Undo)?], 100)?;
    /// assert_eq!(store.transact(|turn| Ok::<u64, Error>(turn.number())), Ok(0));
    /// # Ok::<(), Error>(())
    /// ```
    pub fn number(&self) -> u64 {
        self.ticket.id.number
    }

    /// Its id, by which [`SharedStore::committed`] says what became of it. It has begun, so that it has one.
    ///
    /// ```
    /// # use colock::{Error, Kind, SharedStore, TransactionId, Type};
    /// # let store = SharedStore::new([&Type::counter(5, &[1], Kind::Undo)?], 100)?;
    /// assert_eq!(store.transact(|turn| Ok::<TransactionId, Error>(turn.id())), Ok(TransactionId::new(0, 0)));
    /// # Ok::<(), Error>(())
    /// ```
    pub fn id(&self) -> TransactionId {
        self.ticket.id
    }

    /// As [`SharedTransaction::call`](crate::SharedTransaction::call).
    ///
    /// ```
    /// # use colock::{Error, Kind, Reply, SharedStore, Type};
    /// # let store = SharedStore::new([&Type::counter(5, &[1], Kind::Undo)?], 100)?;
    /// let reply = store.transact(|turn| turn.call(0, "inc:1"))?;
    /// assert!(reply.is("ok"));
    /// # Ok::<(), Error>(())
    /// ```
    ///
    /// # Errors
    ///
    /// As of [`SharedTransaction::call`](crate::SharedTransaction::call).
    #[inline]
    pub fn call(&mut self, object: impl ObjectRef, name: &str) -> Result<Reply, Error> {
        let object = self.store.number_of(object.as_object())?;
        let outcome = self.called(object, Call::Name(name))?;
        self.store.in_words(object, outcome, self.ticket.id.life)
    }

    /// As [`SharedTransaction::call_op`](crate::SharedTransaction::call_op).
    ///
    /// ```
    /// # use colock::{Error, Kind, Reply, SharedStore, Type};
    /// # let store = SharedStore::new([&Type::counter(5, &[1], Kind::Undo)?], 100)?;
    /// let up = store.call_number(0, "inc:1")?;
    /// let reply = store.transact(|turn| turn.call_op(0, up))?;
    /// assert!(reply.is("ok"));
    /// # Ok::<(), Error>(())
    /// ```
    ///
    /// # Errors
    ///
    /// As of [`SharedTransaction::call`](crate::SharedTransaction::call).
    #[inline]
    pub fn call_op(&mut self, object: impl ObjectRef, call: impl Into<OperationId>) -> Result<Reply, Error> {
        let object = self.store.number_of(object.as_object())?;
        let outcome = self.called(object, Call::Number(call.into()))?;
        self.store.in_words(object, outcome, self.ticket.id.life)
    }

    /// As [`SharedTransaction::expect`](crate::SharedTransaction::expect).
    ///
    /// ```
    /// # use colock::{Error, Kind, SharedStore, Type};
    /// # let store = SharedStore::new([&Type::stock(5, &[1], Kind::Undo)?], 100)?;
    /// let refused = store.transact(|turn| turn.expect(0, "take:1", "ok"));
    /// assert!(matches!(refused, Err(Error::Unexpected { reply, .. }) if reply == "short"));
    /// # Ok::<(), Error>(())
    /// ```
    ///
    /// # Errors
    ///
    /// As of [`SharedTransaction::expect`](crate::SharedTransaction::expect).
    #[inline]
    pub fn expect(&mut self, object: impl ObjectRef, call: &str, reply: &str) -> Result<OperationId, Error> {
        let object = self.store.number_of(object.as_object())?;
        self.expected(object, Call::Name(call), reply)
    }

    /// As [`Turn::expect`], of the call that [`SharedStore::call_number`] gave.
    ///
    /// ```
    /// # use colock::{Error, Kind, SharedStore, Type};
    /// # let store = SharedStore::new([&Type::counter(5, &[1], Kind::Undo)?], 100)?;
    /// let up = store.call_number(0, "inc:1")?;
    /// store.transact(|turn| turn.expect_op(0, up, "ok"))?;
    /// # Ok::<(), Error>(())
    /// ```
    ///
    /// # Errors
    ///
    /// As of [`Turn::expect`].
    #[inline]
    pub fn expect_op(&mut self, object: impl ObjectRef, call: impl Into<OperationId>, reply: &str) -> Result<OperationId, Error> {
        let object = self.store.number_of(object.as_object())?;
        self.expected(object, Call::Number(call.into()), reply)
    }

    /// As [`SharedTransaction::would`](crate::SharedTransaction::would).
    ///
    /// ```
    /// # use colock::{Error, Kind, Reply, SharedStore, Type};
    /// # let store = SharedStore::new([&Type::counter(5, &[1], Kind::Undo)?], 100)?;
    /// assert_eq!(store.transact(|turn| turn.would(0, "dec:1")), Ok(Reply::Illegal));
    /// # Ok::<(), Error>(())
    /// ```
    ///
    /// # Errors
    ///
    /// As of [`SharedTransaction::call`](crate::SharedTransaction::call).
    pub fn would(&mut self, object: impl ObjectRef, name: &str) -> Result<Reply, Error> {
        let object = self.store.number_of(object.as_object())?;
        self.asked(object, Call::Name(name))
    }

    /// As [`SharedTransaction::would_op`](crate::SharedTransaction::would_op).
    ///
    /// ```
    /// # use colock::{Error, Kind, Reply, SharedStore, Type};
    /// # let store = SharedStore::new([&Type::counter(5, &[1], Kind::Undo)?], 100)?;
    /// let reply = store.transact(|turn| turn.would_op(0, 0))?;
    /// assert!(reply.is("ok"));
    /// # Ok::<(), Error>(())
    /// ```
    ///
    /// # Errors
    ///
    /// As of [`SharedTransaction::call`](crate::SharedTransaction::call).
    pub fn would_op(&mut self, object: impl ObjectRef, call: impl Into<OperationId>) -> Result<Reply, Error> {
        let object = self.store.number_of(object.as_object())?;
        self.asked(object, Call::Number(call.into()))
    }

    /// As [`SharedTransaction::rollback`](crate::SharedTransaction::rollback).
    ///
    /// ```
    /// # use colock::{Error, Kind, SharedStore, Type};
    /// # let store = SharedStore::new([&Type::counter(5, &[1], Kind::Undo)?], 100)?;
    /// store.transact(|turn| {
    ///     turn.expect(0, "inc:1", "ok")?;
    ///     turn.rollback(1)
    /// })?;
    /// assert_eq!(store.kept(0), Ok(0));
    /// # Ok::<(), Error>(())
    /// ```
    ///
    /// # Errors
    ///
    /// As of [`SharedTransaction::rollback`](crate::SharedTransaction::rollback).
    pub fn rollback(&mut self, operations: u64) -> Result<(), Error> {
        let ticket = self.ticket;
        self.with(|store, guard| store.take_back(guard, ticket, operations, Lock::Kept))
    }
}

impl Drop for Turn<'_> {
    #[inline]
    fn drop(&mut self) {
        if let Some(guard) = self.guard.take() {
            self.abort(guard);
        }
    }
}

impl fmt::Debug for Turn<'_> {
    fn fmt(&self, f: &mut fmt::Formatter<'_>) -> fmt::Result {
        f.debug_struct("Turn").field("number", &self.number()).finish_non_exhaustive()
    }
}

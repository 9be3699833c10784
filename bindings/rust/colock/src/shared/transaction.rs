use crate::error::Error;
use crate::key::{Doer, Key};
use crate::locks::locked;
use crate::object::ObjectRef;
use crate::operation_id::OperationId;
use crate::reply::{Outcome, Reply};
use crate::shared::calling::{Call, Question};
use crate::shared::commits::When;
use crate::shared::holds::Holds;
use crate::shared::state::Ticket;
use crate::shared::{Lock, SharedStore};
use crate::transaction_id::TransactionId;
use crate::wait::calling::InTheWay;
use crate::wait::touched::note;
use crate::wire::beginning::FirstTold;
use colock_waiting::Touched;
use std::mem;
use std::ops::Deref;
use std::sync::{Arc, Mutex, OnceLock};
use std::time::{Duration, Instant};

/// The number of what couldn't begin, which no transaction has over a child: a history has fewer events than that. In memory one begins at
/// once.
const NOBODY: u64 = u32::MAX as u64;

/// A transaction of a [`SharedStore`]. Where it is dropped, it aborts: over a child the abort is asked for, and neither an
/// answer is awaited nor the disk. Where a turn of another thread has the store, the abort is asked for at its end. One that is
/// [prepared](SharedTransaction::prepare) stays, and each call of it, its commit and its abort fail by [`Error::Prepared`]; when it is
/// decided, by [`Error::NotOpen`].
///
/// ```
/// # use colock::{Kind, SharedStore, Type};
/// # let counter = Type::counter(5, &[1], Kind::Undo)?;
/// let store = SharedStore::new([&counter], 100)?;
/// let mut transaction = store.begin()?;
/// transaction.expect(0, "inc:1", "ok")?;
/// drop(transaction);
/// assert_eq!(store.kept(0)?, 0);
/// # Ok::<(), colock::Error>(())
/// ```
#[derive(Debug)]
#[must_use = "a transaction that is dropped aborts"]
pub struct SharedTransaction<'s> {
    pub(super) store: Holder<'s>,
    /// Its name, where it isn't put off.
    name: OnceLock<TransactionId>,
    /// Held while it begins, where that was put off.
    beginning: Mutex<()>,
    age: u64,
    worker: u8,
    /// At which objects it has executed operations.
    touched: Touched,
    /// At which it holds some, in memory.
    pub(super) holds: Holds,
    /// The key under which it was prepared.
    pub(super) prepared_under: Option<Box<str>>,
    /// For whom it waited where it was aborted as a victim.
    victim_of: Option<TransactionId>,
    /// Whether its end was asked for.
    is_over: bool,
}

/// A transaction that keeps its store, by [`SharedStore::begin_owned`]. It may go to another thread, and outlive all else that
/// has the store. A function that takes a `&mut SharedTransaction<'_>` takes this one too.
pub type OwnedTransaction = SharedTransaction<'static>;

/// How a transaction has its store.
#[derive(Debug)]
pub(crate) enum Holder<'s> {
    Borrows(&'s SharedStore),
    Keeps(Arc<SharedStore>),
}

impl Deref for Holder<'_> {
    type Target = SharedStore;

    #[inline]
    fn deref(&self) -> &SharedStore {
        match self {
            Holder::Borrows(store) => store,
            Holder::Keeps(store) => store,
        }
    }
}

/// What is to be known of a transaction that hasn't ended, so that it goes on elsewhere.
#[derive(Debug)]
pub(crate) struct Unended {
    name: OnceLock<TransactionId>,
    age: u64,
    worker: u8,
    touched: Touched,
    holds: Holds,
}

impl Unended {
    /// The age of one that isn't known to have begun, or the ticket.
    pub(crate) fn ticket(&self) -> Result<Ticket, u64> {
        let Unended { age, worker, touched, .. } = *self;
        self.name.get().map(|id| Ticket { id: *id, age, worker, touched }).ok_or(age)
    }
}

impl<'s> SharedTransaction<'s> {
    /// One that has begun.
    pub(crate) fn of(store: &'s SharedStore, ticket: Ticket) -> SharedTransaction<'s> {
        let mut begun = SharedTransaction::put_off(store, ticket.age);
        begun.name = OnceLock::from(ticket.id);
        begun.worker = ticket.worker;
        begun
    }

    /// One whose begin is put off.
    pub(crate) fn put_off(store: &'s SharedStore, age: u64) -> SharedTransaction<'s> {
        let (name, touched, holds) = (OnceLock::new(), Touched::default(), Holds::default());
        SharedTransaction::unended(Holder::Borrows(store), Unended { name, age, worker: 0, touched, holds })
    }

    /// One that hasn't ended, and goes on.
    pub(crate) fn unended(store: Holder<'s>, Unended { name, age, worker, touched, holds }: Unended) -> SharedTransaction<'s> {
        let (beginning, prepared_under, victim_of) = (Mutex::new(()), None, None);
        SharedTransaction { store, name, beginning, age, worker, touched, holds, prepared_under, victim_of, is_over: false }
    }

    /// Takes it out of here. A drop of this does nothing any more.
    fn taken(&mut self) -> Unended {
        self.is_over = true;
        Unended { name: mem::take(&mut self.name), age: self.age, worker: self.worker, touched: self.touched, holds: mem::take(&mut self.holds) }
    }

    /// The same transaction, which keeps its store.
    pub(crate) fn kept_by(mut self, store: Arc<SharedStore>) -> OwnedTransaction {
        SharedTransaction::unended(Holder::Keeps(store), self.taken())
    }

    pub(crate) fn age(&self) -> u64 {
        self.age
    }

    /// The life in which it began, where it has.
    pub(crate) fn life(&self) -> Option<u64> {
        self.name.get().map(|id| id.life)
    }

    /// What each call needs, but for the first one. Where its begin was put off it begins now.
    pub(super) fn ticket(&self) -> Result<Ticket, Error> {
        self.begun().map(|id| self.ticket_of(id))
    }

    fn ticket_of(&self, id: TransactionId) -> Ticket {
        Ticket { id, age: self.age, worker: self.worker, touched: self.touched }
    }

    /// Why it isn't open any more, where it was a victim.
    pub(crate) fn deadlock(&self) -> Option<Error> {
        self.victim_of.map(|waited_for| Error::Deadlock { waited_for })
    }

    /// Its id, by which [`SharedStore::committed`] says what became of it. It has one as soon as it has begun: in memory
    /// always, over a child from its first call on. Nothing is asked for that: [`SharedTransaction::begun`] does.
    ///
    /// ```
    /// # use colock::{Kind, SharedStore, TransactionId, Type};
    /// # let store = SharedStore::new([&Type::counter(5, &[1], Kind::Undo)?], 100)?;
    /// assert_eq!(store.begin()?.id(), Some(TransactionId::new(0, 0)));
    /// # Ok::<(), colock::Error>(())
    /// ```
    pub fn id(&self) -> Option<TransactionId> {
        self.name.get().copied()
    }

    /// Its id, when it has begun: where its begin was put off, the child is asked for it now.
    ///
    /// ```
    /// # use colock::{Kind, SharedStore, Type};
    /// # let store = SharedStore::new([&Type::counter(5, &[1], Kind::Undo)?], 100)?;
    /// assert_eq!(store.begin()?.begun()?.to_string(), "0.0");
    /// # Ok::<(), colock::Error>(())
    /// ```
    ///
    /// # Errors
    ///
    /// As of [`SharedStore::begin`].
    pub fn begun(&self) -> Result<TransactionId, Error> {
        if let Some(id) = self.name.get() {
            return Ok(*id);
        }
        // before a lock for which who waits may be waited for by whoever is in a turn
        self.store.may_enter()?;
        let _beginning = locked(&self.beginning);
        if let Some(id) = self.name.get() {
            return Ok(*id); // meanwhile, by another thread
        }
        let id = self.store.begin_at_last(self.age)?;
        Ok(*self.name.get_or_init(|| id))
    }

    /// The number of [`SharedTransaction::begun`]; one that couldn't begin has a number that is no transaction's.
    #[deprecated(since = "0.2.0", note = "it may ask a child: use `id`, or `begun`, which says why it couldn't begin")]
    pub fn number(&self) -> u64 {
        self.begun().map_or(NOBODY, |id| id.number)
    }

    /// That it may be called, and ended by its owner.
    pub(super) fn is_open(&self) -> Result<(), Error> {
        match (&self.prepared_under, self.victim_of) {
            (None, None) => Ok(()),
            (_, Some(_)) => Err(Error::NotOpen),
            (Some(key), None) => Err(self.begun().map_or_else(|error| error, |id| self.store.not_undecided(key, id))),
        }
    }

    pub(crate) fn was_prepared(&self) -> bool {
        self.prepared_under.is_some()
    }

    /// A call at an object was answered.
    fn note(&mut self, object: u32, outcome: &Result<Outcome, Error>) {
        note(&mut self.touched, object, outcome);
        if let (Ok(Outcome::Operation(_)), None) = (outcome, self.store.remote()) {
            self.holds.note(object);
        }
    }

    /// Calls the call of this name at an object. It doesn't wait: it is [`Reply::Busy`] where what another transaction
    /// did is in its way, and where it would overtake an older one that waits at the object.
    ///
    /// ```
    /// # use colock::{Kind, Reply, SharedStore, Type};
    /// # let counter = Type::counter(5, &[1], Kind::Undo)?;
    /// let store = SharedStore::new([&counter], 100)?;
    /// let (mut first, mut second) = (store.begin()?, store.begin()?);
    /// assert_eq!(first.call(0, "inc:1")?.to_string(), "inc:1 ok");
    /// assert_eq!(second.call(0, "dec:1")?.to_string(), "busy 0.0");
    /// # Ok::<(), colock::Error>(())
    /// ```
    ///
    /// # Errors
    ///
    /// [`Error::NotOpen`], [`Error::NoObject`], [`Error::NoObjectNamed`], [`Error::NoCall`], [`Error::HistoryFull`] or
    /// [`Error::NoMemory`]; over a child [`Error::EpochEnded`] or [`Error::ConnectionLost`] too.
    pub fn call(&mut self, object: impl ObjectRef, name: &str) -> Result<Reply, Error> {
        let object = self.store.number_of(object.as_object())?;
        let outcome = self.called(object, Call::Name(name))?;
        self.in_words(object, outcome)
    }

    /// As [`SharedTransaction::call`], of the call that [`SharedStore::call_number`] gave.
    ///
    /// ```
    /// # use colock::{Kind, Reply, SharedStore, Type};
    /// # let store = SharedStore::new([&Type::counter(5, &[1], Kind::Undo)?], 100)?;
    /// let up = store.call_number(0, "inc:1")?;
    /// assert_eq!(store.begin()?.call_op(0, up)?.to_string(), "inc:1 ok");
    /// # Ok::<(), colock::Error>(())
    /// ```
    ///
    /// # Errors
    ///
    /// As of [`SharedTransaction::call`].
    pub fn call_op(&mut self, object: impl ObjectRef, call: impl Into<OperationId>) -> Result<Reply, Error> {
        let object = self.store.number_of(object.as_object())?;
        let outcome = self.called(object, Call::Number(call.into()))?;
        self.in_words(object, outcome)
    }

    fn called(&mut self, object: u32, call: Call<'_>) -> Result<Outcome, Error> {
        self.is_open()?;
        let outcome = match self.first_told(object, call)? {
            None => self.store.call_now(self.ticket()?, object, call),
            Some(first) => {
                if let Ok(Outcome::Busy { .. }) = first.reply {
                    self.store.count_busy(object);
                }
                first.reply
            }
        };
        self.note(object, &outcome);
        outcome
    }

    fn expected(&mut self, object: u32, call: Call<'_>, reply: &str) -> Result<OperationId, Error> {
        let outcome = self.called(object, call)?;
        let sight = self.store.sight(self.life().unwrap_or_default());
        Reply::expected_of(outcome, self.store.calls_at(object)?, sight, reply)
    }

    /// What was answered, with its words. It has begun, since else it would have failed.
    #[inline]
    fn in_words(&self, object: u32, outcome: Outcome) -> Result<Reply, Error> {
        self.store.in_words(object, outcome, self.life().unwrap_or_default())
    }

    /// What was answered to a first call that was made together with the begin.
    fn first_told(&mut self, object: u32, call: Call<'_>) -> Result<Option<FirstTold>, Error> {
        if self.name.get().is_some() {
            return Ok(None);
        }
        Ok(self.store.first_call(self.age, object, call)?.and_then(|first| {
            let _ = self.name.set(first.id);
            first.told
        }))
    }

    /// Calls, and waits for who is in the way, at most this long in all. It is never [`Reply::Busy`]. A call that waits
    /// leaves one event of it at most.
    ///
    /// ```
    /// use colock::{Error, Kind, SharedStore, Type};
    /// use std::time::Duration;
    ///
    /// let counter = Type::counter(5, &[1], Kind::Undo)?;
    /// let store = SharedStore::new([&counter], 100)?;
    /// let mut first = store.begin()?;
    /// first.expect(0, "inc:1", "ok")?;
    /// std::thread::scope(|scope| {
    ///     scope.spawn(|| -> Result<(), Error> {
    ///         let mut second = store.begin()?;
    ///         second.expect_within(0, "dec:1", "ok", Duration::from_secs(60))?;
    ///         second.commit()
    ///     });
    ///     first.commit()
    /// })?;
    /// assert_eq!(store.kept(0)?, 0);
    /// # Ok::<(), Error>(())
    /// ```
    ///
    /// # Errors
    ///
    /// As of [`SharedTransaction::call`]. [`Error::TimedOut`] where the limit is over: it stays open.
    /// [`Error::Deadlock`] where it waited in a circle and is the youngest there: it has been aborted.
    pub fn call_within(&mut self, object: impl ObjectRef, name: &str, limit: Duration) -> Result<Reply, Error> {
        let object = self.store.number_of(object.as_object())?;
        self.waited(object, Call::Name(name), limit)
    }

    /// As [`SharedTransaction::call_within`], of the call that [`SharedStore::call_number`] gave.
    ///
    /// ```
    /// # use colock::{Error, Kind, SharedStore, Type};
    /// # use std::time::Duration;
    /// # let store = SharedStore::new([&Type::counter(5, &[1], Kind::Undo)?], 100)?;
    /// let (up, down) = (store.call_number(0, "inc:1")?, store.call_number(0, "dec:1")?);
    /// let (mut first, mut second) = (store.begin()?, store.begin()?);
    /// first.call_op(0, up)?.expected("ok")?;
    /// assert_eq!(second.call_op_within(0, down, Duration::from_millis(1)), Err(Error::TimedOut));
    /// # Ok::<(), Error>(())
    /// ```
    ///
    /// # Errors
    ///
    /// As of [`SharedTransaction::call_within`].
    pub fn call_op_within(&mut self, object: impl ObjectRef, call: impl Into<OperationId>, limit: Duration) -> Result<Reply, Error> {
        let object = self.store.number_of(object.as_object())?;
        self.waited(object, Call::Number(call.into()), limit)
    }

    fn waited(&mut self, object: u32, call: Call<'_>, limit: Duration) -> Result<Reply, Error> {
        self.is_open()?;
        let done = self.done_by(object, call, Instant::now().checked_add(limit));
        self.note(object, &done);
        if let Err(Error::Deadlock { waited_for }) = done {
            self.victim_of = Some(waited_for);
        }
        self.in_words(object, done?)
    }

    /// What is answered to a call that waits up to a moment.
    fn done_by(&mut self, object: u32, call: Call<'_>, deadline: Option<Instant>) -> Result<Outcome, Error> {
        let in_the_way = match self.first_told(object, call)? {
            None => None,
            Some(FirstTold { reply: Ok(Outcome::Busy { blocker }), since }) => Some(InTheWay { blocker, since }),
            Some(first) => return first.reply,
        };
        self.store.call_waiting(self.ticket()?, object, call, deadline, in_the_way)
    }

    /// Calls, and makes an error of each reply but one. It doesn't wait.
    ///
    /// ```
    /// # use colock::{Error, Kind, SharedStore, Type};
    /// let account = Type::account(5, &[1, 2], Kind::Undo)?;
    /// let store = SharedStore::new([&account], 100)?;
    /// let mut transaction = store.begin()?;
    /// transaction.expect(0, "deposit:1", "ok")?;
    /// let refused = transaction.expect(0, "withdraw:2", "ok");
    /// assert!(matches!(refused, Err(Error::Unexpected { call, reply }) if call == "withdraw:2" && reply == "short"));
    /// # Ok::<(), Error>(())
    /// ```
    ///
    /// # Errors
    ///
    /// [`Error::Unexpected`] where it has another reply: the operation was executed all the same, and stays in the
    /// transaction. [`Error::Busy`] or [`Error::Illegal`] where nothing was executed; and as of
    /// [`SharedTransaction::call`].
    pub fn expect(&mut self, object: impl ObjectRef, call: &str, reply: &str) -> Result<OperationId, Error> {
        let object = self.store.number_of(object.as_object())?;
        self.expected(object, Call::Name(call), reply)
    }

    /// As [`SharedTransaction::expect`], of the call that [`SharedStore::call_number`] gave.
    ///
    /// ```
    /// # use colock::{Error, Kind, SharedStore, Type};
    /// # let store = SharedStore::new([&Type::counter(5, &[1], Kind::Undo)?], 100)?;
    /// let up = store.call_number(0, "inc:1")?;
    /// store.begin()?.expect_op(0, up, "ok")?;
    /// # Ok::<(), Error>(())
    /// ```
    ///
    /// # Errors
    ///
    /// As of [`SharedTransaction::expect`].
    pub fn expect_op(&mut self, object: impl ObjectRef, call: impl Into<OperationId>, reply: &str) -> Result<OperationId, Error> {
        let object = self.store.number_of(object.as_object())?;
        self.expected(object, Call::Number(call.into()), reply)
    }

    /// As [`SharedTransaction::expect`], of a call that waits for who is in its way, at most this long in all.
    ///
    /// ```
    /// # use colock::{Error, Kind, SharedStore, Type};
    /// # use std::time::Duration;
    /// # let store = SharedStore::new([&Type::counter(5, &[1], Kind::Undo)?], 100)?;
    /// let (mut first, mut second) = (store.begin()?, store.begin()?);
    /// first.expect(0, "inc:1", "ok")?;
    /// assert_eq!(second.expect_within(0, "dec:1", "ok", Duration::from_millis(1)), Err(Error::TimedOut));
    /// # Ok::<(), Error>(())
    /// ```
    ///
    /// # Errors
    ///
    /// As of [`SharedTransaction::expect`] and [`SharedTransaction::call_within`].
    pub fn expect_within(&mut self, object: impl ObjectRef, call: &str, reply: &str, limit: Duration) -> Result<OperationId, Error> {
        self.call_within(object, call, limit)?.expected(reply)
    }

    /// What [`SharedTransaction::call`] would be answered now. Nothing is executed, and it is no event.
    ///
    /// ```
    /// # use colock::{Kind, Reply, SharedStore, Type};
    /// # let store = SharedStore::new([&Type::counter(5, &[1], Kind::Undo)?], 100)?;
    /// assert_eq!(store.begin()?.would(0, "dec:1")?, Reply::Illegal);
    /// # Ok::<(), colock::Error>(())
    /// ```
    ///
    /// # Errors
    ///
    /// As of [`SharedTransaction::call`].
    pub fn would(&self, object: impl ObjectRef, name: &str) -> Result<Reply, Error> {
        let object = self.store.number_of(object.as_object())?;
        self.asked(object, Call::Name(name))
    }

    /// What [`SharedTransaction::call_op`] would be answered now.
    ///
    /// ```
    /// # use colock::{Kind, Reply, SharedStore, Type};
    /// # let store = SharedStore::new([&Type::counter(5, &[1], Kind::Undo)?], 100)?;
    /// assert_eq!(store.begin()?.would_op(0, 0)?.to_string(), "inc:1 ok");
    /// # Ok::<(), colock::Error>(())
    /// ```
    ///
    /// # Errors
    ///
    /// As of [`SharedTransaction::call`].
    pub fn would_op(&self, object: impl ObjectRef, call: impl Into<OperationId>) -> Result<Reply, Error> {
        let object = self.store.number_of(object.as_object())?;
        self.asked(object, Call::Number(call.into()))
    }

    fn asked(&self, object: u32, call: Call<'_>) -> Result<Reply, Error> {
        self.is_open()?;
        let ticket = self.ticket()?;
        let outcome = self.store.reply(self.store.enter()?, ticket, Question::would(object, call), Lock::GivenUp).1?;
        self.in_words(object, outcome)
    }

    /// Takes back its last operations, over all objects together. It stays open.
    ///
    /// ```
    /// # use colock::{Kind, SharedStore, Type};
    /// # let store = SharedStore::new([&Type::counter(5, &[1], Kind::Undo)?], 100)?;
    /// let mut transaction = store.begin()?;
    /// transaction.expect(0, "inc:1", "ok")?;
    /// transaction.rollback(1)?;
    /// transaction.commit()?;
    /// assert_eq!(store.kept(0)?, 0);
    /// # Ok::<(), colock::Error>(())
    /// ```
    ///
    /// # Errors
    ///
    /// [`Error::BadRollback`] where it has fewer operations, or none are asked for, and as of
    /// [`SharedTransaction::call`].
    pub fn rollback(&mut self, operations: u64) -> Result<(), Error> {
        self.is_open()?;
        let ticket = self.ticket()?;
        self.store.take_back(self.store.enter()?, ticket, operations, Lock::GivenUp).1?;
        self.holds.take_back(operations);
        Ok(())
    }

    /// Commits it. Over a child it is durable then.
    ///
    /// ```
    /// # use colock::{Kind, SharedStore, Type};
    /// # let store = SharedStore::new([&Type::counter(5, &[1], Kind::Undo)?], 100)?;
    /// store.begin()?.commit()?;
    /// assert_eq!(store.open_count()?, 0);
    /// # Ok::<(), colock::Error>(())
    /// ```
    ///
    /// # Errors
    ///
    /// [`Error::NotOpen`] where it was aborted before. Over a child [`Error::EpochEnded`], [`Error::ConnectionLost`],
    /// or [`Error::OutcomeUnknown`] where the child was lost before it answered.
    pub fn commit(mut self) -> Result<(), Error> {
        let ticket = self.ended()?;
        self.store.commit(self.store.enter()?, ticket, When::OthersFirst)
    }

    /// Commits it under a key, once: where a transaction committed before under this key, in whatever life or epoch, that is
    /// answered, and this one is aborted. So who doesn't know whether the work was committed, as by
    /// [`Error::OutcomeUnknown`], does it again under the same key, with the file open again.
    ///
    /// A key is 1 to 64 bytes of `a-z`, `A-Z`, `0-9`, `_`, `:`, `-` and `.`, which the caller chose for this work. By an error but
    /// [`Error::OutcomeUnknown`] the transaction is aborted, and a key that was free is free.
    ///
    /// ```
    /// # use colock::{Kind, SharedStore, Type};
    /// # let store = SharedStore::new([&Type::counter(5, &[1], Kind::Undo)?], 100)?;
    /// for _ in 0..3 {
    ///     let mut transaction = store.begin()?;
    ///     transaction.expect(0, "inc:1", "ok")?;
    ///     transaction.commit_under("order:4711")?;
    /// }
    /// assert_eq!((store.kept(0)?, store.open_count()?), (1, 0));
    /// # Ok::<(), colock::Error>(())
    /// ```
    ///
    /// # Errors
    ///
    /// [`Error::BadKey`], by which nothing else is asked; [`Error::KeyPrepared`], [`Error::KeyAborted`] or [`Error::KeyTaken`]. Where the
    /// key is free, as of [`SharedTransaction::commit`].
    pub fn commit_under(self, key: impl AsRef<str>) -> Result<(), Error> {
        let key = Key::of(key.as_ref())?;
        self.committed_under(key).map(drop)
    }

    /// Commits it under a key. Whose work that is.
    pub(crate) fn committed_under(mut self, key: Key<'_>) -> Result<Doer, Error> {
        if let Err(error) = self.is_open() {
            if self.was_prepared() {
                return Err(error);
            }
            return self.store.replies_under(key)?.map(|_| Doer::Another).ok_or(error);
        }
        let ticket = self.ended()?;
        self.store.commit_under(self.store.enter()?, ticket, key)
    }

    /// Its end is asked for by the caller.
    fn ended(&mut self) -> Result<Ticket, Error> {
        self.is_open()?;
        let ticket = self.ticket()?;
        self.store.may_enter()?; // else it isn't asked for
        self.is_over = true;
        Ok(ticket)
    }

    /// Aborts it: nothing stays of its operations. A drop does the same and reports no error.
    ///
    /// ```
    /// # use colock::{Kind, SharedStore, Type};
    /// # let store = SharedStore::new([&Type::counter(5, &[1], Kind::Undo)?], 100)?;
    /// store.begin()?.abort()?;
    /// # Ok::<(), colock::Error>(())
    /// ```
    ///
    /// # Errors
    ///
    /// [`Error::NotOpen`] where it was aborted before. Over a child [`Error::EpochEnded`] or
    /// [`Error::ConnectionLost`].
    pub fn abort(mut self) -> Result<(), Error> {
        let ticket = self.ended()?;
        self.store.abort(self.store.enter()?, ticket)
    }
}

impl Drop for SharedTransaction<'_> {
    fn drop(&mut self) {
        if self.is_over || self.victim_of.is_some() || self.was_prepared() {
            return;
        }
        let unended = self.taken();
        self.store.abort_unended(unended);
    }
}

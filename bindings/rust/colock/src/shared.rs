pub(crate) mod attempts;
pub(crate) mod calling;
pub(crate) mod commits;
mod dropping;
mod ends;
mod holds;
mod in_memory;
pub(crate) mod in_turn;
mod keys;
mod prepared;
mod reading;
mod reads;
pub(crate) mod state;
pub(crate) mod transaction;
pub(crate) mod turn;

use crate::error::Error;
use crate::fork::Origin;
use crate::limits::Limits;
use crate::locks::locked;
use crate::memory::keys::Keys;
use crate::memory::store::Store;
use crate::object::{NewObject, Object};
use crate::objects::{Known, Objects, MOST_OBJECTS};
use crate::reply::{Outcome, Reply};
use crate::shared::in_turn::InTurn;
use crate::shared::state::{Held, State, Ticket};
use crate::shared::transaction::{OwnedTransaction, SharedTransaction};
use crate::transaction_id::{Sight, TransactionId};
use crate::types::calls::Calls;
use crate::wire::remote::{Remote, RemoteState};
use std::fmt;
use std::sync::atomic::{AtomicBool, Ordering};
use std::sync::{Arc, Mutex, MutexGuard};

/// A store of objects that threads share, in memory or in a file, whose calls may wait.
///
/// [`SharedStore::new`] makes one in memory, and [`OpenOptions`](crate::OpenOptions) opens one in a file. In an `Arc` it may be
/// used as long as a transaction keeps it, by [`SharedStore::begin_owned`]. In a fork of the process that opened it each call
/// fails, [`Error::ConnectionLost`].
///
/// Where it is dropped, what is open aborts. A child is told to end, and is waited for by a thread of its own, at most as long
/// as an answer may take: [`SharedStore::close`] waits, and says how it ended. As long as it ends,
/// [`OpenOptions::open`](crate::OpenOptions::open) waits for it; another process can't open the file yet.
pub struct SharedStore {
    state: Arc<Mutex<State>>,
    objects: Arc<Objects>,
    remote: Option<Remote>,
    /// The process that opened it.
    origin: Origin,
    pub(crate) in_turn: InTurn,
    /// Written with the lock.
    is_closed: AtomicBool,
}

/// The one lock of a store.
pub(crate) type Guard<'s> = MutexGuard<'s, State>;

/// What came of something that needs the lock, and the lock, which is given up meanwhile or kept.
pub(crate) type Guarded<'s, T> = (Guard<'s>, Result<T, Error>);

/// A transaction that has begun, and the lock.
pub(crate) struct Begun<'s> {
    pub(crate) guard: Guard<'s>,
    pub(crate) id: TransactionId,
}

/// What becomes of the lock while an answer of a child is awaited.
#[derive(Clone, Copy, Debug, PartialEq, Eq)]
pub(crate) enum Lock {
    GivenUp,
    Kept,
}

impl SharedStore {
    /// A store in memory, of these objects. Its history will have at most `max_events` events, until it begins anew
    /// ([`SharedStore::forget_when_full`]); the other limits are [`Limits::STANDARD`]. An object is given as its type, or as a pair of a name and its type ([`NewObject`]).
    ///
    /// ```
    /// use colock::{Kind, SharedStore, Type};
    ///
    /// let counter = Type::counter(100, &[1], Kind::Undo)?;
    /// let store = SharedStore::new([&counter], 1_000_000)?;
    /// std::thread::scope(|scope| {
    ///     for _ in 0..4 {
    ///         scope.spawn(|| -> Result<(), colock::Error> {
    ///             let mut transaction = store.begin()?;
    ///             transaction.expect(0, "inc:1", "ok")?;
    ///             transaction.commit()
    ///         });
    ///     }
    /// });
    /// assert_eq!(store.kept(0)?, 4);
    /// # Ok::<(), colock::Error>(())
    /// ```
    ///
    /// # Errors
    ///
    /// As of [`Store::new`](crate::Store::new).
    pub fn new<'t>(objects: impl IntoIterator<Item = impl Into<NewObject<'t>>>, max_events: u64) -> Result<SharedStore, Error> {
        SharedStore::with_limits(objects, Limits::of_events(max_events))
    }

    /// A store in memory, of these objects, with limits of its own.
    ///
    /// ```
    /// use colock::{Kind, Limits, SharedStore, Type};
    ///
    /// let counter = Type::counter(100, &[1], Kind::Undo)?;
    /// let limits = Limits { open: 65_536, objects: 65_536, ..Limits::STANDARD };
    /// let store = SharedStore::with_limits(std::iter::repeat_n(&counter, 65_536), limits)?;
    /// store.transact(|turn| turn.expect(65_535, "inc:1", "ok"))?;
    /// assert_eq!(store.kept(65_535)?, 1);
    /// # Ok::<(), colock::Error>(())
    /// ```
    ///
    /// # Errors
    ///
    /// As of [`Store::with_limits`](crate::Store::with_limits).
    pub fn with_limits<'t>(objects: impl IntoIterator<Item = impl Into<NewObject<'t>>>, limits: Limits) -> Result<SharedStore, Error> {
        let store = Store::with_limits(objects, limits)?;
        let objects = Arc::clone(store.objects());
        let state = State::new(Held::Memory(store), Arc::clone(&objects), 0, Keys::of(limits.outcomes));
        Ok(SharedStore::of(state, objects, None))
    }

    /// A store behind a child that was greeted.
    pub(crate) fn of_remote(remote_state: RemoteState, found: Vec<Known>, life: u64, remote: Remote) -> SharedStore {
        let objects = Arc::new(Objects::of(found, MOST_OBJECTS));
        // the child keeps the outcomes
        let state = State::new(Held::Remote(remote_state), Arc::clone(&objects), life, Keys::of(0));
        let store = SharedStore::of(state, objects, Some(remote));
        if let Some(remote) = &store.remote {
            remote.link.belongs_to(&store.state);
        }
        store
    }

    fn of(state: State, objects: Arc<Objects>, remote: Option<Remote>) -> SharedStore {
        let state = Arc::new(Mutex::new(state));
        SharedStore { state, objects, remote, origin: Origin::here(), in_turn: InTurn::default(), is_closed: AtomicBool::new(false) }
    }

    /// The lock, where it may be waited for, and the store isn't closed.
    #[inline]
    pub(crate) fn enter(&self) -> Result<Guard<'_>, Error> {
        self.may_enter()?;
        let guard = self.lock();
        if self.is_closed() {
            return Err(Error::Closed);
        }
        Ok(guard)
    }

    #[inline]
    pub(crate) fn is_closed(&self) -> bool {
        self.is_closed.load(Ordering::Relaxed)
    }

    /// That the lock may be waited for. In a fork whoever has it may be missing, and in its own turn a thread has it.
    #[inline]
    pub(crate) fn may_enter(&self) -> Result<(), Error> {
        if self.origin.is_this() && !self.in_turn.is_here() {
            return Ok(());
        }
        Err(self.not_entered())
    }

    #[cold]
    fn not_entered(&self) -> Error {
        self.is_here().err().unwrap_or(Error::InTurn)
    }

    /// That this process isn't a fork of the one that opened it.
    #[inline]
    pub(crate) fn is_here(&self) -> Result<(), Error> {
        self.origin.is_here()
    }

    #[inline]
    pub(crate) fn lock(&self) -> Guard<'_> {
        locked(&self.state)
    }

    pub(crate) fn mutex(&self) -> &Mutex<State> {
        &self.state
    }

    /// Gives the lock back, and writes what was asked with it and isn't awaited.
    pub(crate) fn leave(&self, guard: Guard<'_>) {
        drop(guard);
        if let Some(remote) = &self.remote {
            remote.link.write();
        }
    }

    /// What is beside the lock, where the store is behind a child.
    #[inline]
    pub(crate) fn remote(&self) -> Option<&Remote> {
        self.remote.as_ref()
    }

    /// What is known of its objects.
    pub(crate) fn objects(&self) -> &Objects {
        &self.objects
    }

    /// The calls of an object.
    #[inline]
    pub(crate) fn calls_at(&self, object: u32) -> Result<&Calls, Error> {
        self.objects.calls_at(object)
    }

    /// The number of an object.
    #[inline]
    pub(crate) fn number_of(&self, object: Object<'_>) -> Result<u32, Error> {
        if let Object::Name(_) = object {
            self.is_here()?; // in a fork nothing is looked up
        }
        self.objects.number_of(object)
    }

    /// What was answered to a transaction of this life, with its words.
    #[inline]
    pub(crate) fn in_words(&self, object: u32, outcome: Outcome, life: u64) -> Result<Reply, Error> {
        Reply::of(outcome, self.calls_at(object)?, self.sight(life))
    }

    /// How the transactions are seen that answers of this life tell.
    #[inline]
    pub(crate) fn sight(&self, life: u64) -> Sight {
        if self.remote.is_some() {
            Sight::OverChild(life)
        } else {
            Sight::InMemory(life)
        }
    }

    // ---- transactions

    /// Begins a transaction. Where it is dropped, it aborts.
    ///
    /// Over a child its begin may go there only with what is asked next, by this thread or of the whole store. Then what
    /// keeps it from beginning comes at its first call.
    ///
    /// ```
    /// # use colock::{Kind, SharedStore, Type};
    /// # let store = SharedStore::new([&Type::counter(5, &[1], Kind::Undo)?], 100)?;
    /// let transaction = store.begin()?;
    /// assert_eq!(store.open_count()?, 1);
    /// transaction.commit()?;
    /// # Ok::<(), colock::Error>(())
    /// ```
    ///
    /// # Errors
    ///
    /// [`Error::TooManyOpen`], [`Error::HistoryFull`] or [`Error::NoMemory`]. Over a child [`Error::ConnectionLost`],
    /// and [`Error::TimedOut`] where a yes of the checker is one-way, its epoch is full or objects are added, and no other one begins
    /// within the limit.
    pub fn begin(&self) -> Result<SharedTransaction<'_>, Error> {
        self.begin_aged(0, None)
    }

    /// Begins a transaction that keeps the store, and isn't bound to where that is borrowed.
    ///
    /// ```
    /// use colock::{Kind, SharedStore, Type};
    /// use std::sync::Arc;
    ///
    /// let store = Arc::new(SharedStore::new([&Type::counter(5, &[1], Kind::Undo)?], 100)?);
    /// let mut transaction = store.begin_owned()?;
    /// let counting = std::thread::spawn(move || {
    ///     transaction.expect(0, "inc:1", "ok")?;
    ///     transaction.commit()
    /// });
    /// counting.join().unwrap()?;
    /// assert_eq!(store.kept(0)?, 1);
    /// # Ok::<(), colock::Error>(())
    /// ```
    ///
    /// # Errors
    ///
    /// As of [`SharedStore::begin`].
    pub fn begin_owned(self: &Arc<Self>) -> Result<OwnedTransaction, Error> {
        Ok(self.begin()?.kept_by(Arc::clone(self)))
    }

    /// Begins a transaction as a worker, which is a number that its events have.
    ///
    /// ```
    /// # use colock::{Kind, SharedStore, Type};
    /// # let store = SharedStore::new([&Type::counter(5, &[1], Kind::Undo)?], 100)?;
    /// store.begin_as(7)?.commit()?;
    /// assert_eq!(store.events(0)?[1].to_string(), "commit 7 0");
    /// # Ok::<(), colock::Error>(())
    /// ```
    ///
    /// # Errors
    ///
    /// As of [`SharedStore::begin`]; [`Error::InMemoryOnly`] over a child, which knows worker 0 alone.
    pub fn begin_as(&self, worker: u8) -> Result<SharedTransaction<'_>, Error> {
        self.begin_aged(worker, None)
    }

    /// Begins a transaction of this age, or of a new one.
    pub(crate) fn begin_aged(&self, worker: u8, age: Option<u64>) -> Result<SharedTransaction<'_>, Error> {
        let Begun { mut guard, id } = match &self.remote {
            Some(_) if worker != 0 => return Err(Error::InMemoryOnly),
            Some(remote) => return self.begin_over_child(remote, age),
            None => self.begin_in_memory(worker)?,
        };
        let age = age.unwrap_or_else(|| guard.waiters.next_age());
        Ok(SharedTransaction::of(self, Ticket::new(id, age, worker)))
    }

    /// Begins a transaction in memory.
    #[inline]
    pub(crate) fn begin_in_memory(&self, worker: u8) -> Result<Begun<'_>, Error> {
        let mut guard = self.enter()?;
        let id = guard.memory()?.begin_as(worker)?.leave().id();
        Ok(Begun { guard, id })
    }

    /// Takes the gate out, so that a test can see what it is for.
    #[doc(hidden)]
    pub fn take_gate_out(&self) {
        self.lock().waiters.take_gate_out();
    }

    /// Whether the child has more objects that wait until what is open has ended, for a test.
    #[doc(hidden)]
    pub fn waits_to_extend(&self) -> bool {
        self.remote.as_ref().is_some_and(|remote| remote.link.has_late())
    }

    /// The child process, so that a test can kill it.
    #[doc(hidden)]
    pub fn child_process(&self) -> Option<u32> {
        self.remote.as_ref().map(|remote| remote.link.process())
    }
}

impl fmt::Debug for SharedStore {
    fn fmt(&self, f: &mut fmt::Formatter<'_>) -> fmt::Result {
        let is_in_memory = self.remote.is_none();
        f.debug_struct("SharedStore").field("objects", &self.objects.len()).field("is_in_memory", &is_in_memory).finish_non_exhaustive()
    }
}

//! What a shared store does in memory, and but for `extend` only there.

use crate::error::{Error, NotFollowed};
use crate::event::Event;
use crate::object::NewObject;
use crate::shared::commits::abort_in_memory;
use crate::shared::state::{State, Ticket};
use crate::shared::SharedStore;
use crate::transaction_id::TransactionId;
use std::collections::{BTreeMap, BTreeSet};

impl SharedStore {
    /// How many of the first events were forgotten.
    ///
    /// ```
    /// # use colock::{Kind, SharedStore, Type};
    /// # let store = SharedStore::new([&Type::counter(5, &[1], Kind::Undo)?], 100)?;
    /// store.begin()?.commit()?;
    /// store.forget(1)?;
    /// assert_eq!(store.forgotten_count(), Ok(1));
    /// # Ok::<(), colock::Error>(())
    /// ```
    ///
    /// # Errors
    ///
    /// [`Error::InMemoryOnly`] over a child.
    pub fn forgotten_count(&self) -> Result<u64, Error> {
        Ok(self.enter()?.memory()?.forgotten_count())
    }

    /// Forgets the first events, this many of those that are in memory, or all of them. Who forgets all of them now and then has a store
    /// without an end, as of [`Store::forget`](crate::Store::forget).
    ///
    /// ```
    /// # use colock::{Kind, SharedStore, Type};
    /// # let store = SharedStore::new([&Type::counter(5, &[1], Kind::Undo)?], 100)?;
    /// store.begin()?.commit()?;
    /// store.forget(u64::MAX)?;
    /// assert_eq!((store.event_count(), store.forgotten_count()), (Ok(2), Ok(2)));
    /// # Ok::<(), colock::Error>(())
    /// ```
    ///
    /// # Errors
    ///
    /// [`Error::InMemoryOnly`].
    pub fn forget(&self, events: u64) -> Result<(), Error> {
        self.enter()?.memory()?.forget(events);
        Ok(())
    }

    /// The events that weren't forgotten, oldest first, which are forgotten now, as of
    /// [`Store::take_events`](crate::Store::take_events): no event of another thread comes between.
    ///
    /// ```
    /// # use colock::{Event, Kind, SharedStore, Type};
    /// # let store = SharedStore::new([&Type::counter(5, &[1], Kind::Undo)?], 100)?;
    /// store.begin()?.commit()?;
    /// assert_eq!(store.take_events()?, [Event::Begin { worker: 0, transaction: 0 }, Event::Commit { worker: 0, transaction: 0 }]);
    /// assert_eq!((store.take_events()?, store.event_count()), (vec![], Ok(2)));
    /// # Ok::<(), colock::Error>(())
    /// ```
    ///
    /// # Errors
    ///
    /// [`Error::InMemoryOnly`], or [`Error::NoMemory`]: nothing is forgotten.
    pub fn take_events(&self) -> Result<Vec<Event>, Error> {
        self.enter()?.memory()?.take_events()
    }

    /// Where its history is full, it is to forget all events and to go on, by itself, as of
    /// [`Store::forget_when_full`](crate::Store::forget_when_full). Calls that wait go on, too.
    ///
    /// ```
    /// # use colock::{Kind, SharedStore, Type};
    /// let store = SharedStore::new([&Type::counter(1_000, &[1], Kind::Undo)?], 40)?;
    /// store.forget_when_full()?;
    /// let mut long = store.begin()?;
    /// long.expect(0, "inc:1", "ok")?;
    /// for _ in 0..500 {
    ///     store.transact(|turn| turn.expect(0, "inc:1", "ok"))?;
    /// }
    /// long.commit()?;
    /// assert_eq!((store.kept(0), store.event_count()), (Ok(501), Ok(1_503)));
    /// # Ok::<(), colock::Error>(())
    /// ```
    ///
    /// # Errors
    ///
    /// [`Error::InMemoryOnly`].
    pub fn forget_when_full(&self) -> Result<(), Error> {
        self.enter()?.memory()?.forget_when_full();
        Ok(())
    }

    /// Makes events again, one after another, each as its worker.
    ///
    /// ```
    /// # use colock::{Kind, SharedStore, Type};
    /// # let counter = Type::counter(5, &[1], Kind::Undo)?;
    /// # let store = SharedStore::new([&counter], 100)?;
    /// store.transact(|turn| turn.expect(0, "inc:1", "ok"))?;
    /// let other = SharedStore::new([&counter], 100)?;
    /// assert!(other.follow(&store.events(0)?).is_ok());
    /// assert_eq!(other.kept(0), Ok(1));
    /// # Ok::<(), colock::Error>(())
    /// ```
    ///
    /// # Errors
    ///
    /// As of [`Store::follow`](crate::Store::follow), and [`Error::InMemoryOnly`]. An event of a transaction that is prepared isn't made.
    pub fn follow(&self, events: &[Event]) -> Result<(), NotFollowed> {
        let not_made = |error| NotFollowed { made: 0, error };
        let mut guard = self.enter().map_err(not_made)?;
        let prepared = guard.prepared_numbers();
        let free = events.iter().position(|event| prepared.contains(&event.transaction())).unwrap_or(events.len());
        let store = guard.memory().map_err(not_made)?;
        let followed = store.follow(&events[..free]);
        guard.waiters.all_again();
        guard.settle();
        match followed {
            Ok(()) if free < events.len() => Err(NotFollowed { made: free as u64, error: Error::NotMade }),
            followed => followed,
        }
    }

    /// Begins anew, at the states that are kept. Where no transaction is open it has no event then, and transactions count from 0
    /// again. Where some are open, or prepared, and each yes of the checker is strong, all of them go on, also those that wait, as of
    /// [`Store::renew`](crate::Store::renew).
    ///
    /// ```
    /// # use colock::{Kind, SharedStore, Type};
    /// # let store = SharedStore::new([&Type::counter(5, &[1], Kind::Undo)?], 100)?;
    /// store.begin()?.commit()?;
    /// store.renew()?;
    /// assert_eq!(store.begin()?.begun()?.to_string(), "1.0");
    /// # Ok::<(), colock::Error>(())
    /// ```
    ///
    /// # Errors
    ///
    /// [`Error::StillOpen`] where one is open and some yes is one-way, [`Error::NoMemory`] or [`Error::InMemoryOnly`].
    pub fn renew(&self) -> Result<(), Error> {
        let mut guard = self.enter()?;
        if guard.memory()?.renewed()? {
            guard.renewed();
        }
        Ok(())
    }

    /// Begins anew, as [`SharedStore::renew`] while nobody is open, with more objects: they come after those that there are, each in the initial
    /// state of its type. It gives the number of the first of them. They are given as to [`SharedStore::new`].
    ///
    /// Over a child it is durable then. Where each yes of the checker is strong, what is open goes on. Where one is one-way, it waits, and no
    /// transaction begins meanwhile, until all that are open have ended, or the [`drain`](crate::OpenOptions::drain) is over, which aborts
    /// them but for what is prepared. Where another thread adds objects, it comes after that.
    ///
    /// ```
    /// # use colock::{Error, Kind, SharedStore, Type};
    /// # let seat = Type::seats(1, Kind::Undo)?;
    /// let store = SharedStore::new([("A12", &seat)], 100)?;
    /// assert_eq!(store.extend([("A13", &seat), ("A14", &seat)])?, 1);
    /// store.transact(|turn| turn.expect("A14", "hold:1", "ok"))?;
    /// assert_eq!((store.kept("A12"), store.kept("A14")), (Ok(0), Ok(1)));
    /// # Ok::<(), Error>(())
    /// ```
    ///
    /// # Errors
    ///
    /// As of [`Store::extend`](crate::Store::extend). Over a child, in place of [`Error::StillOpen`], [`Error::NoObjects`] of an
    /// extension by none, [`Error::CannotExtend`], and [`Error::ConnectionLost`], after which the file has all of the objects or
    /// none of them.
    pub fn extend<'t>(&self, objects: impl IntoIterator<Item = impl Into<NewObject<'t>>>) -> Result<u32, Error> {
        // before the lock is taken, which what gives them may ask for
        let objects: Vec<NewObject<'t>> = objects.into_iter().map(Into::into).collect();
        if let Some(remote) = self.remote() {
            return self.extend_over_child(remote, objects);
        }
        let mut guard = self.enter()?;
        let first = guard.memory()?.extend(objects)?;
        guard.stats.extend(self.objects().len());
        guard.renewed();
        Ok(first)
    }

    /// Aborts each transaction that is open and isn't prepared, in ascending order, as the worker that began it. Their owners' next calls
    /// fail with [`Error::NotOpen`].
    ///
    /// ```
    /// # use colock::{Error, Kind, SharedStore, Type};
    /// # let store = SharedStore::new([&Type::counter(5, &[1], Kind::Undo)?], 100)?;
    /// let transaction = store.begin()?;
    /// store.abort_all()?;
    /// assert_eq!(transaction.commit(), Err(Error::NotOpen));
    /// # Ok::<(), Error>(())
    /// ```
    ///
    /// # Errors
    ///
    /// [`Error::InMemoryOnly`].
    pub fn abort_all(&self) -> Result<(), Error> {
        let mut guard = self.enter()?;
        match guard.prepared_numbers() {
            prepared if prepared.is_empty() => abort_all(&mut guard),
            prepared => guard.abort_all_but(&prepared),
        }
    }
}

impl State {
    /// The numbers of what is prepared in memory.
    fn prepared_numbers(&self) -> BTreeSet<u64> {
        self.keys.tickets().map(|ticket| ticket.id.number).collect()
    }

    /// Aborts all that is open in memory but these.
    fn abort_all_but(&mut self, kept: &BTreeSet<u64>) -> Result<(), Error> {
        let store = self.memory()?;
        let open = store.open_numbers()?;
        let begun: BTreeMap<u64, u8> = store.events(store.forgotten_count())?.iter().filter_map(Event::begun).collect();
        for number in open.into_iter().filter(|number| !kept.contains(number)) {
            // where the event of its begin is forgotten, nobody knows its worker any more
            let worker = begun.get(&number).copied().unwrap_or(0);
            abort_in_memory(self, Ticket::new(TransactionId::new(self.life, number), 0, worker))?;
        }
        self.waiters.all_again();
        self.settle();
        Ok(())
    }
}

/// Aborts all that is open in memory.
pub(crate) fn abort_all(state: &mut State) -> Result<(), Error> {
    let store = state.memory()?;
    let count = store.open_count();
    store.abort_all();
    state.stats.aborts += count;
    state.all_ended();
    Ok(())
}

//! What is read of a shared store.

use crate::error::Error;
use crate::event::Event;
use crate::object::{Object, ObjectRef};
use crate::operation_id::OperationId;
use crate::shared::SharedStore;
use crate::stats::Stats;
use crate::types::Type;
use crate::wire::request::{event, Request};
use std::sync::atomic::Ordering;

/// The most events that a child answers at once.
const MOST_EVENTS: u32 = 65_536;

impl SharedStore {
    /// The types of its objects, in the order of the objects; of a file those that it has. Of one object
    /// [`SharedStore::type_of`] gives it.
    ///
    /// ```
    /// # use colock::{Kind, SharedStore, Type};
    /// # let store = SharedStore::new([&Type::counter(5, &[1], Kind::Undo)?], 100)?;
    /// assert_eq!(store.types()[0].name(), "counter");
    /// # Ok::<(), colock::Error>(())
    /// ```
    pub fn types(&self) -> Vec<Type> {
        self.objects().types().cloned().collect()
    }

    /// The type of an object.
    ///
    /// ```
    /// # use colock::{Error, Kind, SharedStore, Type};
    /// # let store = SharedStore::new([("clicks", &Type::counter(5, &[1], Kind::Undo)?)], 100)?;
    /// assert_eq!(store.type_of("clicks")?.name(), "counter");
    /// assert_eq!(store.type_of(1).err(), Some(Error::NoObject));
    /// # Ok::<(), Error>(())
    /// ```
    ///
    /// # Errors
    ///
    /// [`Error::NoObject`] or [`Error::NoObjectNamed`].
    pub fn type_of(&self, object: impl ObjectRef) -> Result<&Type, Error> {
        let object = self.number_of(object.as_object())?;
        self.objects().type_at(object).ok_or(Error::NoObject)
    }

    /// The number of the object of this name.
    ///
    /// ```
    /// # use colock::{Error, Kind, SharedStore, Type};
    /// # let seat = Type::seats(1, Kind::Undo)?;
    /// let store = SharedStore::new([("A12", &seat), ("A13", &seat)], 100)?;
    /// assert_eq!(store.find("A13"), Ok(1));
    /// assert_eq!(store.find("B1"), Err(Error::NoObjectNamed("B1".into())));
    /// # Ok::<(), Error>(())
    /// ```
    ///
    /// # Errors
    ///
    /// [`Error::NoObjectNamed`].
    pub fn find(&self, name: &str) -> Result<u32, Error> {
        self.number_of(Object::Name(name))
    }

    /// The name of an object, where it has one.
    ///
    /// ```
    /// # use colock::{Kind, SharedStore, Type};
    /// # let seat = Type::seats(1, Kind::Undo)?;
    /// let store = SharedStore::new([(Some("A12"), &seat), (None, &seat)], 100)?;
    /// assert_eq!((store.name_of(0), store.name_of(1), store.name_of(2)), (Some("A12"), None, None));
    /// # Ok::<(), colock::Error>(())
    /// ```
    pub fn name_of(&self, object: u32) -> Option<&str> {
        self.objects().name_at(object)
    }

    /// The call of this name at an object, for [`call_op`](crate::SharedTransaction::call_op): the first operation that has it, of `value`
    /// that of the value 0.
    ///
    /// ```
    /// # use colock::{Error, Kind, SharedStore, Type};
    /// # let store = SharedStore::new([&Type::counter(5, &[1], Kind::Undo)?], 100)?;
    /// assert_eq!(store.call_number(0, "dec:1"), Ok(1.into()));
    /// assert_eq!(store.call_number(0, "dec:2"), Err(Error::NoCall));
    /// # Ok::<(), Error>(())
    /// ```
    ///
    /// # Errors
    ///
    /// [`Error::NoObject`], [`Error::NoObjectNamed`] or [`Error::NoCall`].
    pub fn call_number(&self, object: impl ObjectRef, name: &str) -> Result<OperationId, Error> {
        let object = self.number_of(object.as_object())?;
        self.calls_at(object)?.number(name).ok_or(Error::NoCall)
    }

    /// The state that is kept of an object: of [`Kind::Undo`](crate::Kind::Undo) with what open transactions did, else
    /// without it.
    ///
    /// ```
    /// # use colock::{Error, Kind, SharedStore, Type};
    /// # let store = SharedStore::new([&Type::counter(5, &[1], Kind::Undo)?], 100)?;
    /// assert_eq!((store.kept(0), store.kept(1)), (Ok(0), Err(Error::NoObject)));
    /// # Ok::<(), Error>(())
    /// ```
    ///
    /// # Errors
    ///
    /// [`Error::NoObject`] or [`Error::NoObjectNamed`], and over a child [`Error::ConnectionLost`].
    pub fn kept(&self, object: impl ObjectRef) -> Result<u64, Error> {
        let object = self.number_of(object.as_object())?;
        match self.remote() {
            None => self.enter()?.memory()?.kept(object),
            Some(remote) => {
                let text = self.asked(remote, Request::Kept(object))?;
                text.parse().map_err(|_| remote.link.broken(&text))
            }
        }
    }

    /// How many transactions are open.
    ///
    /// ```
    /// # use colock::{Kind, SharedStore, Type};
    /// # let store = SharedStore::new([&Type::counter(5, &[1], Kind::Undo)?], 100)?;
    /// let transaction = store.begin()?;
    /// assert_eq!(store.open_count(), Ok(1));
    /// # drop(transaction);
    /// # Ok::<(), colock::Error>(())
    /// ```
    ///
    /// # Errors
    ///
    /// Over a child [`Error::ConnectionLost`].
    pub fn open_count(&self) -> Result<u64, Error> {
        match self.remote() {
            None => Ok(self.enter()?.memory()?.open_count()),
            Some(remote) => Ok(self.counts(remote)?.open),
        }
    }

    /// How many events there were: over a child in the present epoch, in memory with those that were forgotten.
    ///
    /// ```
    /// # use colock::{Kind, SharedStore, Type};
    /// # let store = SharedStore::new([&Type::counter(5, &[1], Kind::Undo)?], 100)?;
    /// store.begin()?.commit()?;
    /// assert_eq!(store.event_count(), Ok(2));
    /// # Ok::<(), colock::Error>(())
    /// ```
    ///
    /// # Errors
    ///
    /// Over a child [`Error::ConnectionLost`].
    pub fn event_count(&self) -> Result<u64, Error> {
        match self.remote() {
            None => Ok(self.enter()?.memory()?.event_count()),
            Some(remote) => Ok(self.counts(remote)?.events),
        }
    }

    /// The events from a place on, oldest first, which count from 0. Over a child they are those of the present
    /// epoch, and all that happened becomes durable before. Those of what went over into it are its first ones, by other numbers.
    ///
    /// ```
    /// # use colock::{Event, Kind, SharedStore, Type};
    /// # let store = SharedStore::new([&Type::counter(5, &[1], Kind::Undo)?], 100)?;
    /// store.begin()?.commit()?;
    /// assert_eq!(store.events(1)?, [Event::Commit { worker: 0, transaction: 0 }]);
    /// # Ok::<(), colock::Error>(())
    /// ```
    ///
    /// # Errors
    ///
    /// [`Error::Forgotten`] in memory, where `start` is below [`SharedStore::forgotten_count`];
    /// [`Error::ConnectionLost`] over a child.
    pub fn events(&self, start: u64) -> Result<Vec<Event>, Error> {
        let Some(remote) = self.remote() else {
            return self.enter()?.memory()?.events(start);
        };
        let mut events = Vec::new();
        loop {
            let Ok(from) = u32::try_from(start.saturating_add(events.len() as u64)) else {
                return Ok(events);
            };
            let text = self.asked(remote, Request::Events(from, MOST_EVENTS))?;
            let count = events.len();
            for line in text.lines() {
                events.push(event(line).ok_or_else(|| remote.link.broken(line))?);
            }
            if events.len() - count < MOST_EVENTS as usize {
                return Ok(events);
            }
        }
    }

    /// What this client counted since the store was opened; nothing in a fork, and in a turn of the thread itself.
    ///
    /// ```
    /// # use colock::{Kind, SharedStore, Type};
    /// # let store = SharedStore::new([&Type::counter(5, &[1], Kind::Undo)?], 100)?;
    /// store.begin()?.commit()?;
    /// assert_eq!(store.stats().commits, 1);
    /// # Ok::<(), colock::Error>(())
    /// ```
    pub fn stats(&self) -> Stats {
        if self.may_enter().is_err() {
            return Stats::default();
        }
        let mut stats = self.lock().stats.clone();
        if let Some(remote) = self.remote() {
            stats.commits += remote.commits.load(Ordering::Relaxed);
        }
        stats
    }
}

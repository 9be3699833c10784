use crate::error::{Error, NotFollowed};
use crate::event::Event;
use crate::few::room_of;
use crate::limits::Limits;
use crate::memory::epoch::Epoch;
use crate::memory::handle::{done, Handle};
use crate::memory::transaction::{LeftOpen, Transaction};
use crate::object::{NewObject, Object, ObjectRef};
use crate::objects::{Known, Objects};
use crate::operation_id::OperationId;
use crate::types::calls::Calls;
use crate::types::Type;
use colock_sys as sys;
use std::cell::Cell;
use std::fmt;
use std::sync::atomic::{AtomicU64, Ordering};
use std::sync::Arc;

/// A store of objects. Where it is dropped, what is open aborts.
pub struct Store {
    handle: Handle,
    /// That of no other store, nor of this one in an earlier life: it is a mark of what is left open.
    mark: u64,
    /// How often it began anew while nobody was open.
    life: u64,
    epoch: Epoch,
    /// Whether it forgets its events where its history is full.
    forgets: Cell<bool>,
    /// Whether the library has said that some yes is one-way.
    is_one_way: Cell<bool>,
    /// Its limit of events.
    most_events: u64,
    /// Of each object.
    types: Vec<Type>,
    /// The same, with their names; a shared store has it too.
    objects: Arc<Objects>,
}

/// How many events there were, and how many of them were forgotten.
pub(crate) struct Counts {
    pub(crate) all: u64,
    pub(crate) forgotten: u64,
}

fn next_mark() -> u64 {
    static MARKS: AtomicU64 = AtomicU64::new(0);
    MARKS.fetch_add(1, Ordering::Relaxed)
}

impl Store {
    /// A store of these objects, each in the initial state of its type. Its history will have at most `max_events` events,
    /// those that were forgotten among them, until it begins anew ([`Store::forget_when_full`]); the other limits are
    /// [`Limits::STANDARD`].
    ///
    /// An object is given as its type, or as a pair of a name and its type ([`NewObject`]).
    ///
    /// ```
    /// use colock::{Error, Kind, Store, Type};
    ///
    /// let counter = Type::counter(5, &[1], Kind::Undo)?;
    /// let account = Type::account(5, &[1], Kind::Intentions)?;
    /// let store = Store::new([&counter, &account, &account], 1_000_000)?;
    /// assert_eq!(store.kept(2)?, 0);
    /// assert_eq!(Store::new([&counter], 1).err(), Some(Error::BadMax));
    ///
    /// let named = Store::new([("clicks", &counter), ("purse/7", &account)], 1_000_000)?;
    /// assert_eq!(named.kept("purse/7")?, 0);
    /// assert_eq!(named.kept("purse/8"), Err(Error::NoObjectNamed("purse/8".into())));
    /// # Ok::<(), Error>(())
    /// ```
    ///
    /// # Errors
    ///
    /// [`Error::BadName`], [`Error::NameTaken`], [`Error::NoObjects`], [`Error::TooManyObjects`], [`Error::BadMax`] or
    /// [`Error::NoMemory`].
    pub fn new<'t>(objects: impl IntoIterator<Item = impl Into<NewObject<'t>>>, max_events: u64) -> Result<Store, Error> {
        Store::with_limits(objects, Limits::of_events(max_events))
    }

    /// A store of these objects, with limits of its own.
    ///
    /// ```
    /// use colock::{Error, Kind, Limits, Store, Type};
    ///
    /// let counter = Type::counter(5, &[1], Kind::Undo)?;
    /// let store = Store::with_limits([&counter], Limits { open: 1, ..Limits::STANDARD })?;
    /// let transaction = store.begin()?;
    /// assert_eq!(store.begin().err(), Some(Error::TooManyOpen));
    /// transaction.commit()?;
    /// assert!(store.begin().is_ok());
    /// # Ok::<(), Error>(())
    /// ```
    ///
    /// # Errors
    ///
    /// As of [`Store::new`]; [`Error::BadMax`] where any limit is out of its range.
    pub fn with_limits<'t>(objects: impl IntoIterator<Item = impl Into<NewObject<'t>>>, limits: Limits) -> Result<Store, Error> {
        let first = Objects::none().checked(objects)?;
        let handle = begun(&first)?;
        // SAFETY: a handle as `Handle::at` says, as in all below.
        done(unsafe { sys::colock_store_open_with(handle.at(), limits.events, limits.open, limits.objects) })?;
        let types = first.iter().map(|known| known.of().clone()).collect();
        let most = usize::try_from(limits.objects).unwrap_or(usize::MAX);
        let (epoch, forgets, is_one_way, most_events) = (Epoch::default(), Cell::new(false), Cell::new(false), limits.events);
        let objects = Arc::new(Objects::of(first, most));
        Ok(Store { handle, mark: next_mark(), life: 0, epoch, forgets, is_one_way, most_events, types, objects })
    }

    #[inline]
    pub(crate) fn handle(&self) -> &Handle {
        &self.handle
    }

    pub(crate) fn mark(&self) -> u64 {
        self.mark
    }

    /// How often it began anew while nobody was open.
    #[inline]
    pub(crate) fn life(&self) -> u64 {
        self.life
    }

    #[inline]
    pub(crate) fn epoch(&self) -> &Epoch {
        &self.epoch
    }

    pub(crate) fn forgets(&self) -> &Cell<bool> {
        &self.forgets
    }

    pub(crate) fn is_one_way(&self) -> &Cell<bool> {
        &self.is_one_way
    }

    pub(crate) fn most_events(&self) -> u64 {
        self.most_events
    }

    /// The types of its objects, in the order of the objects.
    ///
    /// ```
    /// # use colock::{Kind, Store, Type};
    /// # let store = Store::new([&Type::counter(5, &[1], Kind::Undo)?], 100)?;
    /// assert_eq!(store.types()[0].name(), "counter");
    /// # Ok::<(), colock::Error>(())
    /// ```
    pub fn types(&self) -> &[Type] {
        &self.types
    }

    /// The type of an object.
    ///
    /// ```
    /// # use colock::{Error, Kind, Store, Type};
    /// # let store = Store::new([("clicks", &Type::counter(5, &[1], Kind::Undo)?)], 100)?;
    /// assert_eq!(store.type_of("clicks")?.name(), "counter");
    /// assert_eq!(store.type_of(1).err(), Some(Error::NoObject));
    /// # Ok::<(), Error>(())
    /// ```
    ///
    /// # Errors
    ///
    /// [`Error::NoObject`] or [`Error::NoObjectNamed`].
    pub fn type_of(&self, object: impl ObjectRef) -> Result<&Type, Error> {
        let object = self.number_of(object.as_object())?;
        self.objects.type_at(object).ok_or(Error::NoObject)
    }

    /// What is known of its objects.
    pub(crate) fn objects(&self) -> &Arc<Objects> {
        &self.objects
    }

    /// The calls of an object.
    #[inline]
    pub(crate) fn calls_at(&self, object: u32) -> Result<&Calls, Error> {
        let place = usize::try_from(object).unwrap_or(usize::MAX);
        self.types.get(place).map(Type::calls).ok_or(Error::NoObject)
    }

    /// The number of an object.
    #[inline]
    pub(crate) fn number_of(&self, object: Object<'_>) -> Result<u32, Error> {
        self.objects.number_of(object)
    }

    /// The number of the object of this name.
    ///
    /// ```
    /// # use colock::{Error, Kind, Store, Type};
    /// # let seat = Type::seats(1, Kind::Undo)?;
    /// let store = Store::new([("A12", &seat), ("A13", &seat)], 100)?;
    /// assert_eq!(store.find("A13"), Ok(1));
    /// assert_eq!(store.find("B1"), Err(Error::NoObjectNamed("B1".into())));
    /// # Ok::<(), Error>(())
    /// ```
    ///
    /// # Errors
    ///
    /// [`Error::NoObjectNamed`].
    pub fn find(&self, name: &str) -> Result<u32, Error> {
        self.number_of(Object::Name(name))
    }

    /// The name of an object, where it has one.
    ///
    /// ```
    /// # use colock::{Kind, Store, Type};
    /// # let seat = Type::seats(1, Kind::Undo)?;
    /// let store = Store::new([(Some("A12"), &seat), (None, &seat)], 100)?;
    /// assert_eq!((store.name_of(0), store.name_of(1), store.name_of(2)), (Some("A12"), None, None));
    /// # Ok::<(), colock::Error>(())
    /// ```
    pub fn name_of(&self, object: u32) -> Option<&str> {
        self.objects.name_at(object)
    }

    /// Begins a transaction, as worker 0.
    ///
    /// ```
    /// # use colock::{Kind, Store, Type};
    /// # let store = Store::new([&Type::counter(5, &[1], Kind::Undo)?], 100)?;
    /// let transaction = store.begin()?;
    /// assert_eq!(store.open_count(), 1);
    /// transaction.commit()?;
    /// # Ok::<(), colock::Error>(())
    /// ```
    ///
    /// # Errors
    ///
    /// [`Error::TooManyOpen`], [`Error::NoMemory`], or [`Error::HistoryFull`] where events are kept
    /// ([`Store::forget_when_full`]).
    pub fn begin(&self) -> Result<Transaction<'_>, Error> {
        self.begin_as(0)
    }

    /// Begins a transaction as a worker, which is a number that its events have.
    ///
    /// ```
    /// # use colock::{Kind, Store, Type};
    /// # let store = Store::new([&Type::counter(5, &[1], Kind::Undo)?], 100)?;
    /// store.begin_as(7)?.commit()?;
    /// assert_eq!(store.events(0)?[1].to_string(), "commit 7 0");
    /// # Ok::<(), colock::Error>(())
    /// ```
    ///
    /// # Errors
    ///
    /// As of [`Store::begin`].
    #[inline]
    pub fn begin_as(&self, worker: u8) -> Result<Transaction<'_>, Error> {
        let begun = Cell::new(0);
        // SAFETY: as in `new`; the cell is this call's own.
        done(self.in_room(|| unsafe { sys::colock_begin(self.handle.at(), worker, begun.as_ptr()) }))?;
        self.epoch.has_begun(begun.get());
        Ok(Transaction::of(self, worker, self.epoch.number(begun.get())))
    }

    /// Takes up a transaction of this store that was left open.
    ///
    /// ```
    /// # use colock::{Error, Kind, Store, Type};
    /// # let mut store = Store::new([&Type::counter(5, &[1], Kind::Undo)?], 100)?;
    /// let left = store.begin()?.leave();
    /// store.resume(left)?.commit()?;
    /// assert_eq!(store.resume(left)?.commit(), Err(Error::NotOpen));
    /// store.renew()?; // while nobody is open
    /// assert_eq!(store.resume(left).err(), Some(Error::NotOpen));
    /// # Ok::<(), Error>(())
    /// ```
    ///
    /// # Errors
    ///
    /// [`Error::NotOpen`] where it is another store's, or this one began anew since while nobody was open. Where it has ended,
    /// its calls say so.
    pub fn resume(&self, left: LeftOpen) -> Result<Transaction<'_>, Error> {
        if left.mark != self.mark {
            return Err(Error::NotOpen);
        }
        Ok(Transaction::of(self, left.worker, left.number))
    }

    /// The call of this name at an object, for [`Transaction::call_op`]: the first operation that has it, of `value` that of
    /// the value 0.
    ///
    /// ```
    /// # use colock::{Error, Kind, Store, Type};
    /// # let store = Store::new([&Type::counter(5, &[1], Kind::Undo)?], 100)?;
    /// assert_eq!(store.call_number(0, "dec:1")?, 1.into());
    /// assert_eq!(store.call_number(0, "dec:2"), Err(Error::NoCall));
    /// # Ok::<(), Error>(())
    /// ```
    ///
    /// # Errors
    ///
    /// [`Error::NoObject`], [`Error::NoObjectNamed`] or [`Error::NoCall`].
    pub fn call_number(&self, object: impl ObjectRef, name: &str) -> Result<OperationId, Error> {
        let (object, mut call) = (self.number_of(object.as_object())?, 0);
        // SAFETY: as in `new`; the name is one slice.
        done(unsafe { sys::colock_call_number(self.handle.at(), object, name.as_ptr(), name.len(), &mut call) })?;
        OperationId::try_from(call).map_err(|_| Error::Unknown(call))
    }

    /// The state that is kept of an object: of [`Kind::Undo`](crate::Kind::Undo) with what open transactions did, else
    /// without it.
    ///
    /// ```
    /// # use colock::{Error, Kind, Store, Type};
    /// # let store = Store::new([&Type::counter(5, &[1], Kind::Undo)?], 100)?;
    /// assert_eq!(store.kept(0)?, 0);
    /// assert_eq!(store.kept(1), Err(Error::NoObject));
    /// # Ok::<(), Error>(())
    /// ```
    ///
    /// # Errors
    ///
    /// [`Error::NoObject`] or [`Error::NoObjectNamed`].
    pub fn kept(&self, object: impl ObjectRef) -> Result<u64, Error> {
        let (object, mut state) = (self.number_of(object.as_object())?, 0);
        // SAFETY: as in `new`.
        done(unsafe { sys::colock_kept(self.handle.at(), object, &mut state) })?;
        Ok(state)
    }

    /// How many transactions are open.
    ///
    /// ```
    /// # use colock::{Kind, Store, Type};
    /// # let store = Store::new([&Type::counter(5, &[1], Kind::Undo)?], 100)?;
    /// let transaction = store.begin()?;
    /// assert_eq!(store.open_count(), 1);
    /// # drop(transaction);
    /// # Ok::<(), colock::Error>(())
    /// ```
    pub fn open_count(&self) -> u64 {
        let mut count = 0;
        // SAFETY: as in `new`. The handle holds a store, of which this is always known.
        unsafe { sys::colock_open_count(self.handle.at(), &mut count) };
        count
    }

    /// Aborts each transaction that was left open, in ascending order, as the worker that began it.
    ///
    /// ```
    /// # use colock::{Kind, Store, Type};
    /// # let mut store = Store::new([&Type::counter(5, &[1], Kind::Undo)?], 100)?;
    /// store.begin()?.leave();
    /// store.abort_all();
    /// assert_eq!(store.open_count(), 0);
    /// # Ok::<(), colock::Error>(())
    /// ```
    pub fn abort_all(&mut self) {
        // SAFETY: as in `new`. The handle holds a store, of which this is always done.
        unsafe { sys::colock_abort_all(self.handle.at()) };
    }

    /// The events from a place on, oldest first. Events count from 0.
    ///
    /// ```
    /// # use colock::{Event, Kind, Store, Type};
    /// # let store = Store::new([&Type::counter(5, &[1], Kind::Undo)?], 100)?;
    /// store.begin()?.commit()?;
    /// assert_eq!(store.events(1)?, [Event::Commit { worker: 0, transaction: 0 }]);
    /// # Ok::<(), colock::Error>(())
    /// ```
    ///
    /// # Errors
    ///
    /// [`Error::Forgotten`] where `from` is below [`Store::forgotten_count`].
    pub fn events(&self, from: u64) -> Result<Vec<Event>, Error> {
        let Counts { all, forgotten } = self.counts();
        if from < forgotten {
            return Err(Error::Forgotten);
        }
        let mut room = room_of(usize::try_from(all.saturating_sub(from)).map_err(|_| Error::NoMemory)?)?;
        let (in_library, mut copied) = (from - self.epoch.before().events, 0);
        // SAFETY: as in `new`; the room is one slice.
        done(unsafe { sys::colock_events(self.handle.at(), in_library, room.as_mut_ptr(), room.len(), &mut copied) })?;
        room.iter().map(|words| Event::of(words, |number| self.epoch.number(number)).map_err(Error::Unknown)).collect()
    }

    /// How many events there were, those that were forgotten among them.
    ///
    /// ```
    /// # use colock::{Kind, Store, Type};
    /// # let store = Store::new([&Type::counter(5, &[1], Kind::Undo)?], 100)?;
    /// store.begin()?.commit()?;
    /// assert_eq!(store.event_count(), 2);
    /// # Ok::<(), colock::Error>(())
    /// ```
    pub fn event_count(&self) -> u64 {
        self.counts().all
    }

    /// How many of the first events were forgotten.
    ///
    /// ```
    /// # use colock::{Error, Kind, Store, Type};
    /// # let store = Store::new([&Type::counter(5, &[1], Kind::Undo)?], 100)?;
    /// store.begin()?.commit()?;
    /// store.forget(1);
    /// assert_eq!(store.forgotten_count(), 1);
    /// assert_eq!(store.events(0), Err(Error::Forgotten));
    /// # Ok::<(), Error>(())
    /// ```
    pub fn forgotten_count(&self) -> u64 {
        self.counts().forgotten
    }

    fn counts(&self) -> Counts {
        let (Counts { all, forgotten }, before) = (self.counts_in_library(), self.epoch.before().events);
        Counts { all: all + before, forgotten: forgotten + before }
    }

    /// Forgets the first events, this many of those that are in memory, or all of them.
    ///
    /// A store whose events are all forgotten has no end: where its history would be full it begins anew by itself, as
    /// [`Store::forget_when_full`] says. It does so here too, where half of its room is used. So who forgets all events before
    /// the next half is used never meets [`Error::HistoryFull`], but where open transactions hold nearly all of the limit.
    ///
    /// ```
    /// # use colock::{Kind, Store, Type};
    /// # let store = Store::new([&Type::counter(5, &[1], Kind::Undo)?], 100)?;
    /// store.begin()?.commit()?;
    /// store.forget(u64::MAX);
    /// assert_eq!((store.event_count(), store.forgotten_count()), (2, 2));
    /// # Ok::<(), colock::Error>(())
    /// ```
    pub fn forget(&self, events: u64) {
        // SAFETY: as in `new`. The handle holds a store, of which this is always done.
        unsafe { sys::colock_forget(self.handle.at(), events) };
        self.make_room_early();
    }

    /// Makes events again, one after another, each as its worker: a store becomes what another was.
    ///
    /// ```
    /// # use colock::{Error, Kind, Store, Type};
    /// # let counter = Type::counter(5, &[1], Kind::Undo)?;
    /// # let store = Store::new([&counter], 100)?;
    /// let mut transaction = store.begin()?;
    /// let _reply = transaction.call(0, "inc:1")?;
    /// transaction.commit()?;
    /// let other = Store::new([&counter], 100)?;
    /// assert!(other.follow(&store.events(0)?).is_ok());
    /// assert_eq!(other.kept(0)?, 1);
    /// let again = other.follow(&store.events(0)?).unwrap_err(); // no second transaction 0
    /// assert_eq!((again.made, again.error), (0, Error::NotMade));
    /// # Ok::<(), Error>(())
    /// ```
    ///
    /// # Errors
    ///
    /// [`Error::NotMade`] or [`Error::NoMemory`], with how many were made.
    pub fn follow(&self, events: &[Event]) -> Result<(), NotFollowed> {
        let mut made = 0;
        loop {
            let rest = &events[made..];
            let told = self.followed(rest);
            let (count, is_made) = match &told {
                Ok(()) => (rest.len(), true),
                Err(refused) => (usize::try_from(refused.made).unwrap_or(rest.len()), false),
            };
            made += count;
            self.epoch.have_begun(rest[..count].iter().filter(|event| event.begun().is_some()).count() as u64);
            if is_made || !self.is_full() || self.made_room().is_err() {
                return told.map_err(|refused| NotFollowed { made: made as u64, ..refused });
            }
        }
    }

    /// The same, in the present epoch of the library.
    fn followed(&self, events: &[Event]) -> Result<(), NotFollowed> {
        let mut room = Vec::new();
        room.try_reserve_exact(events.len()).map_err(|_| NotFollowed { made: 0, error: Error::NoMemory })?;
        room.extend(events.iter().map(|event| event.words(|number| self.epoch.in_library(number))));
        let mut made = 0;
        // SAFETY: as in `new`; the events are one slice.
        let code = unsafe { sys::colock_follow(self.handle.at(), room.as_ptr(), room.len(), &mut made) };
        done(code).map_err(|error| NotFollowed { made, error })
    }

    /// A life has ended: nobody was open.
    pub(crate) fn has_begun_anew(&mut self) {
        self.mark = next_mark();
        self.life += 1;
        self.epoch.begins_anew();
    }

    /// Begins anew, as [`Store::renew`] while nobody is open, with more objects: they come after those that there are, each in the
    /// initial state of its type. It gives the number of the first of them. They are given as to [`Store::new`].
    ///
    /// ```
    /// # use colock::{Error, Kind, Store, Type};
    /// # let seat = Type::seats(1, Kind::Undo)?;
    /// let mut store = Store::new([("A12", &seat)], 100)?;
    /// let mut transaction = store.begin()?;
    /// transaction.expect("A12", "hold:1", "ok")?;
    /// transaction.commit()?;
    /// assert_eq!(store.extend([("A13", &seat), ("A14", &seat)])?, 1);
    /// assert_eq!((store.kept("A12")?, store.kept("A14")?, store.event_count()), (1, 0, 0));
    /// assert_eq!(store.extend([("A13", &seat)]), Err(Error::NameTaken("A13".into())));
    /// # Ok::<(), Error>(())
    /// ```
    ///
    /// # Errors
    ///
    /// [`Error::BadName`], [`Error::NameTaken`], [`Error::StillOpen`] where a transaction was left open,
    /// [`Error::TooManyObjects`] or [`Error::NoMemory`].
    pub fn extend<'t>(&mut self, objects: impl IntoIterator<Item = impl Into<NewObject<'t>>>) -> Result<u32, Error> {
        let added = self.objects.checked(objects)?;
        let handle = begun(&added)?;
        let first = u32::try_from(self.types.len()).map_err(|_| Error::TooManyObjects)?;
        // SAFETY: handles as `Handle::at` says, which are two.
        done(unsafe { sys::colock_store_extend(self.handle.at(), handle.at()) })?;
        self.types.extend(added.iter().map(|known| known.of().clone()));
        self.objects.add(first, added);
        self.has_begun_anew();
        Ok(first)
    }
}

/// The beginning of a store of these objects.
fn begun(objects: &[Known]) -> Result<Handle, Error> {
    // SAFETY: `made` gives a handle of its own.
    let handle = Handle::made(|handle| unsafe { sys::colock_store_new(handle) }).map_err(|(code, _)| Error::of_code(code))?;
    for known in objects {
        // SAFETY: handles as `Handle::at` says, which are two.
        done(unsafe { sys::colock_store_add(handle.at(), known.of().handle().at()) })?;
    }
    Ok(handle)
}

impl fmt::Debug for Store {
    fn fmt(&self, f: &mut fmt::Formatter<'_>) -> fmt::Result {
        f.debug_struct("Store").field("events", &self.event_count()).field("open", &self.open_count()).finish_non_exhaustive()
    }
}

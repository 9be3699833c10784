//! How a store in memory begins anew: by itself, or because it was told to.

use crate::error::Error;
use crate::event::Event;
use crate::memory::epoch::{Before, Carried};
use crate::memory::handle::done;
use crate::memory::store::{Counts, Store};
use colock_sys as sys;

/// No call of a type has this number.
const NO_CALL: u64 = u64::MAX;

impl Store {
    /// Where its history is full, it is to forget all events and to go on, by itself. Else it does so only where they were forgotten
    /// before: who keeps a history doesn't lose it.
    ///
    /// What is open goes on, and nothing tells that the store began anew: neither numbers of transactions and of events, nor
    /// moments. Where a yes of the checker is one-way, it goes on only while no transaction is open.
    ///
    /// ```
    /// use colock::{Error, Kind, Store, Type};
    ///
    /// let store = Store::new([("sold", &Type::counter(1_000, &[1], Kind::Undo)?)], 40)?;
    /// store.forget_when_full();
    /// let mut long = store.begin()?;
    /// long.expect("sold", "inc:1", "ok")?;
    /// for _ in 0..500 {
    ///     let _done = store.attempt([("sold", "inc:1")])?.executed()?;
    /// }
    /// long.commit()?;
    /// assert_eq!((store.kept("sold")?, store.event_count(), store.moment().commits), (501, 1_503, 501));
    /// assert_eq!(store.events(0), Err(Error::Forgotten));
    /// # Ok::<(), Error>(())
    /// ```
    pub fn forget_when_full(&self) {
        self.forgets().set(true);
    }

    /// The events that weren't forgotten, oldest first, which are forgotten now: what is read so is read once. So a store that is asked now
    /// and then, before half of its limit was used, has no end, and no event of it is lost.
    ///
    /// ```
    /// # use colock::{Event, Kind, Store, Type};
    /// let store = Store::new([&Type::counter(1_000, &[1], Kind::Undo)?], 40)?;
    /// let mut read = 0;
    /// for _ in 0..500 {
    ///     let _done = store.attempt([(0, "inc:1")])?.executed()?;
    ///     read += store.take_events()?.len();
    /// }
    /// assert_eq!((read, store.event_count(), store.forgotten_count()), (1_500, 1_500, 1_500));
    /// # Ok::<(), colock::Error>(())
    /// ```
    ///
    /// # Errors
    ///
    /// [`Error::NoMemory`]: nothing is forgotten.
    pub fn take_events(&self) -> Result<Vec<Event>, Error> {
        let events = self.events(self.forgotten_count())?;
        self.forget(u64::MAX);
        Ok(events)
    }

    /// Begins anew, at the states that are kept.
    ///
    /// Where no transaction is open, it has no event then, and transactions and events count from 0 again. Where some are open, and
    /// each yes of the checker is strong, all of them go on, with their numbers, and only the events are forgotten: others
    /// count on, so that nothing else can be told.
    ///
    /// ```
    /// # use colock::{Error, Kind, Store, Type};
    /// # let mut store = Store::new([&Type::counter(5, &[1], Kind::Undo)?], 100)?;
    /// let mut transaction = store.begin()?;
    /// transaction.expect(0, "inc:1", "ok")?;
    /// let left = transaction.leave();
    /// store.renew()?;
    /// assert_eq!((store.event_count(), store.forgotten_count(), store.open_count()), (2, 2, 1));
    /// store.resume(left)?.commit()?;
    /// store.renew()?;
    /// assert_eq!((store.kept(0)?, store.event_count()), (1, 0));
    /// # Ok::<(), Error>(())
    /// ```
    ///
    /// # Errors
    ///
    /// [`Error::StillOpen`] where a transaction was left open and some yes is one-way, or [`Error::NoMemory`]: it is as it was.
    pub fn renew(&mut self) -> Result<(), Error> {
        self.renewed().map(drop)
    }

    /// The same. It says whether a life has ended: nobody was open.
    pub(crate) fn renewed(&mut self) -> Result<bool, Error> {
        if self.open_count() != 0 {
            return self.go_over().map(|()| false);
        }
        // SAFETY: a handle as `Handle::at` says, as in all below.
        done(unsafe { sys::colock_renew(self.handle().at()) })?;
        self.has_begun_anew();
        Ok(true)
    }

    /// What the library says of something that needs room in its history. Where that is full it is asked again, if the store
    /// could begin anew: once, since it doesn't do so twice without an event in between.
    #[inline(always)]
    pub(crate) fn in_room(&self, ask: impl Fn() -> u32) -> u32 {
        // a loop, and no second call, so that what asks is inlined
        loop {
            match ask() {
                sys::code::HISTORY_FULL => match self.made_room() {
                    Ok(()) => {}
                    Err(code) => return code,
                },
                code => return code,
            }
        }
    }

    /// Begins anew where the history is full, or says by which code it can't.
    #[cold]
    pub(crate) fn made_room(&self) -> Result<(), u32> {
        let counts = self.counts_in_library();
        let is_kept = counts.forgotten != counts.all && !self.forgets().get();
        // nothing has changed since the last time
        if is_kept || counts.all == self.epoch().carried_events() {
            return Err(sys::code::HISTORY_FULL);
        }
        self.go_over().map_err(|error| match error {
            Error::NoMemory => sys::code::NO_MEMORY,
            _ => sys::code::HISTORY_FULL,
        })
    }

    /// Begins anew before the history is full, where all events were forgotten and half of its room was used since the last time: so
    /// who forgets all of them now and then never finds it full.
    pub(crate) fn make_room_early(&self) {
        let (counts, carried) = (self.counts_in_library(), self.epoch().carried_events());
        let is_half_full = 2 * (counts.all - carried) >= self.most_events() - carried;
        if is_half_full && counts.forgotten == counts.all {
            // it goes on as it is where it can't
            let _ = self.go_over();
        }
    }

    /// Begins another epoch of the library, in which all that is open goes on. All events are forgotten.
    fn go_over(&self) -> Result<(), Error> {
        // it isn't looked for who is open where that is of no use
        if self.is_one_way().get() && self.open_count() != 0 {
            return Err(Error::StillOpen);
        }
        let (numbers, events, commits) = (self.open_numbers()?, self.event_count(), self.moment().commits);
        // SAFETY: as above.
        done(unsafe { sys::colock_renew(self.handle().at()) }).inspect_err(|error| self.is_one_way().set(*error == Error::StillOpen))?;
        // what is carried happened before
        let carried = Carried { numbers, events: self.counts_in_library().all };
        // SAFETY: as above. It is always done.
        unsafe { sys::colock_forget(self.handle().at(), u64::MAX) };
        self.epoch().goes_over(carried, Before { events, commits });
        Ok(())
    }

    /// The numbers of all transactions that are open, ascending.
    pub(crate) fn open_numbers(&self) -> Result<Vec<u64>, Error> {
        let (epoch, count) = (self.epoch(), usize::try_from(self.open_count()).map_err(|_| Error::NoMemory)?);
        let mut numbers: Vec<u64> = Vec::new();
        numbers.try_reserve_exact(count).map_err(|_| Error::NoMemory)?;
        let is_open = |number: &u64| self.is_open_in_library(*number);
        numbers.extend(epoch.carried().filter(is_open).map(|number| epoch.number(number)));
        // most that are open began lately, and as soon as all are found nobody else is looked at
        let old = numbers.len();
        numbers.extend(epoch.begun().rev().filter(is_open).take(count - old).map(|number| epoch.number(number)));
        numbers[old..].reverse();
        Ok(numbers)
    }

    /// Whether a transaction is open.
    pub(crate) fn is_open(&self, number: u64) -> bool {
        self.is_open_in_library(self.epoch().in_library(number))
    }

    fn is_open_in_library(&self, number: u64) -> bool {
        let mut answer = sys::Answer::default();
        // SAFETY: as above; the answer is its own. The transaction is looked at before the call, which is none.
        let code = unsafe { sys::colock_would_op(self.handle().at(), number, 0, NO_CALL, &mut answer) };
        code == sys::code::NO_CALL
    }

    /// Whether its history has no room for every next event: a begin needs two, its end among them.
    pub(crate) fn is_full(&self) -> bool {
        self.counts_in_library().all + self.open_count() + 2 > self.most_events()
    }

    /// How many events the library has counted in its epoch, and how many of them it has forgotten.
    pub(crate) fn counts_in_library(&self) -> Counts {
        let mut counts = Counts { all: 0, forgotten: 0 };
        // SAFETY: as above. The handle holds a store, of which this is always known.
        unsafe { sys::colock_event_count(self.handle().at(), &mut counts.all, &mut counts.forgotten) };
        counts
    }
}

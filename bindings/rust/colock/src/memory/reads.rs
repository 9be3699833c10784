//! What is read of a store in memory without a transaction: what is committed.

use crate::asked::Asked;
use crate::error::Error;
use crate::few::room_of;
use crate::memory::handle::done;
use crate::memory::store::Store;
use crate::memory::transaction::answered;
use crate::moment::{Moment, Seen};
use crate::object::ObjectRef;
use crate::reply::{Operation, Outcome};
use colock_sys as sys;
use std::cell::Cell;

impl Store {
    /// The present moment: how many transactions have committed since the store began, or began anew while nobody was open.
    ///
    /// ```
    /// # use colock::{Kind, Moment, Store, Type};
    /// # let mut store = Store::new([&Type::counter(5, &[1], Kind::Undo)?], 100)?;
    /// store.begin()?.commit()?;
    /// assert_eq!(store.moment(), Moment::new(0, 1));
    /// store.renew()?;
    /// assert_eq!(store.moment(), Moment::new(1, 0));
    /// # Ok::<(), colock::Error>(())
    /// ```
    pub fn moment(&self) -> Moment {
        let mut commits = 0;
        // SAFETY: a handle as `Handle::at` says, as in all below. It holds a store, of which this is always known.
        unsafe { sys::colock_commit_count(self.handle().at(), &mut commits) };
        self.moment_of(commits)
    }

    /// The moment at which so many transactions have committed in the present epoch of the library.
    fn moment_of(&self, commits: u64) -> Moment {
        Moment::new(self.life(), self.epoch().before().commits + commits)
    }

    /// What calls would be answered to a transaction that only reads what is committed, all of them at one moment. A call is
    /// a pair of an object and a name. It holds nothing and is no event, and nobody is in its way.
    ///
    /// ```
    /// use colock::{Error, Kind, Store, Type};
    ///
    /// let seats = Type::seats(2, Kind::Undo)?;
    /// let store = Store::new([("row/A", &seats), ("row/B", &seats)], 100)?;
    /// let mut transaction = store.begin()?;
    /// transaction.expect("row/A", "hold:1", "ok")?;
    /// let free = |store: &Store| Ok::<_, Error>(store.peek([("row/A", "free"), ("row/B", "free")])?.value[0].reply);
    /// assert_eq!(free(&store)?, "2"); // the hold isn't committed
    /// transaction.commit()?;
    /// assert_eq!(free(&store)?, "1");
    /// assert_eq!(store.peek([("row/A", "hold:2")]), Err(Error::Changes));
    /// # Ok::<(), Error>(())
    /// ```
    ///
    /// # Errors
    ///
    /// Those of the first call that isn't answered: [`Error::Changes`] where an operation of it may change something,
    /// [`Error::IllegalAt`] where none of it is legal, [`Error::NoObject`], [`Error::NoObjectNamed`] or [`Error::NoCall`].
    pub fn peek(&self, calls: impl IntoIterator<Item = (impl ObjectRef, impl AsRef<str>)>) -> Result<Seen<Vec<Operation>>, Error> {
        let asked = Asked::of(calls, |object| self.number_of(object)).map_err(|unasked| unasked.error)?;
        let seen = self.peek_in_numbers(&asked)?;
        let operations = asked.in_words(&seen.value, self.objects())?;
        Ok(seen.with(operations))
    }

    /// The operations as the library has them.
    pub(crate) fn peek_in_numbers(&self, asked: &Asked) -> Result<Seen<Vec<u64>>, Error> {
        let operations = asked.calls().enumerate().map(|(at, (object, name))| match self.peeked(object, name)? {
            Outcome::Operation(id) => Ok(id.into()),
            Outcome::Busy { .. } | Outcome::Illegal => Err(Error::IllegalAt(at)),
        });
        let operations = operations.collect::<Result<Vec<u64>, Error>>()?;
        // nothing is committed meanwhile, since a store isn't shared between threads
        Ok(Seen { at: self.moment(), value: operations })
    }

    fn peeked(&self, object: u32, name: &str) -> Result<Outcome, Error> {
        let commits = Cell::new(0);
        // SAFETY: `answered` gives an answer of its own; the name is one slice.
        answered(self, |answer| unsafe { sys::colock_peek(self.handle().at(), object, name.as_ptr(), name.len(), answer, commits.as_ptr()) })
    }

    /// The committed states of objects, all of them at one moment. The numbers are those of the type's states. Of
    /// [`Kind::Intentions`](crate::Kind::Intentions) it may be another state than the one that is [`kept`](Store::kept), which
    /// allows the same.
    ///
    /// ```
    /// # use colock::{Kind, Moment, Seen, Store, Type};
    /// # let store = Store::new([&Type::counter(5, &[1], Kind::Undo)?], 100)?;
    /// let mut transaction = store.begin()?;
    /// transaction.expect(0, "inc:1", "ok")?;
    /// assert_eq!((store.kept(0)?, store.committed_states([0])?.value), (1, vec![0]));
    /// transaction.commit()?;
    /// assert_eq!(store.committed_states([0])?, Seen { at: Moment::new(0, 1), value: vec![1] });
    /// # Ok::<(), colock::Error>(())
    /// ```
    ///
    /// # Errors
    ///
    /// [`Error::NoObject`] or [`Error::NoObjectNamed`].
    pub fn committed_states(&self, objects: impl IntoIterator<Item = impl ObjectRef>) -> Result<Seen<Vec<u64>>, Error> {
        let states = objects.into_iter().map(|object| self.committed_state(self.number_of(object.as_object())?));
        let states = states.collect::<Result<Vec<u64>, Error>>()?;
        Ok(Seen { at: self.moment(), value: states })
    }

    pub(crate) fn committed_state(&self, object: u32) -> Result<u64, Error> {
        let (mut state, mut commits) = (0, 0);
        // SAFETY: as in `moment`.
        done(unsafe { sys::colock_committed(self.handle().at(), object, &mut state, &mut commits) })?;
        Ok(state)
    }

    /// The committed states of all objects, in their order, at one moment.
    ///
    /// ```
    /// # use colock::{Kind, Moment, Seen, Store, Type};
    /// # let counter = Type::counter(5, &[1], Kind::Undo)?;
    /// let store = Store::new([&counter, &counter], 100)?;
    /// let _done = store.attempt([(1, "inc:1")])?.executed()?;
    /// assert_eq!(store.snapshot()?, Seen { at: Moment::new(0, 1), value: vec![0, 1] });
    /// # Ok::<(), colock::Error>(())
    /// ```
    ///
    /// # Errors
    ///
    /// [`Error::NoMemory`].
    pub fn snapshot(&self) -> Result<Seen<Vec<u64>>, Error> {
        let (mut states, mut commits) = (room_of(self.types().len())?, 0);
        // SAFETY: as in `moment`; the states are one slice.
        done(unsafe { sys::colock_snapshot(self.handle().at(), states.as_mut_ptr(), states.len(), &mut commits) })?;
        Ok(Seen { at: self.moment_of(commits), value: states })
    }
}

//! What is read of a shared store without a transaction: what is committed. Nobody waits for that, nor is waited for.

use crate::asked::Asked;
use crate::error::Error;
use crate::moment::{Moment, Seen};
use crate::object::ObjectRef;
use crate::reply::Operation;
use crate::shared::SharedStore;

impl SharedStore {
    /// The present moment: how many transactions have committed in the present epoch. Over a child these are durable.
    ///
    /// ```
    /// # use colock::{Kind, Moment, SharedStore, Type};
    /// # let store = SharedStore::new([&Type::counter(5, &[1], Kind::Undo)?], 100)?;
    /// store.begin()?.commit()?;
    /// assert_eq!(store.moment()?, Moment::new(0, 1));
    /// store.renew()?;
    /// assert_eq!(store.moment()?, Moment::new(1, 0));
    /// # Ok::<(), colock::Error>(())
    /// ```
    ///
    /// # Errors
    ///
    /// Over a child [`Error::ConnectionLost`].
    pub fn moment(&self) -> Result<Moment, Error> {
        match self.remote() {
            None => Ok(self.enter()?.memory()?.moment()),
            Some(remote) => self.moment_over_child(remote),
        }
    }

    /// What calls would be answered to a transaction that only reads what is committed, all of them at one moment. A call is
    /// a pair of an object and a name. It holds nothing and is no event, and nobody is in its way. Over a child what it sees is
    /// durable.
    ///
    /// ```
    /// use colock::{Error, Kind, SharedStore, Type};
    ///
    /// let seats = Type::seats(2, Kind::Undo)?;
    /// let store = SharedStore::new([("row/A", &seats), ("row/B", &seats)], 100)?;
    /// let mut transaction = store.begin()?;
    /// transaction.expect("row/A", "hold:1", "ok")?;
    /// let before = store.peek([("row/A", "free"), ("row/B", "free")])?;
    /// assert_eq!(before.value[0].reply, "2"); // the hold isn't committed
    /// transaction.commit()?;
    /// let after = store.peek([("row/A", "free")])?;
    /// assert!(after.at > before.at && after.value[0].reply == "1");
    /// assert_eq!(store.peek([("row/A", "hold:2")]), Err(Error::Changes));
    /// # Ok::<(), Error>(())
    /// ```
    ///
    /// # Errors
    ///
    /// As of [`Store::peek`](crate::Store::peek). Over a child [`Error::ConnectionLost`], and of more than 64 calls
    /// [`Error::NoMoment`].
    pub fn peek(&self, calls: impl IntoIterator<Item = (impl ObjectRef, impl AsRef<str>)>) -> Result<Seen<Vec<Operation>>, Error> {
        let asked = Asked::of(calls, |object| self.number_of(object)).map_err(|unasked| unasked.error)?;
        let seen = match self.remote() {
            None => self.enter()?.memory()?.peek_in_numbers(&asked)?,
            Some(remote) => self.peek_over_child(remote, &asked)?,
        };
        let operations = asked.in_words(&seen.value, self.objects())?;
        Ok(seen.with(operations))
    }

    /// The committed states of objects, all of them at one moment. The numbers are those of the type's states. Of
    /// [`Kind::Intentions`](crate::Kind::Intentions) it may be another state than the one that is [`kept`](SharedStore::kept), which
    /// allows the same. Over a child they are durable.
    ///
    /// ```
    /// # use colock::{Kind, Moment, Seen, SharedStore, Type};
    /// # let store = SharedStore::new([&Type::counter(5, &[1], Kind::Undo)?], 100)?;
    /// let mut transaction = store.begin()?;
    /// transaction.expect(0, "inc:1", "ok")?;
    /// assert_eq!((store.kept(0)?, store.committed_states([0])?.value), (1, vec![0]));
    /// transaction.commit()?;
    /// assert_eq!(store.committed_states([0])?, Seen { at: Moment::new(0, 1), value: vec![1] });
    /// # Ok::<(), colock::Error>(())
    /// ```
    ///
    /// # Errors
    ///
    /// [`Error::NoObject`] or [`Error::NoObjectNamed`]. Over a child [`Error::ConnectionLost`], and of more than 64 objects
    /// [`Error::NoMoment`].
    pub fn committed_states(&self, objects: impl IntoIterator<Item = impl ObjectRef>) -> Result<Seen<Vec<u64>>, Error> {
        // before the lock is taken, which what gives them may ask for
        let objects = objects.into_iter().map(|object| self.number_of(object.as_object())).collect::<Result<Vec<u32>, Error>>()?;
        match self.remote() {
            None => self.enter()?.memory()?.committed_states(objects),
            Some(remote) => self.states_over_child(remote, &objects),
        }
    }

    /// The committed states of all objects, in their order, at one moment. Over a child they are durable.
    ///
    /// ```
    /// # use colock::{Kind, Moment, Seen, SharedStore, Type};
    /// # let counter = Type::counter(5, &[1], Kind::Undo)?;
    /// let store = SharedStore::new([&counter, &counter], 100)?;
    /// store.transact(|turn| turn.expect(1, "inc:1", "ok"))?;
    /// assert_eq!(store.snapshot()?, Seen { at: Moment::new(0, 1), value: vec![0, 1] });
    /// # Ok::<(), colock::Error>(())
    /// ```
    ///
    /// # Errors
    ///
    /// [`Error::NoMemory`]. Over a child [`Error::ConnectionLost`], and of more than 64 objects [`Error::NoMoment`].
    pub fn snapshot(&self) -> Result<Seen<Vec<u64>>, Error> {
        match self.remote() {
            None => self.enter()?.memory()?.snapshot(),
            Some(remote) => {
                let objects: Vec<u32> = (0..).take(self.objects().len()).collect();
                self.states_over_child(remote, &objects)
            }
        }
    }
}

//! Transactions of a shared store that are prepared, and how they are decided.

use crate::error::Error;
use crate::key::Key;
use crate::memory::keys::Preparation;
use crate::prepared::{Decision, Prepared};
use crate::shared::commits::{abort_in_memory, commit_in_memory};
use crate::shared::state::{Held, State};
use crate::shared::transaction::SharedTransaction;
use crate::shared::SharedStore;
use crate::transaction_id::TransactionId;

impl SharedTransaction<'_> {
    /// Prepares it under a key: from now on nothing but [`SharedStore::decide`] under the key ends it, and it holds its operations until
    /// then. A drop doesn't abort it. In a file neither a lost child does, nor a restart; in memory it is lost with the store. Over a
    /// child it is durable when this is `Ok`. A second time under the same key is `Ok` too.
    ///
    /// A key is as of [`SharedTransaction::commit_under`]. `until` is a number that the store keeps and doesn't look at: by when it is to
    /// be decided, in seconds since 1970, for whoever decides then.
    ///
    /// ```
    /// use colock::{Decision, Error, Kind, SharedStore, Type};
    ///
    /// let store = SharedStore::new([("seats", &Type::counter(9, &[1, 2], Kind::Escrow)?)], 1_000)?;
    /// let mut transaction = store.begin()?;
    /// transaction.expect("seats", "inc:2", "ok")?;
    /// transaction.prepare("order:4711", 1_800_000_000)?;
    /// assert_eq!(transaction.expect("seats", "inc:1", "ok"), Err(Error::Prepared));
    /// assert_eq!(transaction.commit(), Err(Error::Prepared)); // nor does the drop that comes with this end it
    /// assert_eq!((store.open_count()?, store.kept("seats")?), (1, 0));
    /// store.decide("order:4711", Decision::Commit)?;
    /// assert_eq!((store.open_count()?, store.kept("seats")?), (0, 2));
    /// # Ok::<(), Error>(())
    /// ```
    ///
    /// # Errors
    ///
    /// [`Error::BadKey`], by which nothing is asked. [`Error::Prepared`] where it is prepared under another key. [`Error::NotOpen`] where it
    /// was aborted before, or is decided. [`Error::KeyPrepared`], [`Error::KeyCommitted`], [`Error::KeyAborted`] or [`Error::KeyTaken`]: the
    /// transaction stays open. Over a child as of [`SharedStore::begin`], [`Error::EpochEnded`] and [`Error::ConnectionLost`] too; and
    /// [`Error::PrepareUnknown`] where the child was lost before it answered.
    pub fn prepare(&mut self, key: impl AsRef<str>, until: u32) -> Result<(), Error> {
        let key = Key::of(key.as_ref())?;
        match self.is_open() {
            Err(Error::Prepared) if self.prepared_under.as_deref() == Some(key.as_str()) => return Ok(()),
            told => told?,
        }
        let preparation = Preparation { ticket: self.ticket()?, until, objects: self.holds.objects() };
        self.store.prepare(key, preparation)?;
        self.prepared_under = Some(Box::from(key.as_str()));
        Ok(())
    }
}

impl SharedStore {
    fn prepare(&self, key: Key<'_>, preparation: Preparation) -> Result<(), Error> {
        let mut guard = self.enter()?;
        match self.remote() {
            None => guard.prepare_in_memory(key, preparation),
            Some(_) => self.prepare_by_child(guard, key, &preparation),
        }
    }

    /// Why a transaction that was prepared under a key does nothing.
    #[cold]
    pub(crate) fn not_undecided(&self, key: &str, id: TransactionId) -> Error {
        match self.enter() {
            Ok(guard) if guard.is_prepared(key, id) => Error::Prepared,
            Ok(_) => Error::NotOpen,
            Err(error) => error,
        }
    }

    /// Decides how the transaction that is prepared under a key ends, of whatever life or epoch. Asked again it is `Ok` again: so whoever
    /// lost the answer, as by [`Error::ConnectionLost`], decides the same with the file open again. In a file it is durable when this is
    /// `Ok`.
    ///
    /// By [`Decision::Abort`] of a key that nobody has it is kept that it is aborted: nothing is prepared or done under it later, by
    /// whoever was on the way. All of that holds as long as the [outcome](SharedStore::outcome) stays: later nobody has the key.
    ///
    /// ```
    /// use colock::{Decision, Error, KeyOutcome, Kind, SharedStore, Type};
    ///
    /// let store = SharedStore::new([&Type::counter(5, &[1], Kind::Undo)?], 100)?;
    /// assert_eq!(store.decide("order:1", Decision::Commit), Err(Error::KeyUnknown));
    /// let mut transaction = store.begin()?;
    /// transaction.expect(0, "inc:1", "ok")?;
    /// transaction.prepare("order:1", 0)?;
    /// assert_eq!(store.outcome("order:1")?, KeyOutcome::Prepared);
    /// store.decide("order:1", Decision::Abort)?;
    /// assert_eq!((store.outcome("order:1")?, store.kept(0)?), (KeyOutcome::Aborted, 0));
    /// assert_eq!(store.decide("order:1", Decision::Commit), Err(Error::Decided));
    /// # Ok::<(), Error>(())
    /// ```
    ///
    /// # Errors
    ///
    /// [`Error::BadKey`], by which nothing is asked. [`Error::Decided`] where the key's transaction ended otherwise; [`Error::KeyUnknown`]
    /// where nobody has the key that is to commit; [`Error::KeyTaken`]. Over a child [`Error::ConnectionLost`]: it is decided or not.
    pub fn decide(&self, key: impl AsRef<str>, decision: Decision) -> Result<(), Error> {
        let key = Key::of(key.as_ref())?;
        let mut guard = self.enter()?;
        match self.remote() {
            None => guard.decide_in_memory(key, decision),
            Some(remote) => self.decide_by_child(remote, guard, key, decision),
        }
    }

    /// The transactions that are prepared and not decided, of whatever life or epoch, in the order in which they were prepared. In a
    /// file what it says is durable.
    ///
    /// ```
    /// # use colock::{Kind, SharedStore, Type};
    /// # let store = SharedStore::new([("A12", &Type::seats(1, Kind::Undo)?)], 100)?;
    /// let mut transaction = store.begin()?;
    /// transaction.expect("A12", "hold:1", "ok")?;
    /// transaction.prepare("order:1", 1_800_000_000)?;
    /// let prepared = store.prepared()?;
    /// assert_eq!((prepared[0].key.as_str(), prepared[0].until), ("order:1", 1_800_000_000));
    /// assert_eq!((Some(prepared[0].id), store.name_of(prepared[0].objects[0])), (transaction.id(), Some("A12")));
    /// # Ok::<(), colock::Error>(())
    /// ```
    ///
    /// # Errors
    ///
    /// Over a child [`Error::ConnectionLost`].
    pub fn prepared(&self) -> Result<Vec<Prepared>, Error> {
        match self.remote() {
            None => Ok(self.enter()?.keys.prepared()),
            Some(remote) => self.prepared_over_child(remote),
        }
    }
}

impl State {
    /// Whether a transaction of this client is prepared under a key, and isn't decided as far as is known.
    fn is_prepared(&self, key: &str, id: TransactionId) -> bool {
        match &self.held {
            Held::Memory(_) => self.keys.is_prepared(key, id),
            Held::Remote(remote_state) => remote_state.prepared.under(key) == Some(id),
        }
    }

    fn prepare_in_memory(&mut self, key: Key<'_>, preparation: Preparation) -> Result<(), Error> {
        let is_open = self.is_open(preparation.ticket.id);
        self.keys.prepare(key, preparation, is_open)
    }

    fn decide_in_memory(&mut self, key: Key<'_>, decision: Decision) -> Result<(), Error> {
        if let Some(ticket) = self.keys.undecided(key, decision)? {
            match decision {
                Decision::Commit => commit_in_memory(self, ticket)?,
                Decision::Abort => abort_in_memory(self, ticket)?,
            }
        }
        self.keys.decide(key, decision);
        Ok(())
    }
}

use std::fmt;

/// A moment of a store: how many transactions had committed. Moments of one store are ordered as they came.
///
/// A client that has committed and then asked for the [`moment`](crate::SharedStore::moment) knows that a read at that one,
/// or at a later one, has its commit. It is displayed as `S.C`.
///
/// ```
/// use colock::{Kind, SharedStore, Type};
///
/// let store = SharedStore::new([&Type::counter(5, &[1], Kind::Undo)?], 100)?;
/// let before = store.moment()?;
/// store.transact(|turn| turn.expect(0, "inc:1", "ok"))?;
/// assert!(store.moment()? > before);
/// assert_eq!(store.moment()?.to_string(), "0.1");
/// # Ok::<(), colock::Error>(())
/// ```
#[derive(Clone, Copy, Debug, PartialEq, Eq, PartialOrd, Ord, Hash)]
pub struct Moment {
    /// In memory how often the store began anew; in a file its life, as in a [`TransactionId`](crate::TransactionId).
    pub epoch: u64,
    /// How many transactions had committed in that epoch.
    pub commits: u64,
}

impl Moment {
    /// That of an epoch and of commits in it.
    pub const fn new(epoch: u64, commits: u64) -> Moment {
        Moment { epoch, commits }
    }
}

impl fmt::Display for Moment {
    fn fmt(&self, f: &mut fmt::Formatter<'_>) -> fmt::Result {
        write!(f, "{}.{}", self.epoch, self.commits)
    }
}

/// What was read, all of it at one moment.
///
/// ```
/// use colock::{Kind, Moment, Seen, SharedStore, Type};
///
/// let store = SharedStore::new([&Type::counter(5, &[1], Kind::Undo)?], 100)?;
/// store.transact(|turn| turn.expect(0, "inc:1", "ok"))?;
/// assert_eq!(store.snapshot()?, Seen { at: Moment::new(0, 1), value: vec![1] });
/// # Ok::<(), colock::Error>(())
/// ```
#[derive(Clone, Copy, Debug, PartialEq, Eq, Hash)]
// it may be built by its fields, so it isn't `non_exhaustive`
pub struct Seen<T> {
    /// The moment.
    pub at: Moment,
    /// What was there.
    pub value: T,
}

impl<T> Seen<T> {
    /// Something else that was read at the same moment.
    pub(crate) fn with<U>(self, value: U) -> Seen<U> {
        Seen { at: self.at, value }
    }
}

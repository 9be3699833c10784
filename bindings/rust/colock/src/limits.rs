/// How many events, open transactions and objects a store in memory may have, and how many outcomes of keys it keeps.
///
/// ```
/// use colock::{Kind, Limits, Store, Type};
///
/// let counter = Type::counter(5, &[1], Kind::Undo)?;
/// let counters = std::iter::repeat_n(&counter, 10_000);
/// let store = Store::with_limits(counters, Limits { objects: 10_000, ..Limits::STANDARD })?;
/// assert_eq!(store.kept(9_999)?, 0);
/// # Ok::<(), colock::Error>(())
/// ```
#[derive(Clone, Copy, Debug, PartialEq, Eq, Hash)]
// it may be built by its fields, so it isn't `non_exhaustive`
pub struct Limits {
    /// The events of its history, 2 to 4,294,967,295, those that were forgotten among them: then it is full, or begins anew
    /// ([`Store::forget_when_full`](crate::Store::forget_when_full)).
    pub events: u64,
    /// The transactions that are open at once, 1 to 65,536.
    pub open: u32,
    /// Its objects, 1 to 65,536.
    pub objects: u32,
    /// How many of the last outcomes of keys a [`SharedStore`](crate::SharedStore) keeps; a [`Store`](crate::Store) has no keys. A key whose
    /// outcome is older is unknown. What is prepared stays.
    pub outcomes: u32,
}

impl Limits {
    /// 1,000,000 events, 1,024 open transactions, 256 objects and 1,000,000 outcomes.
    ///
    /// ```
    /// # use colock::Limits;
    /// assert_eq!(Limits::STANDARD, Limits { events: 1_000_000, open: 1_024, objects: 256, outcomes: 1_000_000 });
    /// ```
    pub const STANDARD: Limits = Limits { events: 1_000_000, open: 1_024, objects: 256, outcomes: 1_000_000 };

    /// The standard ones with another number of events.
    pub(crate) fn of_events(events: u64) -> Limits {
        Limits { events, ..Limits::STANDARD }
    }
}

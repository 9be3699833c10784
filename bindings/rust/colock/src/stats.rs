use std::time::Duration;

/// What a client counted since its store was opened.
///
/// ```
/// # use colock::{Kind, SharedStore, Type};
/// # let counter = Type::counter(5, &[1], Kind::Undo)?;
/// let store = SharedStore::new([&counter], 100)?;
/// store.begin()?.commit()?;
/// store.begin()?.abort()?;
/// let stats = store.stats();
/// assert_eq!((stats.commits, stats.aborts, stats.busy), (1, 1, vec![0]));
/// # Ok::<(), colock::Error>(())
/// ```
#[derive(Clone, Debug, Default, PartialEq, Eq)]
#[non_exhaustive]
pub struct Stats {
    /// Transactions that committed. Over a child some count that were done before under their keys, where the answer doesn't tell.
    pub commits: u64,
    /// Transactions of this client that were aborted: by a call, a drop, an error, as victims, or by the end of an epoch, which is known
    /// of each when something is asked of it.
    pub aborts: u64,
    /// For each object, how many calls there were answered busy, and how many sleeps were begun there.
    pub busy: Vec<u64>,
    /// Sleeps that were begun.
    pub waits: u64,
    /// How long they lasted, in all.
    pub waited: Duration,
    /// Victims.
    pub deadlocks: u64,
    /// Calls whose limit was over.
    pub timeouts: u64,
}

impl Stats {
    pub(crate) fn new(objects: usize) -> Stats {
        Stats { busy: vec![0; objects], ..Stats::default() }
    }

    /// There are so many objects now.
    pub(crate) fn extend(&mut self, objects: usize) {
        self.busy.resize(objects, 0);
    }

    pub(crate) fn count_busy(&mut self, object: u32) {
        let place = usize::try_from(object).unwrap_or(usize::MAX);
        if let Some(count) = self.busy.get_mut(place) {
            *count += 1;
        }
    }

    pub(crate) fn count_sleep(&mut self, object: u32) {
        self.count_busy(object);
        self.waits += 1;
    }
}

//! How a store in memory counts on where the library begins anew while transactions are open, so that nobody can tell it.

use std::cell::{Cell, RefCell};
use std::ops::Range;

/// The number in the library of a transaction that isn't there: nobody is open by it.
pub(crate) const NOT_THERE: u64 = u64::MAX;

/// The present epoch of the library, in which transactions, events and commits count from 0 once more.
///
/// Those that were open were carried into it. The library numbers them 0, 1, 2, .. in the order of their numbers, and goes on
/// from there.
#[derive(Debug, Default)]
pub(crate) struct Epoch {
    /// The number of the first transaction that began in it.
    first: Cell<u64>,
    /// How much greater the numbers of those from `first` on are than in the library.
    shift: Cell<u64>,
    /// How many transactions the library has numbered.
    numbered: Cell<u64>,
    /// The numbers of those that were carried, ascending.
    numbers: RefCell<Vec<u64>>,
    before: Cell<Before>,
    carried_events: Cell<u64>,
}

/// How many events came before the library's first one, those that were carried left out, and how many commits before the epoch.
#[derive(Clone, Copy, Debug, Default)]
pub(crate) struct Before {
    pub(crate) events: u64,
    pub(crate) commits: u64,
}

/// What goes over into another epoch.
#[derive(Debug)]
pub(crate) struct Carried {
    /// The numbers of the transactions, ascending.
    pub(crate) numbers: Vec<u64>,
    /// How many events of theirs the epoch begins with.
    pub(crate) events: u64,
}

impl Epoch {
    /// The number of a transaction in the library; [`NOT_THERE`] where it ended before the epoch.
    #[inline]
    pub(crate) fn in_library(&self, number: u64) -> u64 {
        if number >= self.first.get() {
            return number - self.shift.get();
        }
        self.place(number)
    }

    /// The place of one that began before the epoch.
    #[cold]
    fn place(&self, number: u64) -> u64 {
        self.numbers.borrow().binary_search(&number).map_or(NOT_THERE, |place| place as u64)
    }

    /// The number of the transaction that the library gives this one.
    #[inline]
    pub(crate) fn number(&self, in_library: u64) -> u64 {
        let number = in_library.wrapping_add(self.shift.get());
        if number >= self.first.get() {
            return number;
        }
        self.number_at(in_library)
    }

    /// The number of the one that was carried to this place.
    #[cold]
    fn number_at(&self, place: u64) -> u64 {
        let place = usize::try_from(place).unwrap_or(usize::MAX);
        self.numbers.borrow().get(place).copied().unwrap_or(NOT_THERE)
    }

    /// The library has numbered one more transaction, and gave it this number.
    #[inline]
    pub(crate) fn has_begun(&self, in_library: u64) {
        self.numbered.set(in_library + 1);
    }

    /// The library has numbered this many more.
    #[inline]
    pub(crate) fn have_begun(&self, count: u64) {
        self.numbered.set(self.numbered.get() + count);
    }

    /// The numbers in the library of those that were carried.
    pub(crate) fn carried(&self) -> Range<u64> {
        0..self.first.get() - self.shift.get()
    }

    /// The numbers in the library of those that began in it.
    pub(crate) fn begun(&self) -> Range<u64> {
        self.carried().end..self.numbered.get()
    }

    /// What came before it.
    #[inline]
    pub(crate) fn before(&self) -> Before {
        self.before.get()
    }

    /// How many events it began with.
    pub(crate) fn carried_events(&self) -> u64 {
        self.carried_events.get()
    }

    /// The library has begun another epoch, into which this was carried. So many events and commits were there before.
    pub(crate) fn goes_over(&self, carried: Carried, before: Before) {
        let (count, first) = (carried.numbers.len() as u64, self.numbered.get() + self.shift.get());
        self.first.set(first);
        self.shift.set(first - count);
        self.numbered.set(count);
        self.before.set(Before { events: before.events - carried.events, ..before });
        self.carried_events.set(carried.events);
        *self.numbers.borrow_mut() = carried.numbers;
    }

    /// The store itself has begun anew, with nobody open: all counts from 0.
    pub(crate) fn begins_anew(&mut self) {
        *self = Epoch::default();
    }
}

#[cfg(test)]
mod tests {
    use super::{Before, Carried, Epoch, NOT_THERE};

    #[test]
    fn numbers_go_on() {
        let epoch = Epoch::default();
        (0..7).for_each(|number| epoch.has_begun(number));
        assert_eq!((epoch.in_library(6), epoch.number(6)), (6, 6));
        epoch.goes_over(Carried { numbers: vec![1, 3, 6], events: 5 }, Before { events: 20, commits: 3 });
        assert_eq!([0, 1, 2, 3, 5, 6, 7, 8].map(|number| epoch.in_library(number)), [NOT_THERE, 0, NOT_THERE, 1, NOT_THERE, 2, 3, 4]);
        assert_eq!([0, 1, 2, 3, 4].map(|place| epoch.number(place)), [1, 3, 6, 7, 8]);
        assert_eq!((epoch.before().events, epoch.before().commits, epoch.carried_events()), (15, 3, 5));
        // 7 and 8 begin, and 3 and 8 go over once more
        epoch.has_begun(3);
        epoch.have_begun(1);
        assert_eq!((epoch.carried(), epoch.begun()), (0..3, 3..5));
        epoch.goes_over(Carried { numbers: vec![3, 8], events: 2 }, Before { events: 30, commits: 5 });
        assert_eq!([1, 3, 6, 7, 8, 9].map(|number| epoch.in_library(number)), [NOT_THERE, 0, NOT_THERE, NOT_THERE, 1, 2]);
        assert_eq!([0, 1, 2, 3].map(|place| epoch.number(place)), [3, 8, 9, 10]);
        // where nobody is open nobody is carried
        epoch.goes_over(Carried { numbers: vec![], events: 0 }, Before { events: 31, commits: 5 });
        assert_eq!((epoch.in_library(8), epoch.in_library(9), epoch.number(0)), (NOT_THERE, 0, 9));
    }

    #[test]
    fn it_begins_at_nothing() {
        let mut epoch = Epoch::default();
        epoch.have_begun(4);
        epoch.goes_over(Carried { numbers: vec![], events: 0 }, Before { events: 9, commits: 4 });
        assert_eq!(epoch.number(0), 4);
        epoch.begins_anew();
        assert_eq!((epoch.number(0), epoch.in_library(0), epoch.before().events), (0, 0, 0));
    }
}

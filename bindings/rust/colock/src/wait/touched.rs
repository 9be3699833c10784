//! At which objects a transaction has executed operations: who waits there is to look again where it lets go.

use crate::error::Error;
use crate::reply::Outcome;
use colock_waiting::{place, ObjectIndex, Touched, PLACES};
use std::sync::atomic::{AtomicU64, Ordering};

/// A call at an object was answered.
#[inline]
pub(crate) fn note(touched: &mut Touched, object: u32, outcome: &Result<Outcome, Error>) {
    if let Ok(Outcome::Operation(_)) = outcome {
        touched.note(ObjectIndex(object));
    }
}

/// The place of an object.
fn place_of(object: u32) -> usize {
    place(ObjectIndex(object)) as usize
}

/// The places of objects that were touched.
fn places(touched: Touched) -> impl Iterator<Item = usize> {
    touched.places().map(|place| place as usize)
}

/// When transactions last let go, by ends and rollbacks, at each place.
#[derive(Debug)]
pub(crate) struct LetGo {
    moment: u64,
    last: Box<[u64; PLACES as usize]>,
}

impl LetGo {
    pub(crate) fn new() -> LetGo {
        LetGo { moment: 0, last: Box::new([0; PLACES as usize]) }
    }

    /// How often transactions have let go.
    pub(crate) fn moment(&self) -> u64 {
        self.moment
    }

    /// A transaction lets go.
    pub(crate) fn lets_go(&mut self, touched: Touched) {
        self.moment += 1;
        places(touched).for_each(|place| self.last[place] = self.moment);
    }

    /// Somebody lets go who may have touched anything.
    pub(crate) fn all_let_go(&mut self) {
        self.moment += 1;
        self.last.fill(self.moment);
    }

    /// Whether somebody has let go at an object since a moment.
    pub(crate) fn is_after(&self, object: u32, since: u64) -> bool {
        self.last[place_of(object)] > since
    }
}

/// How many commits at each place let what others ask go first, and aren't answered.
#[derive(Debug)]
pub(crate) struct Underway([AtomicU64; PLACES as usize]);

impl Underway {
    pub(crate) fn new() -> Underway {
        Underway([const { AtomicU64::new(0) }; PLACES as usize])
    }

    pub(crate) fn starts(&self, touched: Touched) {
        for place in places(touched) {
            self.0[place].fetch_add(1, Ordering::Relaxed);
        }
    }

    /// One that started is answered.
    pub(crate) fn is_answered(&self, touched: Touched) {
        for place in places(touched) {
            self.0[place].fetch_sub(1, Ordering::Release);
        }
    }

    pub(crate) fn is_at(&self, object: u32) -> bool {
        self.0[place_of(object)].load(Ordering::Acquire) > 0
    }
}

#[cfg(test)]
mod tests {
    use super::{note, LetGo, Underway};
    use crate::reply::Outcome;
    use crate::Error;
    use colock_waiting::{ObjectIndex, Touched};

    /// What somebody has touched who executed an operation at each of these objects.
    fn touched(objects: &[u32]) -> Touched {
        objects.iter().copied().map(ObjectIndex).collect()
    }

    #[test]
    fn what_is_executed_touches() {
        let mut some = Touched::default();
        for outcome in [Ok(Outcome::Busy { blocker: 3 }), Ok(Outcome::Illegal), Err(Error::NotOpen)] {
            note(&mut some, 5, &outcome);
        }
        assert_eq!(some, Touched::default());
        note(&mut some, 5, &Ok(Outcome::Operation(0.into())));
        assert_eq!(some, touched(&[5]));
    }

    #[test]
    fn who_lets_go_does_so_where_it_touched() {
        let mut let_go = LetGo::new();
        let_go.lets_go(touched(&[2]));
        let since = let_go.moment();
        assert!(let_go.is_after(2, 0) && !let_go.is_after(2, since) && !let_go.is_after(3, 0));
        let_go.lets_go(touched(&[2, 3]));
        assert!(let_go.is_after(2, since) && let_go.is_after(3, since) && !let_go.is_after(4, since));
        let since = let_go.moment();
        let_go.all_let_go();
        assert!((0..100).all(|object| let_go.is_after(object, since) && !let_go.is_after(object, let_go.moment())));
    }

    #[test]
    fn a_commit_is_underway_until_it_is_answered() {
        let underway = Underway::new();
        underway.starts(touched(&[1, 2]));
        underway.starts(touched(&[2]));
        underway.is_answered(touched(&[1, 2]));
        assert_eq!([0, 1, 2].map(|object| underway.is_at(object)), [false, false, true]);
    }
}

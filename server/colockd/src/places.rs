//! Places of which some may be taken at the same time. Nobody waits for one, so there is no lock: each request takes one and gives it
//! back.

use std::sync::atomic::{AtomicUsize, Ordering};

/// So many places.
#[derive(Debug)]
pub struct Places {
    taken: AtomicUsize,
    most: usize,
}

/// A place that is taken until it is dropped.
#[derive(Debug)]
pub struct Place<'p>(&'p AtomicUsize);

impl Places {
    /// None of so many is taken.
    pub fn new(most: usize) -> Places {
        Places { taken: AtomicUsize::new(0), most }
    }

    /// Takes a place; nothing where all are taken.
    pub fn take(&self) -> Option<Place<'_>> {
        let before = self.taken.fetch_add(1, Ordering::Relaxed);
        let place = Place(&self.taken);
        (before < self.most).then_some(place)
    }
}

impl Drop for Place<'_> {
    fn drop(&mut self) {
        self.0.fetch_sub(1, Ordering::Relaxed);
    }
}

#[cfg(test)]
mod tests {
    use super::Places;

    #[test]
    fn as_many_as_there_are_are_taken() {
        let places = Places::new(2);
        let (first, second) = (places.take(), places.take());
        assert!(first.is_some() && second.is_some());
        assert!((0..2).all(|_| places.take().is_none()));
        drop(first);
        let third = places.take();
        assert!(third.is_some() && places.take().is_none());
    }
}

//! At which objects a transaction has executed operations.

use crate::asker::ObjectIndex;
use std::iter;

/// How many places there are. That of an object is its number modulo this.
pub const PLACES: u32 = 64;

/// The place of an object.
pub fn place(object: ObjectIndex) -> u32 {
    object.0 % PLACES
}

/// The places of the objects that a transaction has touched. Where two objects share one, somebody is asked for in
/// vain.
#[derive(Clone, Copy, Debug, Default, PartialEq, Eq)]
pub struct Touched(u64);

impl Touched {
    /// An operation was executed at an object.
    #[inline]
    pub fn note(&mut self, object: ObjectIndex) {
        self.0 |= 1 << place(object);
    }

    /// Whether the object may be one of them.
    pub fn has(self, object: ObjectIndex) -> bool {
        self.0 >> place(object) & 1 == 1
    }

    /// The places, in ascending order.
    pub fn places(self) -> impl Iterator<Item = u32> {
        let mut left = self.0;
        iter::from_fn(move || {
            let place = left.trailing_zeros();
            left &= left.wrapping_sub(1);
            (place < PLACES).then_some(place)
        })
    }
}

impl FromIterator<ObjectIndex> for Touched {
    fn from_iter<I: IntoIterator<Item = ObjectIndex>>(objects: I) -> Touched {
        let mut touched = Touched::default();
        objects.into_iter().for_each(|object| touched.note(object));
        touched
    }
}

#[cfg(test)]
mod tests {
    use super::Touched;
    use crate::asker::ObjectIndex;

    #[test]
    fn an_object_has_its_place() {
        let some = Touched::from_iter([5, 63, 64].map(ObjectIndex));
        assert_eq!([0, 4, 5, 63, 64, u32::MAX].map(|object| some.has(ObjectIndex(object))), [true, false, true, true, true, true]);
        assert_eq!(some.places().collect::<Vec<_>>(), [0, 5, 63]);
        assert_eq!(Touched::default().places().count(), 0);
        assert_eq!(Touched::from_iter((0..64).map(ObjectIndex)).places().count(), 64);
    }
}

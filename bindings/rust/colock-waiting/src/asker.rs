//! Who asks, and what.

/// The number of a transaction.
#[derive(Clone, Copy, Debug, PartialEq, Eq, PartialOrd, Ord, Hash)]
pub struct Number(pub u64);

/// The age of a transaction: the less it is, the older.
#[derive(Clone, Copy, Debug, PartialEq, Eq, PartialOrd, Ord, Hash)]
pub struct Age(pub u64);

/// An object of the store.
#[derive(Clone, Copy, Debug, PartialEq, Eq, PartialOrd, Ord, Hash)]
pub struct ObjectIndex(pub u32);

/// What a call is for conflicts: its place in its type.
#[derive(Clone, Copy, Debug, PartialEq, Eq, PartialOrd, Ord, Hash)]
pub struct Class(pub u8);

/// A transaction with its call.
#[derive(Clone, Copy, Debug, PartialEq, Eq)]
pub struct Asker {
    /// The transaction.
    pub number: Number,
    /// Its age.
    pub age: Age,
    /// The object that it calls.
    pub object: ObjectIndex,
    /// The class of its call.
    pub call: Class,
}

impl Asker {
    pub(crate) fn rank(self) -> Rank {
        Rank { age: self.age, number: self.number }
    }
}

/// The place of a transaction in the order of ages. The number decides between equal ages.
#[derive(Clone, Copy, Debug, PartialEq, Eq, PartialOrd, Ord)]
pub(crate) struct Rank {
    age: Age,
    pub(crate) number: Number,
}

impl Rank {
    pub(crate) const OLDEST: Rank = Rank { age: Age(0), number: Number(0) };
    pub(crate) const YOUNGEST: Rank = Rank { age: Age(u64::MAX), number: Number(u64::MAX) };
}

/// Which calls are in the way of which.
pub trait Conflicts {
    /// Whether a call at an object, once done, would keep another one out.
    fn blocks(&self, object: ObjectIndex, call: Class, other: Class) -> bool;
}

impl<F: Fn(ObjectIndex, Class, Class) -> bool> Conflicts for F {
    fn blocks(&self, object: ObjectIndex, call: Class, other: Class) -> bool {
        self(object, call, other)
    }
}

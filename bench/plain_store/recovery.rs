//! What an object does at each call, whatever its kind of recovery.

use crate::locks::Locks;
use crate::types::Type;

/// What a transaction sees of an object: a state, and the place where more is kept of it.
#[derive(Clone, Copy)]
pub struct Seen {
    pub state: u16,
    pub place: usize,
}

pub trait Recovery {
    fn new(table: &Type) -> Self;

    fn state(&self) -> u16;

    fn seen(&self, t: u32) -> Seen;

    /// Whether what is held is kept by the object's locks.
    #[inline]
    fn has_locks(&self) -> bool {
        true
    }

    /// Who keeps t from operation k.
    #[inline]
    fn blocker(&self, locks: &Locks, table: &Type, _seen: Seen, t: u32, k: u8) -> Option<u32> {
        locks.blocker(table.row(k), t)
    }

    /// Executes operation k, which leads t from what it sees to this state.
    fn apply(&mut self, seen: Seen, t: u32, k: u8, next: u16);

    fn commit(&mut self, table: &Type, t: u32);

    fn abort(&mut self, table: &Type, t: u32);

    /// Strikes the last m operations of t.
    fn strike(&mut self, table: &Type, t: u32, m: u32);
}

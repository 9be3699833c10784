//! An object of either kind of recovery.

use crate::escrow::Numeric;
use crate::intentions::Intentions;
use crate::lines::Kind;
use crate::locks::Locks;
use crate::recovery::{Recovery, Seen};
use crate::types::Type;
use crate::undo::Undo;

pub enum Either {
    Undo(Undo),
    Intentions(Intentions),
    Escrow(Numeric),
}

impl Either {
    pub fn of(kind: Kind, table: &Type) -> Either {
        match kind {
            Kind::Undo => Either::Undo(Undo::new(table)),
            Kind::Intentions => Either::Intentions(Intentions::new(table)),
            Kind::Escrow => Either::Escrow(Numeric::new(table)),
        }
    }
}

impl Recovery for Either {
    fn new(table: &Type) -> Either {
        Either::of(Kind::Undo, table)
    }

    fn state(&self) -> u16 {
        match self {
            Either::Undo(object) => object.state(),
            Either::Intentions(object) => object.state(),
            Either::Escrow(object) => object.state(),
        }
    }

    #[inline]
    fn seen(&self, t: u32) -> Seen {
        match self {
            Either::Undo(object) => object.seen(t),
            Either::Intentions(object) => object.seen(t),
            Either::Escrow(object) => object.seen(t),
        }
    }

    #[inline]
    fn has_locks(&self) -> bool {
        !matches!(self, Either::Escrow(_))
    }

    #[inline]
    fn blocker(&self, locks: &Locks, table: &Type, seen: Seen, t: u32, k: u8) -> Option<u32> {
        match self {
            Either::Escrow(object) => object.blocker(locks, table, seen, t, k),
            _ => locks.blocker(table.row(k), t),
        }
    }

    #[inline]
    fn apply(&mut self, seen: Seen, t: u32, k: u8, next: u16) {
        match self {
            Either::Undo(object) => object.apply(seen, t, k, next),
            Either::Intentions(object) => object.apply(seen, t, k, next),
            Either::Escrow(object) => object.apply(seen, t, k, next),
        }
    }

    #[inline]
    fn commit(&mut self, table: &Type, t: u32) {
        match self {
            Either::Undo(object) => object.commit(table, t),
            Either::Intentions(object) => object.commit(table, t),
            Either::Escrow(object) => object.commit(table, t),
        }
    }

    #[inline]
    fn abort(&mut self, table: &Type, t: u32) {
        match self {
            Either::Undo(object) => object.abort(table, t),
            Either::Intentions(object) => object.abort(table, t),
            Either::Escrow(object) => object.abort(table, t),
        }
    }

    #[inline]
    fn strike(&mut self, table: &Type, t: u32, m: u32) {
        match self {
            Either::Undo(object) => object.strike(table, t, m),
            Either::Intentions(object) => object.strike(table, t, m),
            Either::Escrow(object) => object.strike(table, t, m),
        }
    }
}

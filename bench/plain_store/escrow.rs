//! A number in escrow: a call is admitted where all that the open transactions did, and it, stays legal whatever they do
//! next.

use crate::locks::Locks;
use crate::recovery::{Recovery, Seen};
use crate::types::{ILLEGAL, Type};

/// From where to where an operation is legal, and how it moves the number.
#[derive(Clone, Copy)]
pub struct Bounded {
    pub low: u64,
    pub high: u64,
    pub gives: u64,
    pub takes: u64,
}

/// What a transaction's operations come to: how far they fall and rise from where they begin, how far above its lowest the
/// number is at their end, and from where on and below where they are legal.
#[derive(Clone, Copy)]
struct Mark {
    fall: u64,
    rise: u64,
    above: u64,
    floor: u64,
    ceiling: u64,
}

impl Mark {
    fn none(top: u64) -> Mark {
        Mark {
            fall: 0,
            rise: 0,
            above: 0,
            floor: 0,
            ceiling: top + 1,
        }
    }

    /// With one more operation.
    #[inline]
    fn with(self, op: Bounded) -> Mark {
        let given = self.above + op.gives;
        let fall = self.fall + op.takes.saturating_sub(given);
        let above = given.saturating_sub(op.takes);
        let floor = (op.low + self.fall).saturating_sub(self.above);
        let ceiling = (op.high + 1 + self.fall).saturating_sub(self.above);
        Mark {
            fall,
            rise: self.rise.max(above.saturating_sub(fall)),
            above,
            floor: self.floor.max(floor),
            ceiling: self.ceiling.min(ceiling),
        }
    }

    #[inline]
    fn need(self) -> u64 {
        self.floor.saturating_sub(self.fall)
    }

    #[inline]
    fn limit(self) -> u64 {
        self.ceiling + self.rise
    }

    fn is_legal_from(self, number: u64) -> bool {
        (self.floor..self.ceiling).contains(&number)
    }
}

/// Sums and extremes of all marks: how far they fall and rise, the most that one needs beside its own fall, and the least
/// limit of one and its own rise.
#[derive(Clone, Copy)]
struct Totals {
    fallen: u64,
    risen: u64,
    needed: u64,
    limit: u64,
}

impl Totals {
    #[inline]
    fn with(self, old: Mark, new: Mark) -> Totals {
        Totals {
            fallen: self.fallen - old.fall + new.fall,
            risen: self.risen - old.rise + new.rise,
            needed: self.needed.max(new.need()),
            limit: self.limit.min(new.limit()),
        }
    }

    #[inline]
    fn are_firm(self, base: u64) -> bool {
        self.fallen + self.needed <= base && base + self.risen < self.limit
    }
}

#[derive(Clone, Copy)]
struct OpenMark {
    by: u32,
    /// How many operations were done before its first one.
    first: u32,
    mark: Mark,
}

/// The number that is committed, and of each open transaction its mark, by its number.
pub struct Escrow {
    top: u64,
    pub base: u64,
    marks: Vec<OpenMark>,
    totals: Totals,
    /// How many operations were done.
    done: u32,
}

impl Escrow {
    pub fn new(top: u64, initial: u64) -> Escrow {
        Escrow {
            top,
            base: initial,
            marks: Vec::new(),
            totals: Totals {
                fallen: 0,
                risen: 0,
                needed: 0,
                limit: top + 1,
            },
            done: 0,
        }
    }

    /// The place of a transaction's mark, or where it would be.
    #[inline]
    pub fn place(&self, t: u32) -> usize {
        self.marks.partition_point(|open| open.by < t)
    }

    /// The mark of a transaction, whose place this is, if it has one.
    #[inline]
    fn found(&self, place: usize, t: u32) -> Option<Mark> {
        let open = self.marks.get(place).filter(|open| open.by == t)?;
        Some(open.mark)
    }

    #[inline]
    fn mark(&self, place: usize, t: u32) -> Mark {
        self.found(place, t).unwrap_or(Mark::none(self.top))
    }

    /// The number that a transaction sees.
    #[inline]
    pub fn number(&self, place: usize, t: u32) -> u64 {
        let mark = self.mark(place, t);
        self.base + mark.above - mark.fall
    }

    /// Who keeps a transaction from an operation.
    #[inline]
    pub fn blocker(&self, place: usize, t: u32, op: Bounded) -> Option<u32> {
        let old = self.mark(place, t);
        let mark = old.with(op);
        let totals = self.totals.with(old, mark);
        if totals.are_firm(self.base) {
            return None;
        }
        self.keeper(t, mark, totals)
    }

    /// Executes an operation.
    #[inline]
    pub fn apply(&mut self, place: usize, t: u32, op: Bounded) {
        let found = self.found(place, t);
        let old = found.unwrap_or(Mark::none(self.top));
        let mark = old.with(op);
        if found.is_some() {
            self.marks[place].mark = mark;
        } else {
            let (by, first) = (t, self.done);
            self.marks.insert(place, OpenMark { by, first, mark });
        }
        self.done += 1;
        if old.need() <= mark.need() && mark.limit() <= old.limit() {
            self.totals = self.totals.with(old, mark);
        } else {
            self.sum();
        }
    }

    /// The totals of all marks anew.
    #[inline]
    fn sum(&mut self) {
        let none = Totals {
            fallen: 0,
            risen: 0,
            needed: 0,
            limit: self.top + 1,
        };
        let marks = self.marks.iter();
        self.totals = marks.fold(none, |totals, open| totals.with(Mark::none(0), open.mark));
    }

    /// Who keeps a transaction from what it did last: who does so alone and did something first, or who did something first.
    #[cold]
    fn keeper(&self, t: u32, own: Mark, totals: Totals) -> Option<u32> {
        let low = |mark: Mark| self.base.saturating_sub(totals.fallen - mark.fall);
        let high = |mark: Mark| self.base + (totals.risen - mark.rise);
        let is_low = |mark: Mark| mark.is_legal_from(low(mark));
        let is_high = |mark: Mark| mark.is_legal_from(high(mark));
        let (own_low, own_high) = (is_low(own), is_high(own));
        let keeps = |other: Mark| match (own_low, own_high) {
            (true, true) => !(is_low(other) && is_high(other)),
            _ => (!own_low && other.fall > 0) || (!own_high && other.rise > 0),
        };
        let alone = |other: Mark| {
            let (lowest, highest) = (self.base.saturating_sub(other.fall), self.base + other.rise);
            !(own.is_legal_from(lowest) && own.is_legal_from(highest))
        };
        let others = self.marks.iter().filter(|open| open.by != t);
        let first = others
            .filter(|open| keeps(open.mark))
            .min_by_key(|open| (!alone(open.mark), open.first));
        first.map(|open| open.by)
    }

    #[inline]
    pub fn commit(&mut self, t: u32) {
        let place = self.place(t);
        self.base = self.number(place, t);
        self.take_out(place, t);
    }

    #[inline]
    pub fn take_out(&mut self, place: usize, t: u32) {
        let Some(mark) = self.found(place, t) else {
            return;
        };
        self.marks.remove(place);
        let Totals { needed, limit, .. } = self.totals;
        // an extreme may have been its own, unless it is that of no mark
        if (needed > 0 && mark.need() == needed) || (limit <= self.top && mark.limit() == limit) {
            self.sum();
        } else {
            self.totals.fallen -= mark.fall;
            self.totals.risen -= mark.rise;
        }
    }

    /// Leaves a transaction these operations, the first ones that it did.
    pub fn leave(&mut self, t: u32, left: impl Iterator<Item = Bounded>) {
        let (place, mut none) = (self.place(t), true);
        let mark = left.fold(Mark::none(self.top), |mark, op| {
            none = false;
            mark.with(op)
        });
        if none {
            return self.take_out(place, t);
        }
        self.marks[place].mark = mark;
        self.sum();
    }
}

#[derive(Clone, Copy)]
struct Entry {
    by: u32,
    op: u8,
}

/// An object of a table in escrow, with the bounds of each operation, and what the open transactions did, in order.
pub struct Numeric {
    bounds: Vec<Bounded>,
    escrow: Escrow,
    log: Vec<Entry>,
}

/// The bounds of each operation of a numeric type; of one that is legal nowhere from 1 to 0.
pub fn bounds_of(table: &Type) -> Vec<Bounded> {
    let states = 0..table.states() as u16;
    let of = |k: u8| {
        let is_legal = |s: &u16| table.next(*s, k) != ILLEGAL;
        let low = states.clone().find(is_legal).unwrap_or(1);
        let high = states.clone().rev().find(is_legal).unwrap_or(0);
        let to = if low <= high { table.next(low, k) } else { low };
        Bounded {
            low: low.into(),
            high: high.into(),
            gives: to.saturating_sub(low).into(),
            takes: low.saturating_sub(to).into(),
        }
    };
    (0..table.op_count() as u8).map(of).collect()
}

impl Escrow {
    /// That of a table.
    pub fn of(table: &Type) -> Escrow {
        Escrow::new(table.states() as u64 - 1, table.initial.into())
    }
}

impl Recovery for Numeric {
    fn new(table: &Type) -> Numeric {
        Numeric {
            bounds: bounds_of(table),
            escrow: Escrow::of(table),
            log: Vec::new(),
        }
    }

    fn state(&self) -> u16 {
        self.escrow.base as u16
    }

    #[inline(never)]
    fn seen(&self, t: u32) -> Seen {
        let place = self.escrow.place(t);
        let state = self.escrow.number(place, t) as u16;
        Seen { state, place }
    }

    #[inline]
    fn has_locks(&self) -> bool {
        false
    }

    #[inline(never)]
    fn blocker(&self, _locks: &Locks, _table: &Type, seen: Seen, t: u32, k: u8) -> Option<u32> {
        self.escrow.blocker(seen.place, t, self.bounds[k as usize])
    }

    #[inline(never)]
    fn apply(&mut self, seen: Seen, t: u32, k: u8, _next: u16) {
        self.escrow.apply(seen.place, t, self.bounds[k as usize]);
        self.log.push(Entry { by: t, op: k });
    }

    #[inline(never)]
    fn commit(&mut self, _table: &Type, t: u32) {
        self.escrow.commit(t);
        self.log.retain(|entry| entry.by != t);
    }

    #[inline(never)]
    fn abort(&mut self, _table: &Type, t: u32) {
        self.escrow.take_out(self.escrow.place(t), t);
        self.log.retain(|entry| entry.by != t);
    }

    #[inline(never)]
    fn strike(&mut self, _table: &Type, t: u32, m: u32) {
        let own = |entry: &&Entry| entry.by == t;
        let (mut kept, left) = (0, self.log.iter().filter(own).count() - m as usize);
        self.log.retain(|entry| {
            kept += usize::from(entry.by == t);
            entry.by != t || kept <= left
        });
        let own = self.log.iter().filter(own);
        let left = own.map(|entry| self.bounds[entry.op as usize]);
        self.escrow.leave(t, left);
    }
}

//! Transactions over many shared objects.

use crate::locks::Locks;
use crate::recovery::Recovery;
use crate::transactions::Transactions;
use crate::types::{Call, ILLEGAL, Type};
use std::sync::Arc;

/// The most transactions that are open at once.
const MOST_OPEN: usize = 1024;

#[derive(Clone, Copy)]
pub enum EventKind {
    Begin { t: u32 },
    Op { t: u32, x: u32, k: u8 },
    Busy { t: u32, x: u32, c: u8, u: u32 },
    None { t: u32, x: u32, c: u8 },
    Commit { t: u32 },
    Abort { t: u32 },
    Rollback { t: u32, n: u32 },
}

#[derive(Clone, Copy)]
pub struct Event {
    pub worker: u8,
    pub kind: EventKind,
}

pub enum Answer {
    Reply(u8),
    Busy(u32),
    None,
}

pub enum Refusal {
    NotOpen,
    NoObject,
    NoCall,
    TooManyOpen,
    HistoryFull,
    BadRollback,
}

/// An object, with what is held there.
pub struct Object<R> {
    table: Arc<Type>,
    locks: Locks,
    recovery: R,
}

impl<R: Recovery> Object<R> {
    pub fn new(table: Arc<Type>) -> Object<R> {
        let recovery = R::new(&table);
        Object::of(table, recovery)
    }

    pub fn of(table: Arc<Type>, recovery: R) -> Object<R> {
        Object {
            table,
            locks: Locks::new(),
            recovery,
        }
    }

    /// Answers the call with these operations, and executes the reply.
    #[inline]
    fn call(&mut self, t: u32, operations: u64) -> Answer {
        let seen = self.recovery.seen(t);
        let (mut left, mut blocker) = (operations, None);
        while left != 0 {
            let k = left.trailing_zeros() as u8;
            left &= left - 1;
            let next = self.table.next(seen.state, k);
            if next != ILLEGAL {
                let Some(u) = self.recovery.blocker(&self.locks, &self.table, seen, t, k) else {
                    self.recovery.apply(seen, t, k, next);
                    if self.recovery.has_locks() {
                        self.locks.hold(t, k);
                    }
                    return Answer::Reply(k);
                };
                blocker = blocker.or(Some(u));
            }
        }
        blocker.map_or(Answer::None, Answer::Busy)
    }
}

/// Which objects were visited.
#[derive(Default)]
struct Visited([u64; 4]);

impl Visited {
    /// Whether this is the first visit.
    #[inline]
    fn visit(&mut self, x: u8) -> bool {
        let word = &mut self.0[x as usize >> 6];
        let bit = 1 << (x & 63);
        let first = *word & bit == 0;
        *word |= bit;
        first
    }
}

pub struct Store<R> {
    objects: Vec<Object<R>>,
    transactions: Transactions,
    history: Vec<Event>,
    max_events: usize,
}

impl<R: Recovery> Store<R> {
    pub fn new(objects: Vec<Object<R>>, max_events: usize) -> Store<R> {
        Store {
            objects,
            transactions: Transactions::new(),
            history: Vec::new(),
            max_events,
        }
    }

    pub fn kept(&self, x: usize) -> u16 {
        self.objects[x].recovery.state()
    }

    pub fn history(&self) -> &[Event] {
        &self.history
    }

    /// Whether there is room for this many further events and the end of each open transaction.
    #[inline]
    fn room(&self, further: usize) -> Result<(), Refusal> {
        let wanted = self.history.len() + self.transactions.slots.len() + further;
        if wanted <= self.max_events {
            Ok(())
        } else {
            Err(Refusal::HistoryFull)
        }
    }

    #[inline]
    fn note(&mut self, worker: u8, kind: EventKind) {
        self.history.push(Event { worker, kind });
    }

    pub fn begin(&mut self, w: u8) -> Result<u32, Refusal> {
        if self.transactions.slots.len() >= MOST_OPEN {
            return Err(Refusal::TooManyOpen);
        }
        self.room(2)?;
        let t = self.transactions.begin(w);
        self.note(w, EventKind::Begin { t });
        Ok(t)
    }

    pub fn call_op(&mut self, w: u8, t: u32, x: u32, c: u8) -> Result<Answer, Refusal> {
        self.call(w, t, x, |table| table.call(c))
    }

    /// Calls what is found in the object's type.
    #[inline]
    pub fn call(
        &mut self,
        w: u8,
        t: u32,
        x: u32,
        find: impl Fn(&Type) -> Option<&Call>,
    ) -> Result<Answer, Refusal> {
        let slot = self.transactions.slot(t)?;
        let object = self.objects.get(x as usize).ok_or(Refusal::NoObject)?;
        let found = find(&object.table).ok_or(Refusal::NoCall)?;
        let (c, operations) = (found.first, found.operations);
        self.room(1)?;
        let answer = self.objects[x as usize].call(t, operations);
        let kind = match answer {
            Answer::Reply(k) => {
                self.transactions.slots[slot].places.push(x as u8);
                EventKind::Op { t, x, k }
            }
            Answer::Busy(u) => EventKind::Busy { t, x, c, u },
            Answer::None => EventKind::None { t, x, c },
        };
        self.note(w, kind);
        Ok(answer)
    }

    /// Ends a transaction, at each object where it has operations once.
    #[inline]
    fn end(&mut self, t: u32, at: impl Fn(&mut R, &Type, u32)) -> Result<(), Refusal> {
        let slot = self.transactions.slot(t)?;
        let ended = self.transactions.end(slot);
        let mut visited = Visited::default();
        for &x in ended.places.as_slice() {
            if visited.visit(x) {
                let object = &mut self.objects[x as usize];
                at(&mut object.recovery, &object.table, t);
                if object.recovery.has_locks() {
                    object.locks.release(t);
                }
            }
        }
        Ok(())
    }

    pub fn commit(&mut self, w: u8, t: u32) -> Result<(), Refusal> {
        self.end(t, R::commit)?;
        self.note(w, EventKind::Commit { t });
        Ok(())
    }

    pub fn abort(&mut self, w: u8, t: u32) -> Result<(), Refusal> {
        self.end(t, R::abort)?;
        self.note(w, EventKind::Abort { t });
        Ok(())
    }

    pub fn rollback(&mut self, w: u8, t: u32, n: u32) -> Result<(), Refusal> {
        let slot = self.transactions.slot(t)?;
        let living = self.transactions.slots[slot].places.as_slice().len();
        if n == 0 || n as usize > living {
            return Err(Refusal::BadRollback);
        }
        self.room(1)?;
        self.strike(t, slot, living - n as usize);
        self.transactions.slots[slot]
            .places
            .truncate(living - n as usize);
        self.note(w, EventKind::Rollback { t, n });
        Ok(())
    }

    /// Strikes t's operations but the first `left`, at each object once.
    #[inline]
    fn strike(&mut self, t: u32, slot: usize, left: usize) {
        let places = &self.transactions.slots[slot].places.as_slice()[left..];
        let mut visited = Visited::default();
        for (at, &x) in places.iter().enumerate() {
            if visited.visit(x) {
                let m = places[at..].iter().filter(|&&other| other == x).count();
                let object = &mut self.objects[x as usize];
                object.recovery.strike(&object.table, t, m as u32);
                if object.recovery.has_locks() {
                    object.locks.release_last(t, m);
                }
            }
        }
    }

    /// The open transactions, ascending.
    pub fn open(&self) -> Vec<u32> {
        let is_open = |&t: &u32| self.transactions.slot(t).is_ok();
        (0..self.transactions.begun()).filter(is_open).collect()
    }

    /// Aborts what is open, and hands out the history.
    pub fn close(mut self) -> Vec<Event> {
        for t in 0..self.transactions.begun() {
            if let Ok(slot) = self.transactions.slot(t) {
                let _ = self.abort(self.transactions.slots[slot].worker, t);
            }
        }
        self.history
    }
}

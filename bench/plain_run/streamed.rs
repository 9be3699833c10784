//! A store for one pass over a script, which holds no more than what is open: neither the history, nor what ended.
//!
//! An entry of an object stays at its place until all before it are closed, so a transaction finds its own without a
//! search. A commit also runs the operations on the serial states, as an audit of the history does.

use crate::escrow::{Bounded, Escrow, bounds_of};
use crate::lines::{Kind, ObjectLine};
use crate::telling::{Text, Texts};
use crate::types::{ILLEGAL, Type};

/// The most transactions that are open at once.
const MOST_OPEN: usize = 1024;
/// In place of a slot: the transaction ended.
const ENDED: u16 = u16::MAX;
/// In place of a state: the transaction has no operation there.
const UNSEEN: u16 = u16::MAX;
/// From so many closed entries on at the front they may be let go.
const CLOSED: usize = 512;

#[derive(Clone, Copy, PartialEq, Eq)]
enum Stage {
    Open,
    Committed,
    Gone,
}

/// An operation that was executed at an object, and, of update in place, the state before it.
#[derive(Clone, Copy)]
struct Entry {
    slot: u16,
    before: u16,
    op: u8,
    stage: Stage,
}

/// The operation that was executed, and the number of its entry; else the slot of who was in the way, or none.
type Called = Result<(u8, u32), Option<u32>>;

/// An operation of an open transaction, with the number of its entry.
#[derive(Clone, Copy)]
pub struct Own {
    pub x: u32,
    pub op: u8,
    number: u32,
}

struct Object<'a> {
    table: &'a Type,
    kind: Kind,
    /// The state that is kept.
    state: u16,
    serial: u16,
    /// The bit of each operation that is held, and how often it is.
    word: u64,
    held: [u16; 64],
    /// The entries but the first ones that were let go, and how many of them are closed at the front.
    entries: Vec<Entry>,
    gone: u32,
    closed: usize,
    /// The slots of those that see a state of their own.
    viewers: Vec<u16>,
    /// In escrow all that is kept, of which each transaction is named by its slot, and the bounds of each operation.
    number: Option<Box<(Escrow, Vec<Bounded>)>>,
}

impl Object<'_> {
    /// The slot of who keeps another one from an operation with this row of conflicts.
    #[inline]
    fn blocker(&self, row: u64, slot: u16) -> Option<u16> {
        if row & self.word == 0 {
            return None;
        }
        let blocks = |entry: &&Entry| {
            row >> (entry.op & 63) & 1 == 1 && entry.stage == Stage::Open && entry.slot != slot
        };
        self.entries[self.closed..]
            .iter()
            .find(blocks)
            .map(|entry| entry.slot)
    }

    /// Executes an operation, and answers the number of its entry.
    #[inline]
    fn push(&mut self, slot: u16, op: u8, before: u16) -> u32 {
        self.held[op as usize & 63] += 1;
        self.word |= 1 << (op & 63);
        self.entries.push(Entry {
            slot,
            before,
            op,
            stage: Stage::Open,
        });
        self.gone + self.entries.len() as u32 - 1
    }

    /// Gives an operation up, and answers the place of its entry.
    #[inline]
    fn close(&mut self, own: Own, stage: Stage) -> usize {
        let held = &mut self.held[own.op as usize & 63];
        *held -= 1;
        if *held == 0 {
            self.word &= !(1 << (own.op & 63));
        }
        let place = (own.number - self.gone) as usize;
        self.entries[place].stage = stage;
        place
    }

    #[inline]
    fn commit(&mut self, own: Own) {
        if self.close(own, Stage::Committed) == self.closed {
            self.settle();
        }
    }

    /// Passes over the closed entries at the front.
    #[inline]
    fn settle(&mut self) {
        let closed = |entry: &Entry| entry.stage != Stage::Open;
        while self.entries.get(self.closed).is_some_and(closed) {
            self.closed += 1;
        }
        if self.closed == self.entries.len() || self.closed >= CLOSED {
            self.let_go();
        }
    }

    fn let_go(&mut self) {
        self.gone += self.closed as u32;
        self.entries.drain(..self.closed);
        self.closed = 0;
    }

    /// Executes the first of these operations that is legal and free, where a transaction sees a state of its own or none. The
    /// operation and the number of its entry, or who is in the way of the first that is legal.
    #[inline(always)]
    fn call_table(&mut self, slot: u16, operations: u64, view: &mut u16) -> Called {
        let seen = if *view == UNSEEN { self.state } else { *view };
        let (mut left, mut blocker) = (operations, None);
        while left != 0 {
            let op = left.trailing_zeros() as u8;
            left &= left - 1;
            let next = self.table.next(seen, op);
            if next == ILLEGAL {
                continue;
            }
            let Some(other) = self.blocker(self.table.row(op), slot) else {
                if self.kind == Kind::Undo {
                    self.state = next;
                } else {
                    if *view == UNSEEN {
                        self.viewers.push(slot);
                    }
                    *view = next;
                }
                return Ok((op, self.push(slot, op, seen)));
            };
            blocker = blocker.or(Some(other.into()));
        }
        Err(blocker)
    }

    /// The same in escrow, without an entry.
    fn call_number(&mut self, slot: u16, operations: u64) -> Called {
        let (number, bounds) = &mut **self.number.as_mut().expect("a number");
        let (t, mut left, mut blocker) = (slot.into(), operations, None);
        let place = number.place(t);
        let seen = number.number(place, t) as u16;
        while left != 0 {
            let op = left.trailing_zeros() as u8;
            left &= left - 1;
            if self.table.next(seen, op) != ILLEGAL {
                let bounds = bounds[op as usize];
                let Some(other) = number.blocker(place, t, bounds) else {
                    number.apply(place, t, bounds);
                    return Ok((op, 0));
                };
                blocker = blocker.or(Some(other));
            }
        }
        Err(blocker)
    }

    /// Takes back the operations of a transaction here. The last state that it sees, where it has others before them.
    fn strike(&mut self, slot: u16, all: &[Own], x: u32, from: usize) -> Option<u16> {
        let here = |own: &&Own| own.x == x;
        if let Some(number) = &mut self.number {
            let (number, bounds) = &mut **number;
            let left = all[..from].iter().filter(here);
            number.leave(slot.into(), left.map(|own| bounds[own.op as usize]));
            return None;
        }
        let places: Vec<usize> = all[from..]
            .iter()
            .filter(here)
            .map(|&own| self.close(own, Stage::Gone))
            .collect();
        let left: Vec<u8> = all[..from].iter().filter(here).map(|own| own.op).collect();
        if self.kind == Kind::Undo {
            self.rerun(places[0]);
        }
        self.settle();
        let view = left
            .iter()
            .fold(self.state, |state, &op| self.table.next(state, op));
        (!left.is_empty()).then_some(view)
    }

    /// The state and those before the entries from a place on, where those that are gone are left out.
    fn rerun(&mut self, from: usize) {
        let mut state = self.entries[from].before;
        for entry in self.entries[from..]
            .iter_mut()
            .filter(|entry| entry.stage != Stage::Gone)
        {
            entry.before = state;
            state = self.table.next(state, entry.op);
        }
        self.state = state;
    }
}

/// An open transaction; the others are free.
struct Slot {
    text: Text,
    own: Vec<Own>,
}

pub enum Answer {
    Reply(u8),
    Busy(Text),
    None,
}

#[derive(Clone, Copy)]
pub enum Refusal {
    NotOpen,
    NoObject,
    NoCall,
    TooManyOpen,
    HistoryFull,
    BadRollback,
}

/// The operation that isn't legal in the serial order: the place of its commit, its object and its place there.
pub type Illegal = [u32; 3];

pub struct Streamed<'a> {
    objects: Vec<Object<'a>>,
    slot_of: Vec<u16>,
    slots: Vec<Slot>,
    free: Vec<u16>,
    /// For each slot and object the state that is seen, where it is of deferred update.
    views: Vec<u16>,
    texts: Texts,
    /// How many events there may still be, but for the ends of those that are open.
    room: usize,
    pub order: Vec<Text>,
    pub illegal: Option<Illegal>,
}

type Done<T> = Result<T, Refusal>;

impl<'a> Streamed<'a> {
    pub fn new(objects: &[ObjectLine], tables: &[&'a Type], most_events: usize) -> Streamed<'a> {
        let of = |(object, &table): (&ObjectLine, &&'a Type)| Object {
            table,
            kind: object.kind,
            state: table.initial,
            serial: table.initial,
            word: 0,
            held: [0; 64],
            entries: Vec::new(),
            gone: 0,
            closed: 0,
            viewers: Vec::new(),
            number: (object.kind == Kind::Escrow)
                .then(|| Box::new((Escrow::of(table), bounds_of(table)))),
        };
        Streamed {
            objects: objects.iter().zip(tables).map(of).collect(),
            slot_of: Vec::new(),
            slots: Vec::new(),
            free: Vec::new(),
            views: Vec::new(),
            texts: Texts::new(),
            room: most_events,
            order: Vec::new(),
            illegal: None,
        }
    }

    #[inline]
    fn slot(&self, t: u32) -> Done<u16> {
        match self.slot_of.get(t as usize) {
            Some(&slot) if slot != ENDED => Ok(slot),
            _ => Err(Refusal::NotOpen),
        }
    }

    #[inline]
    pub fn text(&self, slot: u16) -> Text {
        self.slots[slot as usize].text
    }

    pub fn begin(&mut self) -> Done<Text> {
        if self.slots.len() - self.free.len() >= MOST_OPEN {
            return Err(Refusal::TooManyOpen);
        }
        // the begin, and the end
        self.room = self.room.checked_sub(2).ok_or(Refusal::HistoryFull)?;
        let text = self.texts.next();
        let slot = match self.free.pop() {
            Some(slot) => slot,
            None => self.further_slot(text),
        };
        self.slots[slot as usize].text = text;
        self.slot_of.push(slot);
        Ok(text)
    }

    #[cold]
    fn further_slot(&mut self, text: Text) -> u16 {
        self.slots.push(Slot {
            text,
            own: Vec::new(),
        });
        self.views
            .resize(self.slots.len() * self.objects.len(), UNSEEN);
        self.slots.len() as u16 - 1
    }

    /// Calls what is found for an object: the bits of the call's operations, of which there are none where it has none. They
    /// come back between the transaction and the answer.
    #[inline]
    pub fn call(
        &mut self,
        t: u32,
        x: u32,
        find: impl Fn(usize) -> u64,
    ) -> Done<(Text, u64, Answer)> {
        let slot = self.slot(t)?;
        let many = self.objects.len();
        let object = self.objects.get_mut(x as usize).ok_or(Refusal::NoObject)?;
        let operations = find(x as usize);
        if operations == 0 {
            return Err(Refusal::NoCall);
        }
        self.room = self.room.checked_sub(1).ok_or(Refusal::HistoryFull)?;
        let text = self.slots[slot as usize].text;
        let done = match object.kind {
            Kind::Undo => object.call_table(slot, operations, &mut { UNSEEN }),
            Kind::Intentions => {
                let view = &mut self.views[slot as usize * many + x as usize];
                object.call_table(slot, operations, view)
            }
            Kind::Escrow => object.call_number(slot, operations),
        };
        let answer = match done {
            Ok((op, number)) => {
                self.slots[slot as usize].own.push(Own { x, op, number });
                Answer::Reply(op)
            }
            Err(Some(other)) => Answer::Busy(self.slots[other as usize].text),
            Err(None) => Answer::None,
        };
        Ok((text, operations, answer))
    }

    /// Where a transaction saw a state of its own, and now doesn't.
    #[inline]
    fn unsee(&mut self, slot: u16, x: u32) -> u16 {
        let many = self.objects.len();
        let view = std::mem::replace(&mut self.views[slot as usize * many + x as usize], UNSEEN);
        if view != UNSEEN {
            let viewers = &mut self.objects[x as usize].viewers;
            let place = viewers
                .iter()
                .position(|&other| other == slot)
                .expect("a viewer");
            viewers.swap_remove(place);
        }
        view
    }

    #[inline]
    fn end(&mut self, t: u32, slot: u16, mut own: Vec<Own>) -> Text {
        own.clear();
        self.slots[slot as usize].own = own;
        self.slot_of[t as usize] = ENDED;
        self.free.push(slot);
        self.slots[slot as usize].text
    }

    pub fn commit(&mut self, t: u32) -> Done<Text> {
        let slot = self.slot(t)?;
        let own = std::mem::take(&mut self.slots[slot as usize].own);
        for (at, &one) in own.iter().enumerate() {
            if self.objects[one.x as usize].kind == Kind::Intentions {
                self.install(slot, one);
            }
            let object = &mut self.objects[one.x as usize];
            match &mut object.number {
                Some(number) => number.0.commit(slot.into()),
                None => object.commit(one),
            }
            if self.illegal.is_none() {
                match object.table.next(object.serial, one.op) {
                    ILLEGAL => self.find_illegal(&own, at),
                    next => object.serial = next,
                }
            }
        }
        self.order.push(self.slots[slot as usize].text);
        Ok(self.end(t, slot, own))
    }

    /// Deferred update: the state that was seen becomes that of the object, and what others see goes on.
    #[inline]
    fn install(&mut self, slot: u16, own: Own) {
        let view = self.unsee(slot, own.x);
        let many = self.objects.len();
        let object = &mut self.objects[own.x as usize];
        if view != UNSEEN {
            object.state = view;
        }
        for &other in &object.viewers {
            let view = &mut self.views[other as usize * many + own.x as usize];
            *view = object.table.next(*view, own.op);
        }
    }

    /// The first illegal operation by objects, where that at a place is the first one in time.
    #[cold]
    fn find_illegal(&mut self, own: &[Own], at: usize) {
        let mut first = at;
        for (later, one) in own.iter().enumerate().skip(at + 1) {
            if one.x < own[first].x {
                let object = &mut self.objects[one.x as usize];
                match object.table.next(object.serial, one.op) {
                    ILLEGAL => first = later,
                    next => object.serial = next,
                }
            }
        }
        let x = own[first].x;
        let place = own[..first].iter().filter(|one| one.x == x).count() as u32;
        self.illegal = Some([self.order.len() as u32, x, place]);
    }

    /// Strikes a transaction's operations but the first ones, at each object once.
    fn strike(&mut self, slot: u16, own: &[Own], left: usize) {
        let many = self.objects.len();
        for (at, one) in own.iter().enumerate().skip(left) {
            if own[left..at].iter().any(|other| other.x == one.x) {
                continue;
            }
            let object = &mut self.objects[one.x as usize];
            let view = object.strike(slot, own, one.x, left);
            if object.kind == Kind::Intentions {
                match view {
                    Some(view) => self.views[slot as usize * many + one.x as usize] = view,
                    None => _ = self.unsee(slot, one.x),
                }
            }
        }
    }

    pub fn abort(&mut self, t: u32) -> Done<Text> {
        let slot = self.slot(t)?;
        let own = std::mem::take(&mut self.slots[slot as usize].own);
        self.strike(slot, &own, 0);
        Ok(self.end(t, slot, own))
    }

    pub fn rollback(&mut self, t: u32, n: u32) -> Done<Text> {
        let slot = self.slot(t)?;
        let many = self.slots[slot as usize].own.len();
        if n == 0 || n as usize > many {
            return Err(Refusal::BadRollback);
        }
        self.room = self.room.checked_sub(1).ok_or(Refusal::HistoryFull)?;
        let mut own = std::mem::take(&mut self.slots[slot as usize].own);
        self.strike(slot, &own, many - n as usize);
        own.truncate(many - n as usize);
        self.slots[slot as usize].own = own;
        Ok(self.text(slot))
    }

    /// The open transactions, ascending.
    pub fn open(&self) -> Vec<u32> {
        (0..self.slot_of.len() as u32)
            .filter(|&t| self.slot(t).is_ok())
            .collect()
    }

    /// Of each object the state that is kept and the serial one.
    pub fn states(&self) -> Vec<[u16; 2]> {
        self.objects
            .iter()
            .map(|object| {
                let number = object.number.as_ref();
                [
                    number.map_or(object.state, |number| number.0.base as u16),
                    object.serial,
                ]
            })
            .collect()
    }
}

//! The audit of a history.

use crate::output::Output;
use crate::store::{Event, EventKind};
use crate::types::{ILLEGAL, Type};
use std::io::{Result, Write};

/// In place of a slot: the transaction ended.
const ENDED: u32 = u32::MAX;

/// An operation at an object.
#[derive(Clone, Copy)]
struct Operation {
    x: u8,
    k: u8,
}

/// The operation that isn't legal in the serial order.
#[derive(Clone, Copy)]
pub struct Illegal {
    commit: u32,
    x: u32,
    place: u32,
}

pub enum Outcome {
    Serial { order: Vec<u32>, states: Vec<u16> },
    BadEvent(usize),
    IllegalOp(Illegal),
}

/// What was judged of a history so far.
pub struct Audit<'a> {
    tables: &'a [&'a Type],
    /// For each transaction that began its slot.
    slot_of: Vec<u32>,
    /// The operations of the open transactions, and empty lists.
    slots: Vec<Vec<Operation>>,
    free: Vec<u32>,
    order: Vec<u32>,
    states: Vec<u16>,
    illegal: Option<Illegal>,
}

impl<'a> Audit<'a> {
    pub fn new(tables: &'a [&'a Type]) -> Audit<'a> {
        Audit {
            tables,
            slot_of: Vec::new(),
            slots: Vec::new(),
            free: Vec::new(),
            order: Vec::new(),
            states: tables.iter().map(|table| table.initial).collect(),
            illegal: None,
        }
    }

    #[inline]
    fn slot(&self, t: u32) -> Option<u32> {
        self.slot_of
            .get(t as usize)
            .copied()
            .filter(|&slot| slot != ENDED)
    }

    #[inline]
    fn begin(&mut self, t: u32) -> Option<()> {
        if t as usize != self.slot_of.len() {
            return None;
        }
        let slot = self.free.pop().unwrap_or_else(|| {
            self.slots.push(Vec::new());
            self.slots.len() as u32 - 1
        });
        self.slot_of.push(slot);
        Some(())
    }

    #[inline]
    fn is_at(&self, x: u32, k: u8) -> bool {
        self.tables
            .get(x as usize)
            .is_some_and(|table| (k as usize) < table.op_count())
    }

    /// Takes an event in; none where it is bad.
    #[inline(always)]
    pub fn take(&mut self, event: &Event) -> Option<()> {
        match event.kind {
            EventKind::Begin { t } => self.begin(t)?,
            EventKind::Op { t, x, k } => {
                let slot = self.slot(t)?;
                self.is_at(x, k).then_some(())?;
                self.slots[slot as usize].push(Operation { x: x as u8, k });
            }
            EventKind::Busy { t, x, c, .. } | EventKind::None { t, x, c } => {
                self.slot(t)?;
                self.is_at(x, c).then_some(())?;
            }
            EventKind::Commit { t } => {
                let slot = self.slot(t)?;
                self.commit(t, slot);
                self.end(t, slot);
            }
            EventKind::Abort { t } => {
                let slot = self.slot(t)?;
                self.end(t, slot);
            }
            EventKind::Rollback { t, n } => {
                let slot = self.slot(t)?;
                let operations = &mut self.slots[slot as usize];
                let left = operations.len().checked_sub(n as usize)?;
                (n > 0).then_some(())?;
                operations.truncate(left);
            }
        }
        Some(())
    }

    #[inline]
    fn end(&mut self, t: u32, slot: u32) {
        self.slots[slot as usize].clear();
        self.free.push(slot);
        self.slot_of[t as usize] = ENDED;
    }

    /// Runs a transaction's operations on the serial states.
    #[inline(always)]
    fn commit(&mut self, t: u32, slot: u32) {
        self.order.push(t);
        if self.illegal.is_some() {
            return;
        }
        let operations = &self.slots[slot as usize];
        for (at, operation) in operations.iter().enumerate() {
            let x = operation.x as usize;
            let next = self.tables[x].next(self.states[x], operation.k);
            if next == ILLEGAL {
                return self.find_illegal(slot as usize, at);
            }
            self.states[x] = next;
        }
    }

    /// The first illegal operation by objects, where that at a place is the first one in time.
    #[cold]
    fn find_illegal(&mut self, slot: usize, at: usize) {
        let operations = &self.slots[slot];
        let mut first = at;
        for (later, operation) in operations.iter().enumerate().skip(at + 1) {
            let x = operation.x as usize;
            if operation.x < operations[first].x {
                match self.tables[x].next(self.states[x], operation.k) {
                    ILLEGAL => first = later,
                    next => self.states[x] = next,
                }
            }
        }
        let x = operations[first].x;
        let place = operations[..first]
            .iter()
            .filter(|operation| operation.x == x)
            .count() as u32;
        let commit = self.order.len() as u32 - 1;
        self.illegal = Some(Illegal {
            commit,
            x: u32::from(x),
            place,
        });
    }

    pub fn outcome(self) -> Outcome {
        match self.illegal {
            Some(illegal) => Outcome::IllegalOp(illegal),
            None => Outcome::Serial {
                order: self.order,
                states: self.states,
            },
        }
    }
}

/// Judges a whole history.
#[inline(never)]
pub fn audit(events: &[Event], tables: &[&Type]) -> Outcome {
    let mut audit = Audit::new(tables);
    for (at, event) in events.iter().enumerate() {
        if audit.take(event).is_none() {
            return Outcome::BadEvent(at);
        }
    }
    audit.outcome()
}

/// Writes the audit's lines, and answers whether it is a yes.
pub fn write_audit<W: Write>(outcome: &Outcome, output: &mut Output<W>) -> Result<bool> {
    match outcome {
        Outcome::Serial { order, states } => {
            output.line(b"# audit yes", [])?;
            for &t in order {
                output.line(b"# commit", [t])?;
            }
            for (x, &state) in states.iter().enumerate() {
                output.line(b"# serial", [x as u32, u32::from(state)])?;
            }
            Ok(true)
        }
        Outcome::BadEvent(at) => output
            .line(b"# audit no BadEvent", [*at as u32])
            .map(|()| false),
        Outcome::IllegalOp(illegal) => {
            let numbers = [illegal.commit, illegal.x, illegal.place];
            output
                .line(b"# audit no IllegalOp", numbers)
                .map(|()| false)
        }
    }
}

//! Update in place.

use crate::recovery::{Recovery, Seen};
use crate::types::Type;

/// An entry of the log, with the state before it.
#[derive(Clone, Copy)]
struct Entry {
    by: u32,
    before: u16,
    op: u8,
    done: bool,
}

/// The number of a transaction's open entries.
#[derive(Clone, Copy)]
struct Opened {
    by: u32,
    count: u32,
}

/// One state, and a log that is empty or begins with an open entry.
pub struct Undo {
    state: u16,
    log: Vec<Entry>,
    opened: Vec<Opened>,
}

impl Undo {
    #[inline]
    fn place(&self, t: u32) -> Option<usize> {
        self.opened.iter().position(|opened| opened.by == t)
    }

    /// The place from which on the log has the last m entries of t.
    #[inline]
    fn place_of_last(&self, t: u32, m: u32) -> usize {
        let mut left = m;
        let last = self.log.iter().rposition(|entry| {
            left -= u32::from(entry.by == t);
            left == 0
        });
        last.expect("as many entries")
    }

    /// Takes t's entries from this place on out, and runs the others there again.
    #[inline]
    fn rerun(&mut self, table: &Type, place: usize, t: u32) {
        let log = self.log.as_mut_slice();
        let mut state = log[place].before;
        let mut kept = place;
        for read in place..log.len() {
            let entry = log[read];
            if entry.by != t {
                let before = state;
                // SAFETY: no more are kept than were read.
                unsafe { *log.get_unchecked_mut(kept) = Entry { before, ..entry } };
                kept += 1;
                state = table.next(state, entry.op);
            }
        }
        self.log.truncate(kept);
        self.state = state;
    }

    /// Takes the leading done entries out.
    #[inline]
    fn settle(&mut self) {
        let front = self
            .log
            .iter()
            .position(|entry| !entry.done)
            .unwrap_or(self.log.len());
        if front > 0 {
            self.log.drain(..front);
        }
    }
}

impl Recovery for Undo {
    fn new(table: &Type) -> Undo {
        Undo {
            state: table.initial,
            log: Vec::new(),
            opened: Vec::new(),
        }
    }

    fn state(&self) -> u16 {
        self.state
    }

    #[inline]
    fn seen(&self, _t: u32) -> Seen {
        Seen {
            state: self.state,
            place: 0,
        }
    }

    #[inline]
    fn apply(&mut self, seen: Seen, t: u32, k: u8, next: u16) {
        self.log.push(Entry {
            by: t,
            before: seen.state,
            op: k,
            done: false,
        });
        self.state = next;
        match self.place(t) {
            Some(place) => self.opened[place].count += 1,
            None => self.opened.push(Opened { by: t, count: 1 }),
        }
    }

    #[inline]
    fn commit(&mut self, _table: &Type, t: u32) {
        let Some(place) = self.place(t) else { return };
        let count = self.opened.swap_remove(place).count;
        let own = self.log.iter_mut().rev().filter(|entry| entry.by == t);
        own.take(count as usize).for_each(|entry| entry.done = true);
        self.settle();
    }

    #[inline]
    fn abort(&mut self, table: &Type, t: u32) {
        let Some(place) = self.place(t) else { return };
        let count = self.opened.swap_remove(place).count;
        let from = self.place_of_last(t, count);
        self.rerun(table, from, t);
        self.settle();
    }

    #[inline]
    fn strike(&mut self, table: &Type, t: u32, m: u32) {
        let Some(place) = self.place(t) else { return };
        let opened = &mut self.opened[place];
        opened.count -= m;
        if opened.count == 0 {
            self.opened.swap_remove(place);
        }
        let from = self.place_of_last(t, m);
        self.rerun(table, from, t);
        self.settle();
    }
}

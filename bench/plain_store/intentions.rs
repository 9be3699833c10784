//! Deferred update.

use crate::recovery::{Recovery, Seen};
use crate::types::Type;

/// An entry of the log.
#[derive(Clone, Copy)]
struct Entry {
    by: u32,
    op: u8,
}

/// What an open transaction sees, and how many entries of the log are its own.
#[derive(Clone, Copy)]
struct View {
    by: u32,
    state: u16,
    count: u32,
}

/// The state of the committed transactions, and of each open one what it sees, in the order of their
/// numbers.
pub struct Intentions {
    base: u16,
    log: Vec<Entry>,
    views: Vec<View>,
}

impl Intentions {
    /// The place of t's view, or where it would be.
    #[inline]
    fn place(&self, t: u32) -> Result<usize, usize> {
        self.views.binary_search_by_key(&t, |view| view.by)
    }

    /// The place from which on the log has the last m entries of t.
    #[inline]
    fn place_of_last(&self, t: u32, m: u32) -> usize {
        let mut left = m;
        let last = self.log.iter().rposition(|entry| {
            left -= u32::from(entry.by == t);
            left == 0
        });
        last.expect("as many entries")
    }

    /// Takes t's entries from this place on out, and does this for each of them.
    #[inline]
    fn take_out(&mut self, from: usize, t: u32, mut each: impl FnMut(&mut [View], u8)) {
        let log = self.log.as_mut_slice();
        let mut kept = from;
        for read in from..log.len() {
            let entry = log[read];
            if entry.by == t {
                each(&mut self.views, entry.op);
            } else {
                // SAFETY: no more are kept than were read.
                unsafe { *log.get_unchecked_mut(kept) = entry };
                kept += 1;
            }
        }
        self.log.truncate(kept);
    }

    /// The state after t's entries, of which there are this many.
    #[inline]
    fn walk(&self, table: &Type, t: u32, count: u32) -> u16 {
        let from = self.place_of_last(t, count);
        let own = self.log[from..].iter().filter(|entry| entry.by == t);
        own.fold(self.base, |state, entry| table.next(state, entry.op))
    }
}

impl Recovery for Intentions {
    fn new(table: &Type) -> Intentions {
        Intentions {
            base: table.initial,
            log: Vec::new(),
            views: Vec::new(),
        }
    }

    fn state(&self) -> u16 {
        self.base
    }

    #[inline]
    fn seen(&self, t: u32) -> Seen {
        match self.place(t) {
            Ok(place) => Seen {
                state: self.views[place].state,
                place,
            },
            Err(place) => Seen {
                state: self.base,
                place,
            },
        }
    }

    #[inline]
    fn apply(&mut self, seen: Seen, t: u32, k: u8, next: u16) {
        self.log.push(Entry { by: t, op: k });
        match self.views.get_mut(seen.place) {
            Some(view) if view.by == t => {
                view.state = next;
                view.count += 1;
            }
            _ => {
                let first = View {
                    by: t,
                    state: next,
                    count: 1,
                };
                self.views.insert(seen.place, first);
            }
        }
    }

    #[inline]
    fn commit(&mut self, table: &Type, t: u32) {
        let Ok(place) = self.place(t) else { return };
        let view = self.views.remove(place);
        self.base = view.state;
        let from = self.place_of_last(t, view.count);
        self.take_out(from, t, |views, k| {
            views
                .iter_mut()
                .for_each(|other| other.state = table.next(other.state, k));
        });
    }

    #[inline]
    fn abort(&mut self, _table: &Type, t: u32) {
        let Ok(place) = self.place(t) else { return };
        let view = self.views.remove(place);
        let from = self.place_of_last(t, view.count);
        self.take_out(from, t, |_, _| ());
    }

    #[inline]
    fn strike(&mut self, table: &Type, t: u32, m: u32) {
        let Ok(place) = self.place(t) else { return };
        let from = self.place_of_last(t, m);
        self.take_out(from, t, |_, _| ());
        let count = self.views[place].count - m;
        if count == 0 {
            self.views.remove(place);
            return;
        }
        let state = self.walk(table, t, count);
        self.views[place] = View {
            by: t,
            state,
            count,
        };
    }
}

//! A lock on the whole object, which a transaction holds from its call to its end.

use std::sync::Mutex;
use std::time::Duration;

use crate::store::{Event, EventKind};
use crate::types::{ILLEGAL, Type};
use crate::{Job, Reply, Told, Work};

/// The object's state and what happened.
struct Shared {
    state: u16,
    begun: u32,
    history: Vec<Event>,
}

impl Shared {
    fn note(&mut self, worker: u8, kind: EventKind) {
        self.history.push(Event { worker, kind });
    }

    /// The first operation of the call that is legal now, with the next state.
    fn reply(&self, table: &Type, c: u8) -> Option<(u8, u16)> {
        let mut left = table.call(c)?.operations;
        while left != 0 {
            let k = left.trailing_zeros() as u8;
            left &= left - 1;
            let next = table.next(self.state, k);
            if next != ILLEGAL {
                return Some((k, next));
            }
        }
        None
    }
}

/// A job, tried once: its transaction, and what its call was answered.
fn try_once(shared: &Mutex<Shared>, work: &Work, w: u8, c: u8) -> (u32, Reply) {
    let mut held = shared.lock().expect("a lock");
    let t = held.begun;
    held.begun += 1;
    held.note(w, EventKind::Begin { t });
    if let Some((k, next)) = held.reply(work.table, c) {
        held.state = next;
        held.note(w, EventKind::Op { t, x: 0, k });
        work.think();
        held.note(w, EventKind::Commit { t });
        (t, Reply::Legal)
    } else {
        held.note(w, EventKind::None { t, x: 0, c });
        work.think();
        held.note(w, EventKind::Abort { t });
        (t, Reply::None)
    }
}

pub fn run(work: Work, jobs: Vec<Vec<Job>>) -> (Duration, Vec<Told>) {
    let shared = Mutex::new(Shared {
        state: work.table.initial,
        begun: 0,
        history: Vec::new(),
    });
    crate::run(jobs, &|w, jobs| {
        work.all(jobs, |c, _broken| try_once(&shared, &work, w, c))
    })
}

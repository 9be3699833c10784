//! A number in escrow, as one would write it by hand: sums of what open transactions take and give, under
//! one lock, which is held for one call. Each transaction makes one call, so what it takes and gives is all
//! that it did, and its rollbacks needn't be thought of.

use std::sync::Mutex;
use std::time::Duration;

use crate::store::{Event, EventKind};
use crate::types::{ILLEGAL, Type};
use crate::{Job, Reply, Told, Work};

/// From where to where an operation is legal, and how it moves the number.
#[derive(Clone, Copy)]
struct Bounded {
    low: i64,
    high: i64,
    moves: i64,
}

/// The bounds of an operation that is legal somewhere.
fn bounded(table: &Type, states: u16, k: u8) -> Bounded {
    let legal = |s: &u16| table.next(*s, k) != ILLEGAL;
    let low = (0..states).find(legal).expect("a state");
    let high = (0..states).rev().find(legal).expect("a state");
    let moves = i64::from(table.next(low, k)) - i64::from(low);
    Bounded {
        low: low.into(),
        high: high.into(),
        moves,
    }
}

/// An open transaction that moved the number, and by how much.
struct Open {
    t: u32,
    moves: i64,
}

/// An event that a worker made, and its place.
#[allow(dead_code)]
struct Receipt {
    position: usize,
    event: Event,
}

/// The number that is committed, what the open transactions take and give together, what happened, and
/// what each worker noted.
struct Shared {
    number: i64,
    takes: i64,
    gives: i64,
    open: Vec<Open>,
    begun: u32,
    history: Vec<Event>,
    receipts: Vec<Vec<Receipt>>,
}

impl Shared {
    fn note(&mut self, worker: u8, kind: EventKind) {
        let event = Event { worker, kind };
        let position = self.history.len();
        self.history.push(event);
        self.receipts[worker as usize].push(Receipt { position, event });
    }

    fn begin(&mut self, w: u8) -> u32 {
        let t = self.begun;
        self.begun += 1;
        self.note(w, EventKind::Begin { t });
        t
    }

    /// Whether it is legal whatever the open transactions come to.
    fn is_admitted(&self, op: Bounded) -> bool {
        self.number - self.takes >= op.low && self.number + self.gives <= op.high
    }

    fn call(&mut self, w: u8, t: u32, c: u8, ops: &[(u8, Bounded)]) -> Reply {
        let mut blocked = false;
        for &(k, op) in ops {
            if (op.low..=op.high).contains(&self.number) {
                if self.is_admitted(op) {
                    self.apply(t, op.moves);
                    self.note(w, EventKind::Op { t, x: 0, k });
                    return Reply::Legal;
                }
                blocked = true;
            }
        }
        match self.open.first() {
            Some(first) if blocked => {
                let u = first.t;
                self.note(w, EventKind::Busy { t, x: 0, c, u });
                Reply::Busy
            }
            _ => {
                self.note(w, EventKind::None { t, x: 0, c });
                Reply::None
            }
        }
    }

    fn apply(&mut self, t: u32, moves: i64) {
        self.takes += (-moves).max(0);
        self.gives += moves.max(0);
        self.open.push(Open { t, moves });
    }

    fn end(&mut self, w: u8, t: u32, commits: bool) {
        if let Some(place) = self.open.iter().position(|open| open.t == t) {
            let moves = self.open.remove(place).moves;
            self.takes -= (-moves).max(0);
            self.gives -= moves.max(0);
            if commits {
                self.number += moves;
            }
        }
        let kind = if commits {
            EventKind::Commit { t }
        } else {
            EventKind::Abort { t }
        };
        self.note(w, kind);
    }
}

/// The operations of each call by its number, with their bounds.
fn operations(table: &Type, states: u16) -> Vec<Vec<(u8, Bounded)>> {
    let of_call = |c: u8| -> Vec<(u8, Bounded)> {
        let word = table.call(c).map_or(0, |call| call.operations);
        let ops = (0..64u8).filter(|k| word >> k & 1 == 1);
        ops.map(|k| (k, bounded(table, states, k))).collect()
    };
    (0..table.op_count() as u8).map(of_call).collect()
}

pub fn run(work: Work, states: u16, jobs: Vec<Vec<Job>>) -> (Duration, Vec<Told>) {
    let ops = operations(work.table, states);
    let shared = Mutex::new(Shared {
        number: work.table.initial.into(),
        takes: 0,
        gives: 0,
        open: Vec::new(),
        begun: 0,
        history: Vec::new(),
        receipts: jobs.iter().map(|_| Vec::new()).collect(),
    });
    let take = || shared.lock().expect("a lock");
    crate::run(jobs, &|w, jobs| {
        work.all(jobs, |c, _broken| {
            let t = take().begin(w);
            let reply = take().call(w, t, c, &ops[usize::from(c)]);
            work.think();
            take().end(w, t, reply == Reply::Legal);
            (t, reply)
        })
    })
}

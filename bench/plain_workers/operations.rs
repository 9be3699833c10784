//! Locks of operations: the plain store under one lock, which is held for one call.

use std::sync::{Arc, Mutex};
use std::time::Duration;

use crate::recovery::Recovery;
use crate::store::{Answer, Object, Store};
use crate::types::Type;
use crate::waiting::Manner;
use crate::{Job, Reply, Told, Work};

/// The most events of a history.
const MOST_EVENTS: usize = 1_000_000;

/// An event that a worker made, and its place.
#[allow(dead_code)]
struct Receipt {
    position: usize,
    event: crate::store::Event,
}

/// A store, and what each worker noted.
struct Shared<R> {
    store: Store<R>,
    receipts: Vec<Vec<Receipt>>,
}

impl<R: Recovery> Shared<R> {
    fn note(&mut self, w: u8) {
        let history = self.store.history();
        let position = history.len() - 1;
        let event = history[position];
        self.receipts[w as usize].push(Receipt { position, event });
    }

    fn begin(&mut self, w: u8) -> u32 {
        let t = self.store.begin(w).ok().expect("room in the history");
        self.note(w);
        t
    }

    fn call(&mut self, w: u8, t: u32, c: u8) -> Reply {
        let answer = self.store.call_op(w, t, 0, c);
        self.note(w);
        match answer.ok().expect("room in the history") {
            Answer::Reply(_) => Reply::Legal,
            Answer::Busy(_) => Reply::Busy,
            Answer::None => Reply::None,
        }
    }

    fn end(&mut self, w: u8, t: u32, commits: bool) {
        let ended = if commits {
            self.store.commit(w, t)
        } else {
            self.store.abort(w, t)
        };
        ended.ok().expect("an open transaction");
        self.note(w);
    }
}

/// A job, tried once: its transaction, and what its call was answered. Each call takes the lock for
/// itself.
fn try_once<R: Recovery, M: Manner>(
    shared: &Mutex<Shared<R>>,
    work: &Work,
    w: u8,
    c: u8,
) -> (u32, Reply) {
    let t = M::take(shared).begin(w);
    let reply = M::take(shared).call(w, t, c);
    work.think();
    M::take(shared).end(w, t, reply == Reply::Legal);
    (t, reply)
}

pub fn run<R: Recovery + Send, M: Manner>(
    table: &Arc<Type>,
    work: Work,
    jobs: Vec<Vec<Job>>,
) -> (Duration, Vec<Told>) {
    let shared = Mutex::new(Shared {
        store: Store::new(vec![Object::<R>::new(Arc::clone(table))], MOST_EVENTS),
        receipts: jobs.iter().map(|_| Vec::new()).collect(),
    });
    crate::run(jobs, &|w, jobs| {
        work.all(jobs, |c, broken| {
            M::wait_for_a_try(broken);
            try_once::<R, M>(&shared, &work, w, c)
        })
    })
}

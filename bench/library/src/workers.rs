//! Workers at one object. One lock is round the store, and taken for each turn, which is one call of the store; who finds
//! it held, or whose try is broken, pauses as `run_workers` of crates/workers does.

use crate::Told;
use crate::waiting::{Manner, Pausing};
use colock::{Reply, Store, Type};
use std::sync::Mutex;
use std::thread;
use std::time::{Duration, Instant};

/// The most events of a history.
const MOST_EVENTS: u64 = 1_000_000;

/// How a worker goes about its jobs, which are one call each.
pub struct Work<'a> {
    tries: u32,
    sleep: Duration,
    calls: &'a [&'a str],
}

/// How many jobs committed, and how many calls were answered `Busy` and `None`.
#[derive(Default)]
struct Outcome {
    commits: u64,
    busy: u64,
    none: u64,
}

impl<'a> Work<'a> {
    /// Each job is tried this often at most. Between a call and the end of its transaction a worker sleeps this many
    /// microseconds.
    pub fn new(tries: u32, sleep: u64, calls: &'a [&'a str]) -> Work<'a> {
        Work {
            tries,
            sleep: Duration::from_micros(sleep),
            calls,
        }
    }

    /// Tries a job once. Each turn takes the lock for itself.
    fn try_once(&self, store: &Mutex<Store>, w: u8, call: &str) -> Reply {
        let id = Pausing::take(store)
            .begin_as(w)
            .expect("room in the history")
            .leave();
        let reply = {
            let held = Pausing::take(store);
            let mut transaction = held.resume(id).expect("an open transaction");
            let reply = transaction.call(0, call).expect("room in the history");
            transaction.leave();
            reply
        };
        if !self.sleep.is_zero() {
            thread::sleep(self.sleep);
        }
        let held = Pausing::take(store);
        let transaction = held.resume(id).expect("an open transaction");
        let ended = if matches!(reply, Reply::Operation(_)) {
            transaction.commit()
        } else {
            transaction.abort()
        };
        ended.expect("an open transaction");
        reply
    }

    /// All jobs of a worker, each tried until its call has a reply.
    fn all(&self, store: &Mutex<Store>, w: u8, jobs: usize) -> Outcome {
        let mut outcome = Outcome::default();
        for job in 0..jobs {
            let call = self.calls[(usize::from(w) + job) % self.calls.len()];
            for broken in 0..self.tries {
                Pausing::wait_for_a_try(broken);
                match self.try_once(store, w, call) {
                    Reply::Operation(_) => {
                        outcome.commits += 1;
                        break;
                    }
                    Reply::Busy { .. } => outcome.busy += 1,
                    Reply::Illegal => outcome.none += 1,
                }
            }
        }
        outcome
    }

    /// Lets this many workers do this many jobs each: prints the nanoseconds from the first one's start to the last one's
    /// end, and what came of the jobs.
    pub fn measure(&self, of: &Type, workers: u8, jobs: usize) -> Told {
        let store = Mutex::new(Store::new([of], MOST_EVENTS)?);
        let start = Instant::now();
        let outcomes: Vec<Outcome> = thread::scope(|scope| {
            let start_one = |w| {
                scope.spawn({
                    let store = &store;
                    move || self.all(store, w, jobs)
                })
            };
            let threads: Vec<_> = (0..workers).map(start_one).collect();
            threads
                .into_iter()
                .map(|thread| thread.join().expect("a worker"))
                .collect()
        });
        let time = start.elapsed().as_nanos();
        let sum = |of: fn(&Outcome) -> u64| outcomes.iter().map(of).sum::<u64>();
        println!(
            "nanoseconds {time}\ncommits {}\nbusy {}\nnone {}",
            sum(|it| it.commits),
            sum(|it| it.busy),
            sum(|it| it.none)
        );
        Ok(())
    }
}

//! Plain workers over one object, to compare with: the same jobs under a lock on the whole object that
//! is held to the end of the transaction, over the plain store, whose locks are those of operations, and at a
//! plain number in escrow.
//!
//! `plain_workers LOCK KIND FILE WORKERS JOBS TRIES MICROSECONDS CALL...` prints the nanoseconds from
//! the first worker's start to the last one's end, how many jobs committed, and how many calls were
//! answered `Busy` and `None`. LOCK is `object`,
//! `operations` or `escrow`. Each worker has a list of JOBS jobs. A
//! job is a begin, one of the CALLs in turn, and a commit, and is tried TRIES times at most: where the
//! call has no reply, the transaction aborts. Between the call and the end the worker sleeps MICROSECONDS
//! microseconds. Built with `--cfg pausing`, a worker waits as those of `run_workers` do.

#[path = "../plain_store/intentions.rs"]
mod intentions;
#[path = "../plain_store/locks.rs"]
mod locks;
#[path = "../plain_store/recovery.rs"]
mod recovery;
#[allow(dead_code)]
#[path = "../plain_store/store.rs"]
mod store;
#[path = "../plain_store/transactions.rs"]
mod transactions;
#[allow(dead_code)]
#[path = "../plain_store/types.rs"]
mod types;
#[path = "../plain_store/undo.rs"]
mod undo;

mod escrow;
mod object;
mod operations;
#[allow(dead_code)]
mod waiting;

use std::sync::Arc;
use std::thread;
use std::time::{Duration, Instant};

use intentions::Intentions;
use types::{Call, Type};
use undo::Undo;
#[cfg(not(pausing))]
use waiting::AtOnce as Waiting;
#[cfg(pausing)]
use waiting::Pausing as Waiting;

/// The name of a call, of at most 32 bytes.
pub struct Name {
    bytes: [u8; 32],
    len: u8,
}

impl Name {
    fn new(text: &str) -> Name {
        let mut bytes = [0; 32];
        bytes[..text.len()].copy_from_slice(text.as_bytes());
        let len = text.len() as u8;
        Name { bytes, len }
    }

    fn as_bytes(&self) -> &[u8] {
        &self.bytes[..usize::from(self.len)]
    }
}

/// A transaction that a worker is to run: its calls, each at an object by its place.
pub struct Job {
    calls: Vec<(u32, Name)>,
}

/// How a worker goes about its jobs.
#[derive(Clone, Copy)]
pub struct Work<'a> {
    pub table: &'a Type,
    pub tries: u32,
    pub sleep: Duration,
}

impl Work<'_> {
    /// Between a call and the end of its transaction.
    pub fn think(&self) {
        if !self.sleep.is_zero() {
            thread::sleep(self.sleep);
        }
    }

    /// The number of a job's one call.
    fn call(&self, job: &Job) -> u8 {
        let (_, name) = &job.calls[0];
        let named = |call: &&Call| call.name.as_bytes() == name.as_bytes();
        self.table.calls.iter().find(named).expect("a call").first
    }

    /// Does all jobs of a worker, each tried until its call has a reply. A try is handed the number of
    /// the call, and how many tries of the job were broken.
    pub fn all(&self, jobs: Vec<Job>, mut try_once: impl FnMut(u8, u32) -> (u32, Reply)) -> Told {
        let mut told = Told {
            outcomes: Vec::with_capacity(jobs.len()),
            ..Told::default()
        };
        for job in jobs {
            let c = self.call(&job);
            let mut outcome = Outcome::GaveUp;
            for broken in 0..self.tries {
                let (t, reply) = try_once(c, broken);
                told.note(reply);
                if reply == Reply::Legal {
                    outcome = Outcome::Committed(t);
                    break;
                }
            }
            told.outcomes.push(outcome);
        }
        told
    }
}

/// What a call was answered.
#[derive(Clone, Copy, PartialEq, Eq)]
pub enum Reply {
    Legal,
    Busy,
    None,
}

/// What came of a job.
#[derive(Clone, Copy)]
pub enum Outcome {
    #[allow(dead_code)]
    Committed(u32),
    GaveUp,
}

/// What came of a worker's jobs, and how many calls were answered `Busy` and `None`.
#[derive(Default)]
pub struct Told {
    pub outcomes: Vec<Outcome>,
    pub busy: u64,
    pub none: u64,
}

impl Told {
    fn note(&mut self, reply: Reply) {
        match reply {
            Reply::Legal => {}
            Reply::Busy => self.busy += 1,
            Reply::None => self.none += 1,
        }
    }

    fn commits(&self) -> usize {
        let committed = |outcome: &&Outcome| matches!(outcome, Outcome::Committed(_));
        self.outcomes.iter().filter(committed).count()
    }
}

/// Lets each worker do its jobs, in a thread: the time that it took, and what came of it.
pub fn run(
    jobs: Vec<Vec<Job>>,
    work: &(impl Fn(u8, Vec<Job>) -> Told + Sync),
) -> (Duration, Vec<Told>) {
    let start = Instant::now();
    let told = thread::scope(|scope| {
        let start_one = |(w, jobs)| scope.spawn(move || work(w, jobs));
        let threads: Vec<_> = (0..).zip(jobs).map(start_one).collect();
        let ends = threads.into_iter().map(|thread| thread.join());
        ends.map(|told| told.expect("a worker")).collect()
    });
    (start.elapsed(), told)
}

/// The jobs of each worker: one call each, which are taken in turn.
fn jobs_of(workers: usize, jobs: usize, names: &[String]) -> Vec<Vec<Job>> {
    let job = |place: usize| Job {
        calls: vec![(0, Name::new(&names[place % names.len()]))],
    };
    let list = |w| (0..jobs).map(|n| job(w + n)).collect();
    (0..workers).map(list).collect()
}

/// How many states a type file says that its type has.
fn states_of(text: &str) -> u16 {
    let line = text.lines().find_map(|line| line.strip_prefix("states "));
    number(line.expect("a number of states"))
}

fn number<T: std::str::FromStr>(word: &str) -> T {
    word.parse().ok().expect("a number")
}

fn main() {
    let words: Vec<String> = std::env::args().skip(1).collect();
    let [lock, kind, path, workers, jobs, tries, sleep, names @ ..] = words.as_slice() else {
        panic!("LOCK KIND FILE WORKERS JOBS TRIES MICROSECONDS CALL...")
    };
    let text = std::fs::read_to_string(path).expect("a file");
    let table = Arc::new(Type::read(&text, kind));
    let jobs = jobs_of(number(workers), number(jobs), names);
    let work = Work {
        table: &table,
        tries: number(tries),
        sleep: Duration::from_micros(number(sleep)),
    };
    let (time, told) = match (lock.as_str(), kind.as_str()) {
        ("object", _) => object::run(work, jobs),
        ("escrow", _) => escrow::run(work, states_of(&text), jobs),
        (_, "undo") => operations::run::<Undo, Waiting>(&table, work, jobs),
        _ => operations::run::<Intentions, Waiting>(&table, work, jobs),
    };
    println!("nanoseconds {}", time.as_nanos());
    println!("commits {}", told.iter().map(Told::commits).sum::<usize>());
    println!("busy {}", told.iter().map(|told| told.busy).sum::<u64>());
    println!("none {}", told.iter().map(|told| told.none).sum::<u64>());
}

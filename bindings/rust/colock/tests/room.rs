//! Where as many transactions are open as may be, a retry waits for the end of one; in memory and over a child.

#[macro_use]
mod common;

use colock::{Error, Retry, SharedStore, SharedTransaction};
use common::{filled, until, Make};
use std::sync::atomic::{AtomicU64, Ordering};
use std::sync::Mutex;
use std::thread;
use std::time::Duration;

const SHORT: Duration = Duration::from_millis(30);

over_both![a_retry_waits_for_room, an_end_makes_room_for_one];

/// Transactions up to this many that are open, each of which has begun.
fn crowd(store: &SharedStore, all: u64) -> Vec<SharedTransaction<'_>> {
    let open = store.open_count().unwrap();
    let begun = |_| store.begin().inspect(|t| assert!(t.begun().is_ok())).unwrap();
    (open..all).map(begun).collect()
}

fn counts_up(store: &SharedStore) -> Result<(), Error> {
    store.retry(&Retry { tries: 1, ..Retry::default() }, |t| t.expect(0, "inc:1", "ok")).map(drop)
}

fn a_retry_waits_for_room(make: Make) {
    let store = filled(make, 1);
    let mut open = crowd(&store, 1024);
    assert_eq!(store.begin().err(), Some(Error::TooManyOpen));
    thread::scope(|scope| {
        let waiting: Vec<_> = (0..8).map(|_| scope.spawn(|| counts_up(&store))).collect();
        thread::sleep(SHORT);
        assert!(waiting.iter().all(|thread| !thread.is_finished()));
        // the end of each makes room for the next
        drop(open.pop());
        waiting.into_iter().for_each(|thread| assert_eq!(thread.join().unwrap(), Ok(())));
    });
    assert_eq!((store.open_count(), store.kept(0)), (Ok(1023), Ok(508)));
    assert!(store.begin().is_ok());
}

fn an_end_makes_room_for_one(make: Make) {
    let store = filled(make, 1);
    let mut open = crowd(&store, 1024);
    let (inside, out) = (AtomicU64::new(0), Mutex::new(()));
    let stay = |t: &mut SharedTransaction<'_>| {
        inside.fetch_add(1, Ordering::Relaxed);
        drop(out.lock());
        t.expect(0, "inc:1", "ok")
    };
    thread::scope(|scope| {
        let closed = out.lock().unwrap();
        let waiting: Vec<_> = (0..4).map(|_| scope.spawn(|| store.retry(&Retry::default(), stay))).collect();
        for count in 1..=3 {
            open.pop().unwrap().abort().unwrap();
            until(|| inside.load(Ordering::Relaxed) >= count);
            thread::sleep(SHORT);
            assert_eq!(inside.load(Ordering::Relaxed), count);
        }
        drop(closed);
        waiting.into_iter().for_each(|thread| assert!(thread.join().unwrap().is_ok()));
    });
    assert_eq!((store.open_count(), store.kept(0)), (Ok(1021), Ok(504)));
}

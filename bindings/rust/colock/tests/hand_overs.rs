//! How many are woken where many wait for one object.

mod common;

use colock::{Kind, Type};
use common::{in_memory, over_a_child, until_asleep, Make, LONG};
use std::thread;

/// How many wait.
const WAITING: u64 = 100;

/// How often somebody was woken who had to sleep again, while an object went from each that waits to the next.
fn woken_in_vain(make: Make) -> u64 {
    // an up keeps out each other one
    let store = make(&[&Type::counter(200, &[1], Kind::Intentions).unwrap()]);
    let mut holder = store.begin().unwrap();
    holder.expect(0, "inc:1", "ok").unwrap();
    thread::scope(|scope| {
        for _ in 0..WAITING {
            scope.spawn(|| {
                let mut t = store.begin().unwrap();
                t.expect_within(0, "inc:1", "ok", LONG).unwrap();
                t.commit().unwrap();
            });
        }
        until_asleep(&store, WAITING);
        holder.commit().unwrap();
    });
    assert_eq!((store.kept(0), store.stats().commits), (Ok(WAITING + 1), WAITING + 1));
    // each has slept once before
    store.stats().waits - WAITING
}

#[test]
fn nobody_is_woken_in_vain() {
    assert_eq!(woken_in_vain(in_memory), 0);
}

/// Over a child each asks by itself, and the next one may do so before the one before it has ended.
#[test]
fn over_a_child_few_are_woken_in_vain() {
    let count = woken_in_vain(over_a_child);
    assert!(count <= 2 * WAITING, "{count}");
}

//! Sixteen threads on one store behind a lock.

use colock::{Event, Kind, Reply, Store, Type};
use std::sync::Mutex;

const ROUNDS: u64 = 300;

/// Two calls and a commit, the lock taken anew for each. Whether it committed.
fn try_once(store: &Mutex<Store>, worker: u8, drawn: u64) -> bool {
    let id = store.lock().unwrap().begin_as(worker).unwrap().leave();
    for call in 0..2 {
        let guard = store.lock().unwrap();
        let mut t = guard.resume(id).unwrap();
        let name = if (drawn >> call) & 1 == 0 { "inc:1" } else { "dec:1" };
        match t.call((drawn >> (4 + call)) as u32 % 4, name).unwrap() {
            Reply::Operation(_) => t.leave(),
            Reply::Busy { .. } | Reply::Illegal => return false, // and the drop aborts it
        };
    }
    store.lock().unwrap().resume(id).unwrap().commit().unwrap();
    true
}

#[test]
fn sixteen_threads() {
    let counter = Type::counter(1000, &[1], Kind::Undo).unwrap();
    let store = Mutex::new(Store::new([&counter; 4], u32::MAX.into()).unwrap());
    std::thread::scope(|scope| {
        for worker in 0..16u8 {
            let store = &store;
            scope.spawn(move || {
                let (mut drawn, mut done) = (u64::from(worker) + 1, 0);
                while done < ROUNDS {
                    drawn = drawn.wrapping_mul(6364136223846793005).wrapping_add(1442695040888963407);
                    done += u64::from(try_once(store, worker, drawn >> 33));
                }
            });
        }
    });
    let store = store.into_inner().unwrap();
    let commits = store.events(0).unwrap().into_iter().filter(|event| matches!(event, Event::Commit { .. })).count();
    assert_eq!((commits as u64, store.open_count()), (16 * ROUNDS, 0));
    let other = Store::new([&counter; 4], u32::MAX.into()).unwrap();
    other.follow(&store.events(0).unwrap()).unwrap();
    for x in 0..4 {
        assert_eq!(other.kept(x), store.kept(x));
    }
}

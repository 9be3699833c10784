//! Stores with limits of their own, in memory: each limit on both sides, and the most that may be.

mod common;

use colock::{Error, Kind, Limits, Retry, SharedStore, Store, Type};
use common::{until, until_asleep, Telling, Told, LONG};
use std::iter::repeat_n;
use std::thread;
use std::time::Duration;

/// The most open transactions, and the most objects.
const MOST: u32 = 65_536;

fn counter() -> Type {
    Type::counter(2, &[1], Kind::Undo).unwrap()
}

fn limits(open: u32, objects: u32) -> Limits {
    Limits { open, objects, ..Limits::STANDARD }
}

fn shared(of: &Type, open: u32, objects: u32) -> SharedStore {
    SharedStore::with_limits(repeat_n(of, objects as usize), limits(open, objects)).unwrap()
}

#[test]
fn limits_have_ranges() {
    let counter = counter();
    let refused = |limits| (Store::with_limits([&counter; 2], limits).err(), SharedStore::with_limits([&counter; 2], limits).err());
    for (limits, error) in [
        (Limits { events: 1, ..Limits::STANDARD }, Error::BadMax),
        (Limits { events: 1 << 32, ..Limits::STANDARD }, Error::BadMax),
        (Limits { events: u64::MAX, ..Limits::STANDARD }, Error::BadMax),
        (limits(0, 2), Error::BadMax),
        (limits(MOST + 1, 2), Error::BadMax),
        (limits(1, MOST + 1), Error::BadMax),
        (limits(1, 1), Error::TooManyObjects),
        (limits(0, 0), Error::TooManyObjects), // the first that holds
    ] {
        assert_eq!(refused(limits), (Some(error.clone()), Some(error)), "{limits:?}");
    }
    for limits in [Limits { events: 2, open: 1, objects: 2, outcomes: 0 }, Limits { events: u32::MAX.into(), open: MOST, objects: MOST, outcomes: u32::MAX }] {
        assert_eq!(refused(limits), (None, None));
    }
    assert_eq!(Store::with_limits([&counter; 0], Limits { events: 0, ..limits(0, 0) }).err(), Some(Error::NoObjects));
    assert_eq!(Error::BadMax.to_string(), "a limit of the store is out of its range");
}

#[test]
fn as_many_objects_as_may_be() {
    let counter = counter();
    let objects = |count: u32| repeat_n(&counter, count as usize);
    assert_eq!(Store::with_limits(objects(MOST), limits(1, MOST - 1)).err(), Some(Error::TooManyObjects));
    assert_eq!(Store::with_limits(objects(MOST + 1), limits(1, MOST)).err(), Some(Error::TooManyObjects));
    let store = Store::with_limits(objects(MOST), limits(1, MOST)).unwrap();
    let mut t = store.begin().unwrap();
    assert!((0..MOST).rev().all(|x| t.call(x, "inc:1").told() == Ok(Told::Operation(0.into()))));
    assert_eq!((t.call(MOST, "inc:1"), t.rollback(u64::from(MOST) + 1)), (Err(Error::NoObject), Err(Error::BadRollback)));
    t.rollback(10_000).unwrap(); // at the first objects
    t.commit().unwrap();
    assert!((0..MOST).all(|x| store.kept(x) == Ok(u64::from(x >= 10_000))));
    assert_eq!((store.kept(MOST), store.types().len()), (Err(Error::NoObject), MOST as usize));
    let other = Store::with_limits(objects(MOST), limits(1, MOST)).unwrap();
    other.follow(&store.events(0).unwrap()).unwrap();
    assert_eq!((other.kept(MOST - 1), other.event_count()), (Ok(1), store.event_count()));
}

#[test]
fn as_many_are_open_as_may_be() {
    let counter = counter();
    for most in [1, 1023, 1025, MOST] {
        let store = shared(&counter, most, 1);
        let mut open: Vec<_> = (0..most).map(|_| store.begin().unwrap()).collect();
        assert_eq!((store.begin().err(), store.open_count()), (Some(Error::TooManyOpen), Ok(most.into())));
        open.swap_remove(most as usize / 2).commit().unwrap();
        open.push(store.begin().unwrap());
        assert_eq!((store.begin().err(), common::number(&open[most as usize - 1])), (Some(Error::TooManyOpen), most.into()));
        drop(open);
        assert_eq!((store.open_count(), store.stats().aborts), (Ok(0), most.into()));
    }
}

#[test]
fn a_retry_waits_for_room_of_a_limit_of_its_own() {
    let store = shared(&counter(), 2, 1);
    let (first, second) = (store.begin().unwrap(), store.begin().unwrap());
    thread::scope(|scope| {
        let waiting = scope.spawn(|| store.retry(&Retry::default(), |t| t.expect(0, "inc:1", "ok")));
        thread::sleep(Duration::from_millis(30));
        assert!(!waiting.is_finished());
        drop(first);
        assert!(waiting.join().unwrap().is_ok());
    });
    assert_eq!((store.open_count(), store.kept(0)), (Ok(1), Ok(1)));
    drop(second);
}

/// Many sleep, each at an object of its own, and an end at one of them is of no concern to the others.
#[test]
fn who_sleeps_elsewhere_sleeps_on() {
    const SLEEPERS: u32 = 200;
    let store = shared(&counter(), MOST, MOST);
    let object = |i: u32| MOST - 1 - 64 * i;
    let mut holders: Vec<_> = (0..SLEEPERS).map(|_| store.begin().unwrap()).collect();
    for (i, holder) in (0..).zip(&mut holders) {
        holder.expect(object(i), "inc:1", "ok").unwrap();
    }
    thread::scope(|scope| {
        for i in 0..SLEEPERS {
            let store = &store;
            scope.spawn(move || {
                let mut t = store.begin().unwrap();
                t.expect_within(object(i), "dec:1", "ok", LONG).unwrap();
                t.commit().unwrap();
            });
        }
        until_asleep(&store, SLEEPERS.into());
        for (ended, holder) in (1..).zip(holders) {
            holder.commit().unwrap();
            until(|| store.stats().commits == 2 * ended);
        }
    });
    // nobody has slept twice
    assert_eq!((store.stats().waits, store.open_count()), (SLEEPERS.into(), Ok(0)));
    assert!((0..MOST).all(|x| store.kept(x) == Ok(0)));
}

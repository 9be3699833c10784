//! Objects that are added while a store in memory lives.

mod common;

use colock::{Error, Event, Kind, Limits, NewObject, SharedStore, Store, Type};
use common::{counter, until_asleep, LONG};
use std::iter::repeat_n;
use std::thread;

/// The most objects.
const MOST: u32 = 65_536;

/// A number from 0 to 5, at 3, in escrow.
fn stock() -> Type {
    let operations = [("take", "ok"), ("give", "ok")];
    Type::from_steps("stock", 3_u32, &operations, Kind::Escrow, |pieces, (call, _)| match call {
        "take" => pieces.checked_sub(1),
        _ => (*pieces < 5).then_some(pieces + 1),
    })
    .unwrap()
}

fn limits(objects: u32) -> Limits {
    Limits { objects, ..Limits::STANDARD }
}

#[test]
fn old_objects_keep_their_states_and_new_ones_begin() {
    let (counter, stock) = (counter(), stock());
    let mut store = Store::new([&counter, &stock], 100).unwrap();
    let mut t = store.begin().unwrap();
    t.expect(0, "inc:1", "ok").unwrap();
    t.expect(1, "take", "ok").unwrap();
    t.commit().unwrap();
    assert_eq!(store.extend([&stock, &counter]), Ok(2));
    assert_eq!([0, 1, 2, 3].map(|x| store.kept(x)), [1, 2, 3, 0].map(Ok));
    assert_eq!((store.kept(4), store.event_count(), store.forgotten_count()), (Err(Error::NoObject), 0, 0));
    assert_eq!(store.types().iter().map(Type::name).collect::<Vec<_>>(), ["counter", "stock", "stock", "counter"]);
    let mut t = store.begin_as(7).unwrap();
    assert_eq!((t.id().to_string(), t.number()), ("1.0".to_string(), 0));
    t.expect(2, "give", "ok").unwrap();
    t.expect(3, "inc:1", "ok").unwrap();
    assert_eq!((t.call(4, "give"), t.would(4, "give")), (Err(Error::NoObject), Err(Error::NoObject)));
    t.commit().unwrap();
    assert_eq!(store.events(2).unwrap()[0].to_string(), "op 7 0 3 0");
    // without an object it begins anew
    assert_eq!(store.extend([&counter; 0]), Ok(4));
    assert_eq!([0, 1, 2, 3].map(|x| store.kept(x)), [1, 2, 4, 1].map(Ok));
    assert_eq!((store.types().len(), store.begin().unwrap().id().to_string()), (4, "2.0".to_string()));
}

#[test]
fn who_is_open_keeps_a_store_as_it_is() {
    let counter = counter();
    let mut store = Store::new([&counter], 100).unwrap();
    let left = store.begin().unwrap().leave();
    assert_eq!(store.extend([&counter]), Err(Error::StillOpen));
    assert_eq!((store.types().len(), store.kept(1)), (1, Err(Error::NoObject)));
    let mut t = store.resume(left).unwrap();
    t.expect(0, "inc:1", "ok").unwrap();
    t.commit().unwrap();
    assert_eq!(store.extend([&counter]), Ok(1));
    assert_eq!(store.resume(left).err(), Some(Error::NotOpen));
}

#[test]
fn objects_are_added_up_to_the_limit() {
    let counter = counter();
    let more = |count: u32| repeat_n(&counter, count as usize);
    for (first, most) in [(1, 1), (2, 5), (255, 256), (1, MOST), (MOST - 1, MOST)] {
        let mut store = Store::with_limits(more(first), limits(most)).unwrap();
        for too_many in [most - first + 1, MOST] {
            assert_eq!(store.extend(more(too_many)), Err(Error::TooManyObjects));
        }
        assert_eq!((store.types().len(), store.begin().unwrap().number()), (first as usize, 0)); // it hasn't begun anew
        assert_eq!(store.extend(more(most - first)), Ok(first));
        assert_eq!(store.extend(more(1)), Err(Error::TooManyObjects));
        let mut t = store.begin().unwrap();
        t.expect(most - 1, "inc:1", "ok").unwrap();
        t.commit().unwrap();
        assert_eq!((store.extend(more(0)), store.kept(most - 1), store.kept(most)), (Ok(most), Ok(1), Err(Error::NoObject)));
    }
}

/// Many small extensions, and each object is the one that was added.
#[test]
fn objects_are_added_one_by_one() {
    let (counter, stock) = (counter(), stock());
    let mut store = Store::with_limits([&counter], limits(1000)).unwrap();
    for x in 1..1000 {
        let of = if x % 2 == 0 { &counter } else { &stock };
        assert_eq!(store.extend([of]), Ok(x));
        let mut t = store.begin().unwrap();
        t.expect(x, if x % 2 == 0 { "inc:1" } else { "give" }, "ok").unwrap();
        t.commit().unwrap();
    }
    assert!((1..1000).all(|x| store.kept(x) == Ok(if x % 2 == 0 { 1 } else { 4 })));
    assert_eq!(store.extend([&counter]), Err(Error::TooManyObjects));
}

#[test]
fn what_a_store_did_then_is_done_again_at_another() {
    let counter = counter();
    let mut store = Store::new([&counter], 100).unwrap();
    store.extend([&counter]).unwrap();
    let mut t = store.begin().unwrap();
    t.expect(1, "inc:1", "ok").unwrap();
    t.commit().unwrap();
    let other = Store::new([&counter, &counter], 100).unwrap();
    other.follow(&store.events(0).unwrap()).unwrap();
    assert_eq!((other.kept(0), other.kept(1)), (Ok(0), Ok(1)));
    let small = Store::new([&counter], 100).unwrap();
    assert_eq!(small.follow(&store.events(0).unwrap()).unwrap_err().made, 1);
}

// ---- stores that threads share

#[test]
fn a_shared_store_is_extended() {
    let (counter, stock) = (counter(), stock());
    let store = SharedStore::new([&counter], 100).unwrap();
    store.transact(|turn| turn.expect(0, "inc:1", "ok")).unwrap();
    let t = store.begin().unwrap();
    assert_eq!(store.extend([&stock]), Err(Error::StillOpen));
    assert_eq!((store.types().len(), store.stats().busy, store.kept(1)), (1, vec![0], Err(Error::NoObject)));
    t.commit().unwrap();
    let t = store.begin().unwrap();
    store.abort_all().unwrap();
    assert_eq!(store.extend([&stock, &counter]), Ok(1));
    assert_eq!(t.commit(), Err(Error::NotOpen));
    assert_eq!([0, 1, 2].map(|x| store.kept(x)), [1, 3, 0].map(Ok));
    assert_eq!((store.call_number(1, "give"), store.call_number(3, "give")), (Ok(1.into()), Err(Error::NoObject)));
    assert_eq!((store.type_of(2).unwrap().name().as_str(), store.type_of(3).err()), ("counter", Some(Error::NoObject)));
    let mut t = store.begin().unwrap();
    assert_eq!(t.begun().unwrap().to_string(), "1.0");
    t.expect(1, "take", "ok").unwrap();
    assert_eq!(t.call(3, "take"), Err(Error::NoObject));
    t.commit().unwrap();
    assert_eq!((store.kept(1), store.stats().busy), (Ok(2), vec![0, 0, 0]));
}

/// A call waits at an object that was added, where the conflicts of its own type are those that count.
#[test]
fn calls_wait_at_new_objects() {
    let (counter, stock) = (counter(), stock());
    let store = SharedStore::new([&stock], 100).unwrap();
    store.extend([&counter, &counter]).unwrap();
    let mut first = store.begin().unwrap();
    first.expect(2, "inc:1", "ok").unwrap();
    thread::scope(|scope| {
        let waiting = scope.spawn(|| {
            let mut second = store.begin().unwrap();
            second.expect_within(2, "dec:1", "ok", LONG).unwrap();
            second.commit().unwrap();
        });
        until_asleep(&store, 1);
        // who waits is in the way of a younger one that would hold it up, and of no one else
        let mut third = store.begin().unwrap();
        assert!(third.call(2, "inc:1").unwrap().to_string().starts_with("busy"));
        third.expect(1, "inc:1", "ok").unwrap();
        third.commit().unwrap();
        first.commit().unwrap();
        waiting.join().unwrap();
    });
    let stats = store.stats();
    assert_eq!((store.kept(1), store.kept(2), stats.busy[0], stats.waits), (Ok(1), Ok(0), 0, 1));
    assert_eq!((stats.busy.len(), stats.busy[2]), (3, 2));
}

/// Threads use what is there, while one adds to it.
#[test]
fn others_go_on_meanwhile() {
    const OBJECTS: u32 = 300;
    let wide = Type::counter(100, &[1], Kind::Undo).unwrap();
    let store = SharedStore::with_limits([("0", &wide)], limits(OBJECTS)).unwrap();
    thread::scope(|scope| {
        for _ in 0..4 {
            scope.spawn(|| {
                for x in 0..OBJECTS {
                    // as soon as the object is there
                    while store.find(&x.to_string()).is_err() {
                        thread::yield_now();
                    }
                    store.transact(|turn| turn.expect(x, "inc:1", "ok")).unwrap();
                    assert_eq!(store.name_of(x), Some(x.to_string().as_str()));
                }
            });
        }
        for x in 1..OBJECTS {
            assert_eq!(store.extend([(x.to_string(), &wide)]), Ok(x));
        }
    });
    assert!((0..OBJECTS).all(|x| store.kept(x) == Ok(4)));
    assert_eq!(store.types().len(), OBJECTS as usize);
}

/// What gives the objects may ask the store meanwhile.
#[test]
fn objects_are_taken_before_the_lock() {
    let counter = counter();
    let store = SharedStore::new([&counter], 100).unwrap();
    let objects = (0..2).map(|_| {
        assert_eq!(store.kept(0), Ok(0));
        NewObject::from(&counter)
    });
    assert_eq!((store.extend(objects), store.kept(2)), (Ok(1), Ok(0)));
}

#[test]
fn a_store_that_is_closed_isnt_extended() {
    let store = SharedStore::new([&counter()], 100).unwrap();
    store.close().unwrap();
    assert_eq!(store.extend([&counter()]), Err(Error::Closed));
    let open = SharedStore::new([&counter()], 100).unwrap();
    let in_turn = open.transact(|_| open.extend([&counter()]));
    assert_eq!((in_turn, open.types().len()), (Err(Error::InTurn), 1));
    assert!(matches!(open.events(0).unwrap()[..], [Event::Begin { .. }, Event::Abort { .. }]));
}

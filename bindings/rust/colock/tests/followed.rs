//! Stores in memory that follow events which were made before, and stores that forget events.

use colock::{Error, Event, Kind, OperationId, Store, Type};

const COUNTER: &str = "type counter\nstates 3\ninitial 0\nop inc:1 ok\nop dec:1 ok\nstep 0 0 1\nstep 1 0 2\nstep 1 1 0\nstep 2 1 1\n\
    conflict undo 0 1\nconflict undo 1 0\nend\n";

/// A number of any amounts, of which one is listed too, and whose value is read. It is 20.
const PURSE: &str = "number purse\nmax 100\ninitial 20\ntake any\ngive 7\ngive any\natleast 5\nvalue\nend\n";

fn counter(max_events: u64) -> Store {
    Store::new([&Type::read(COUNTER, Kind::Undo).unwrap()], max_events).unwrap()
}

/// The event of a line of a history.
fn event(line: &str) -> Event {
    let (word, numbers) = line.split_once(' ').unwrap();
    let numbers: Vec<u32> = numbers.split(' ').map(|number| number.parse().unwrap()).collect();
    let worker = numbers[0].try_into().unwrap();
    let transaction = numbers[1].into();
    let place = |number: u32| u8::try_from(number).unwrap();
    match (word, &numbers[2..]) {
        ("begin", []) => Event::Begin { worker, transaction },
        ("op", &[object, k]) => Event::Operation { worker, transaction, object, operation: OperationId::listed(place(k)) },
        ("op", &[object, k, amount]) => Event::Operation { worker, transaction, object, operation: OperationId::with(place(k), amount) },
        ("busy", &[object, call, blocker]) => Event::Busy { worker, transaction, object, call: place(call), blocker: blocker.into() },
        ("none", &[object, call]) => Event::None { worker, transaction, object, call: place(call) },
        ("commit", []) => Event::Commit { worker, transaction },
        ("abort", []) => Event::Abort { worker, transaction },
        ("rollback", &[operations]) => Event::Rollback { worker, transaction, operations: operations.into() },
        _ => panic!("{line}"),
    }
}

/// Two transactions at a counter from 0 to 2 in place, which both count up: the first is kept from a third up by the end of
/// the range, the second from a down by the first one's up.
const EVENTS: [&str; 10] =
    ["begin 9 0", "begin 8 1", "op 9 0 0 0", "op 8 1 0 0", "none 9 0 0 0", "busy 8 1 0 1 0", "rollback 9 0 1", "op 8 1 0 1", "commit 8 1", "abort 9 0"];

/// What can't have happened after the first of these events, this many: a number that isn't the next one, a transaction
/// that isn't open, an object, an operation or a call that isn't there, an amount that no operation of a table has, an
/// answer that is another, a rollback of too many.
const STRAYS: [(usize, &str); 19] = [
    (0, "begin 9 1"),
    (0, "commit 9 0"),
    (0, "op 9 0 0 0"),
    (2, "op 9 2 0 0"),
    (2, "op 9 0 1 0"),
    (2, "op 9 0 0 1"),
    (2, "op 9 0 0 9"),
    (2, "op 9 0 0 0 1"),
    (2, "none 9 0 0 0"),
    (2, "none 9 0 0 7"),
    (2, "none 9 0 3 0"),
    (3, "op 9 1 0 1"),
    (4, "op 9 0 0 0"),
    (5, "op 9 1 0 1"),
    (5, "none 9 1 0 1"),
    (6, "rollback 9 0 2"),
    (6, "rollback 9 0 0"),
    (8, "commit 9 2"),
    (8, "abort 9 5"),
];

/// What can't have happened beside an open gift of nine: an operation without its amount, with one that it has not, or that
/// is no operation's; another value, or one that the gift moves; and a call that nobody keeps waiting.
const STRAY_AMOUNTS: [&str; 11] = [
    "op 9 0 1 4",
    "op 9 0 1 4 0",
    "op 9 0 1 4 7",
    "op 9 0 1 2 7",
    "op 9 0 1 0 30",
    "op 9 0 1 8 20",
    "op 9 1 1 8 20",
    "op 9 1 1 1 25",
    "busy 9 1 1 6 0",
    "busy 9 0 1 0 1",
    "none 9 1 1 0",
];

/// That no command makes this event now, and the store stays as it was.
fn strays(store: &Store, line: &str) {
    let was = (store.event_count(), store.kept(0));
    let stopped = store.follow(&[event(line)]).unwrap_err();
    assert_eq!((stopped.made, stopped.error), (0, Error::NotMade), "{line}");
    assert_eq!((store.event_count(), store.kept(0)), was, "{line}");
}

/// A store at which one happens in between makes the others, and no other ones.
#[test]
fn strays_change_nothing() {
    let events = EVENTS.map(event);
    for (place, line) in STRAYS {
        let store = counter(20);
        store.follow(&events[..place]).unwrap();
        strays(&store, line);
        store.follow(&events[place..]).unwrap();
        assert_eq!(store.events(0).unwrap(), events, "{place} {line}");
    }
}

/// An event that says who is in the way is made for some amount.
#[test]
fn stray_amounts_change_nothing() {
    let store = Store::new([&Type::read(COUNTER, Kind::Undo).unwrap(), &Type::read(PURSE, Kind::Escrow).unwrap()], 20).unwrap();
    store.follow(&["begin 0 0", "begin 0 1", "op 0 0 1 4 9"].map(event)).unwrap();
    for line in STRAY_AMOUNTS {
        strays(&store, line);
    }
    assert_eq!((store.follow(&[event("busy 0 1 1 0 0")]), store.event_count()), (Ok(()), 4));
}

/// A store may forget what it followed before it follows the rest.
#[test]
fn a_store_follows_behind_what_is_forgotten() {
    let events = EVENTS.map(event);
    let store = counter(20);
    assert_eq!((store.follow(&events[..5]), store.kept(0)), (Ok(()), Ok(2)));
    store.forget(4);
    assert_eq!((store.follow(&events[5..]), store.kept(0)), (Ok(()), Ok(0)));
    assert_eq!((store.event_count(), store.forgotten_count()), (10, 4));
    assert_eq!(store.events(4).unwrap(), events[4..]);
}

/// That this many events happened, and this many of them are in memory.
fn are_counted(store: &Store, all: u64, in_memory: u64) {
    assert_eq!((store.event_count(), store.event_count() - store.forgotten_count()), (all, in_memory));
    assert_eq!(store.events(all - in_memory).unwrap().len() as u64, in_memory);
}

/// A limit of eight events counts those that were forgotten.
#[test]
fn forgotten_events_are_counted() {
    let mut store = counter(8);
    store.follow(&["begin 1 0", "op 1 0 0 0", "commit 1 0", "begin 2 1", "op 2 1 0 0", "op 2 1 0 1"].map(event)).unwrap();
    for (count, left) in [(0, 6), (2, 4), (3, 1), (0, 1)] {
        store.forget(count);
        are_counted(&store, 6, left);
    }
    assert_eq!(store.begin_as(3).err(), Some(Error::HistoryFull));
    store.follow(&[event("op 2 1 0 0")]).unwrap();
    assert_eq!(store.kept(0), Ok(2));
    are_counted(&store, 7, 2);
    store.abort_all();
    assert_eq!(store.events(5).unwrap(), ["op 2 1 0 1", "op 2 1 0 0", "abort 2 1"].map(event));
    store.forget(u64::MAX);
    are_counted(&store, 8, 0);
}

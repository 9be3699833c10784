//! Each error that a caller can meet, what a drop does, and what may go to another thread.

mod common;

use colock::{CheckRefusal, Error, Event, FaultKind, Kind, OperationId, Store, TransactionId, Type};
use common::{Telling, Told};

const CTR2: &str = "type counter\nstates 3\ninitial 0\nop inc:1 ok\nop dec:1 ok\nstep 0 0 1\nstep 1 0 2\nstep 1 1 0\nstep 2 1 1\n\
    conflict undo 0 1\nconflict undo 1 0\nconflict intentions 0 0\nconflict intentions 1 1\nend\n";

/// A number from 0 to 5, at 3: one is given or two are taken, and there may not be two. Its set lacks the initial state.
const FIVE: &str = "type five\nstates 6\ninitial 3\nop give:1 ok\nop take:2 ok\nop take:2 short\n\
    step 0 0 1\nstep 0 2 0\nstep 1 0 2\nstep 1 2 1\nstep 2 0 3\nstep 2 1 0\nstep 3 0 4\nstep 3 1 1\nstep 4 0 5\n\
    step 4 1 2\nstep 5 1 3\nreach 0\nequi 0 1\nconflict undo 0 0\nend\n";

fn counters(objects: usize, max_events: u64) -> Store {
    let counter = Type::read(CTR2, Kind::Undo).unwrap();
    Store::new(std::iter::repeat_n(&counter, objects), max_events).unwrap()
}

#[test]
fn texts_have_faults() {
    let long = format!("#{}\n", "x".repeat(200));
    let rows: [(&str, u64, FaultKind); 10] = [
        ("type \t\n", 1, FaultKind::NotAscii),
        (&long, 1, FaultKind::LineTooLong),
        ("type counter", 1, FaultKind::Unterminated),
        ("tipe counter\n", 1, FaultKind::UnknownWord),
        ("type counter\nstates x\n", 2, FaultKind::BadNumber),
        ("type counter\nstates 1025\n", 2, FaultKind::OutOfRange),
        ("type counter\ntype counter\n", 2, FaultKind::OutOfOrder),
        ("", 1, FaultKind::Missing),
        ("type c\nstates 1\ninitial 0\nop a b\nend\nend\n", 6, FaultKind::AfterEnd),
        ("type c\nstates 1\ninitial 0\nop a b\nop a b\n", 5, FaultKind::TwiceOp),
    ];
    for (text, line, kind) in rows {
        assert_eq!(Type::read(text, Kind::Undo).err(), Some(Error::BadText { line, kind }), "{text}");
        assert_eq!(Type::with_made_tables(text, Kind::Undo).err(), Some(Error::BadText { line, kind }), "{text}");
    }
    assert_eq!(Type::read([0xff, b'\n'], Kind::Undo).err(), Some(Error::BadText { line: 1, kind: FaultKind::NotAscii }));
}

#[test]
fn types_are_refused() {
    let four = "type c\nstates 4\ninitial 0\nop a b\nop c d\n";
    let rows = [
        ("reach 1\nend\n", CheckRefusal::InitialOutside),
        ("step 0 1 1\nreach 0\nend\n", CheckRefusal::NotClosed { state: 0, operation: 1 }),
        ("step 0 1 0\nequi 0 2\nend\n", CheckRefusal::NotSimulation { state: 0, other: 2, operation: 1 }),
        ("step 2 0 3\nstep 3 1 0\nend\n", CheckRefusal::NotCommuting { requested: 1, held: 0, state: 2 }),
    ];
    for (rest, refusal) in rows {
        assert_eq!(Type::read(format!("{four}{rest}"), Kind::Undo).err(), Some(Error::Refused(refusal)));
    }
    assert_eq!(Error::Refused(rows[3].1).to_string(), "the checker refuses the type: NotCommuting 1 0 2");
}

#[test]
fn what_is_no_number_is_refused() {
    let gap = "type c\nstates 4\ninitial 0\nop a b\nop c d\nstep 0 0 0\nstep 0 1 0\nstep 2 1 2\nend\n";
    let rows = [
        // put in, an element moves the empty set by one, and a set that has it by nothing
        (Type::set(&["a"], Kind::Escrow), 0, 1),
        // with two of b there is no room for a, and with none, and with one of a, there is
        (Type::semiqueue(&["a", "b"], 2, Kind::Escrow), 0, 2),
        (Type::read(gap, Kind::Escrow), 1, 1),
        (Type::with_made_tables(gap, Kind::Escrow), 1, 1),
    ];
    for (refused, operation, state) in rows {
        let error = refused.unwrap_err();
        assert_eq!(error, Error::Refused(CheckRefusal::NotNumeric { operation, state }));
        assert_eq!(error.to_string(), format!("the checker refuses the type: NotNumeric {operation} {state}"));
    }
}

#[test]
fn numbers_are_accepted_for_escrow() {
    let types = [
        Type::read(FIVE, Kind::Escrow),
        Type::with_made_tables(FIVE, Kind::Escrow),
        Type::counter(5, &[1, 2], Kind::Escrow),
        Type::account(5, &[1, 2], Kind::Escrow),
        Type::semiqueue(&["a"], 9, Kind::Escrow),
        Type::semiqueue(&["a", "b"], 1, Kind::Escrow),
        Type::number(u32::MAX, &[1, 250]),
    ];
    for made in types {
        let made = made.unwrap();
        let count = made.operations();
        assert!((0..count).all(|requested| (0..count).all(|held| made.conflicts(requested, held) == Ok(false))));
        assert_eq!((made.kind(), made.conflicts(0, count)), (Kind::Escrow, Err(Error::NoOperation)));
    }
    let five = Type::read(FIVE, Kind::Escrow).unwrap();
    assert_eq!((five.initial(), five.step(3, 1), five.step(1, 1)), (3, Ok(Some(1)), Ok(None)));
    assert_eq!(five.to_string(), "five, escrow, 6 states, no conflict table\n");
    // the other kinds look at the set, which lacks the initial state
    for kind in [Kind::Undo, Kind::Intentions] {
        assert_eq!(Type::read(FIVE, kind).err(), Some(Error::Refused(CheckRefusal::InitialOutside)));
    }
    let words: Vec<String> = [Kind::Undo, Kind::Intentions, Kind::Escrow].iter().map(Kind::to_string).collect();
    assert_eq!(words, ["undo", "intentions", "escrow"]);
}

#[test]
fn a_number_needs_escrow() {
    let text = "number cents\nmax 100000\ninitial 0\ntake 250\ngive 250\nend\n";
    for kind in [Kind::Undo, Kind::Intentions] {
        let error = Type::read(text, kind).unwrap_err();
        assert_eq!((&error, error.to_string().as_str()), (&Error::NeedsEscrow, "the type is a number, which needs escrow"));
    }
    // the fault of a text is told first, and tables are made of type files alone
    let faulty = Error::BadText { line: 2, kind: FaultKind::OutOfRange };
    assert_eq!(Type::read("number cents\nmax 0\n", Kind::Undo).err(), Some(faulty));
    let unknown = Error::BadText { line: 1, kind: FaultKind::UnknownWord };
    assert_eq!(Type::with_made_tables(text, Kind::Escrow).err(), Some(unknown));
    let cents = Type::read(text, Kind::Escrow).unwrap();
    assert_eq!((cents.name().as_str(), cents.states(), cents.operations()), ("cents", 100_001, 4));
}

#[test]
fn a_number_in_escrow_is_used() {
    let five = Type::read(FIVE, Kind::Escrow).unwrap();
    let mut store = Store::new([&five], 100).unwrap();
    let (mut t, mut u, mut v) = (store.begin().unwrap(), store.begin().unwrap(), store.begin().unwrap());
    assert_eq!((t.call(0, "take:2").told(), u.call(0, "give:1").told(), store.kept(0)), (Ok(Told::Operation(1.into())), Ok(Told::Operation(0.into())), Ok(3)));
    // there may be one left for a second take
    assert_eq!((v.would(0, "take:2").told(), v.call(0, "take:2").told()), (Ok(Told::Busy { blocker: 0 }), Ok(Told::Busy { blocker: 0 })));
    t.abort().unwrap();
    assert_eq!(v.call(0, "take:2").told(), Ok(Told::Operation(1.into())));
    u.commit().unwrap();
    assert_eq!(store.kept(0), Ok(4));
    v.commit().unwrap();
    let other = Store::new([&five], 100).unwrap();
    other.follow(&store.events(0).unwrap()).unwrap();
    assert_eq!((store.kept(0), other.kept(0)), (Ok(2), Ok(2)));
    store.renew().unwrap();
    let mut t = store.begin().unwrap();
    assert_eq!((t.call(0, "take:2").told(), t.call(0, "take:2").told(), store.kept(0)), (Ok(Told::Operation(1.into())), Ok(Told::Operation(2.into())), Ok(2)));
}

#[test]
fn families_have_ranges() {
    let many: Vec<u64> = (1..=40).collect();
    for wrong in [
        Type::account(5, &[2, 1], Kind::Undo),
        Type::account(5, &[], Kind::Undo),
        Type::account(0, &[1], Kind::Undo),
        Type::counter(1 << 40, &[1], Kind::Undo),
        Type::counter(5, &[1 << 40], Kind::Undo),
        Type::set(&["a", "a"], Kind::Undo),
        Type::set(&["a b"], Kind::Undo),
        Type::set(&["a", ""], Kind::Undo),
        Type::set(&["A"], Kind::Undo),
        Type::set(&[], Kind::Undo),
        Type::semiqueue(&["a"], 0, Kind::Undo),
        Type::semiqueue(&["a"], u64::MAX, Kind::Undo),
        Type::stock(5, &[2, 1], Kind::Undo),
        Type::stock(1 << 40, &[1], Kind::Undo),
        Type::queue(&["a", "a"], 2, Kind::Undo),
        Type::queue(&["a"], u64::MAX, Kind::Undo),
        Type::seats(0, Kind::Undo),
        Type::seats(u64::MAX, Kind::Undo),
        Type::number(5, &[2, 1]),
        Type::number(5, &[6]),
        Type::number(0, &[1]),
        Type::number(5, &[]),
    ] {
        assert_eq!(wrong.err(), Some(Error::BadParameter));
    }
    for large in [
        Type::account(1000, &[1], Kind::Undo),
        Type::counter(1023, &many, Kind::Undo),
        Type::semiqueue(&["a", "b", "c"], 100, Kind::Undo),
        Type::stock(1023, &many, Kind::Undo),
        Type::queue(&["a", "b"], 10, Kind::Undo),
        Type::seats(7, Kind::Undo),
        Type::number(u32::MAX, &(1..=17).collect::<Vec<u32>>()),
    ] {
        assert_eq!(large.err(), Some(Error::TooLarge));
    }
}

#[test]
fn a_type_is_read() {
    let account = Type::account(5, &[1, 2], Kind::Intentions).unwrap();
    assert_eq!((account.name().as_str(), account.states(), account.initial(), account.operations()), ("account", 6, 0, 14));
    assert_eq!(account.kind(), Kind::Intentions);
    assert_eq!((account.call_name(3).unwrap().as_str(), account.reply_name(3).unwrap().as_str()), ("withdraw:1", "short"));
    assert_eq!((account.call_name(14), account.reply_name(OperationId::with(0, 1))), (Err(Error::NoOperation), Err(Error::NoOperation)));
    assert_eq!((account.step(1, 4), account.step(0, 2)), (Ok(Some(3)), Ok(None)));
    assert_eq!((account.step(6, 0), account.step(0, 14)), (Err(Error::NoState), Err(Error::NoOperation)));
    assert_eq!((account.conflicts(2, 2), account.conflicts(3, 3)), (Ok(true), Ok(false)));
    assert_eq!((account.conflicts(14, 0), account.conflicts(0, 14)), (Err(Error::NoOperation), Err(Error::NoOperation)));
    assert!(format!("{account:?}").contains("\"account\""));
}

#[test]
fn stores_are_refused() {
    let counter = Type::read(CTR2, Kind::Undo).unwrap();
    assert_eq!(Store::new([&counter; 0], 9).err(), Some(Error::NoObjects));
    for max in [0, 1, 1 << 32, u64::MAX] {
        assert_eq!(Store::new([&counter], max).err(), Some(Error::BadMax));
    }
    assert!(Store::new([&counter], u32::MAX.into()).is_ok());
    assert!(Store::new([&counter; 256], 9).is_ok());
    assert_eq!(Store::new([&counter; 257], 9).err(), Some(Error::TooManyObjects));
}

#[test]
fn calls_are_answered() {
    let store = counters(2, 100);
    let mut t = store.begin_as(3).unwrap();
    let mut u = store.begin_as(4).unwrap();
    assert_eq!(t.would(0, "inc:1").told(), Ok(Told::Operation(0.into())));
    assert_eq!(t.call(0, "inc:1").told(), Ok(Told::Operation(0.into())));
    assert_eq!((u.would_op(0, 1).told(), u.call(0, "dec:1").told()), (Ok(Told::Busy { blocker: 0 }), Ok(Told::Busy { blocker: 0 })));
    assert_eq!(u.call_op(1, 1).told(), Ok(Told::Illegal));
    assert_eq!((t.call(2, "inc:1"), t.would(2, "inc:1")), (Err(Error::NoObject), Err(Error::NoObject)));
    assert_eq!(
        (t.call(0, "inc"), t.would(0, ""), t.call_op(0, 2), t.would_op(0, 255)),
        (Err(Error::NoCall), Err(Error::NoCall), Err(Error::NoCall), Err(Error::NoCall))
    );
    assert_eq!(
        (store.call_number(0, "dec:1"), store.call_number(0, "x"), store.call_number(2, "dec:1")),
        (Ok(1.into()), Err(Error::NoCall), Err(Error::NoObject))
    );
    assert_eq!(
        (t.rollback(0), t.rollback(2), t.rollback(u64::MAX), t.rollback(1)),
        (Err(Error::BadRollback), Err(Error::BadRollback), Err(Error::BadRollback), Ok(()))
    );
    assert_eq!((store.kept(0), store.kept(2), store.open_count()), (Ok(0), Err(Error::NoObject), 2));
    t.commit().unwrap();
    u.abort().unwrap();
    let lines: Vec<String> = store.events(0).unwrap().iter().map(Event::to_string).collect();
    assert_eq!(lines, ["begin 3 0", "begin 4 1", "op 3 0 0 0", "busy 4 1 0 1 0", "none 4 1 1 1", "rollback 3 0 1", "commit 3 0", "abort 4 1"]);
    let other = counters(2, 100);
    other.follow(&store.events(0).unwrap()).unwrap();
    assert_eq!(other.events(0), store.events(0));
}

#[test]
fn what_has_ended_is_not_open() {
    let mut store = counters(1, 100);
    let id = store.begin().unwrap().leave();
    store.resume(id).unwrap().commit().unwrap();
    let mut t = store.resume(id).unwrap();
    assert_eq!((t.call(0, "inc:1"), t.would(0, "inc:1"), t.rollback(1)), (Err(Error::NotOpen), Err(Error::NotOpen), Err(Error::NotOpen)));
    assert_eq!(t.abort(), Err(Error::NotOpen));
    assert_eq!(store.resume(id).unwrap().commit(), Err(Error::NotOpen));
    drop(store.resume(id).unwrap()); // aborts nothing
    assert_eq!(store.event_count(), 2);
    assert_eq!(counters(1, 9).resume(id).err(), Some(Error::NotOpen)); // another store's
    let open = store.begin().unwrap().leave();
    store.renew().unwrap(); // what is open goes on
    assert_eq!((store.resume(open).unwrap().leave(), store.resume(id).unwrap().commit()), (open, Err(Error::NotOpen)));
    store.abort_all();
    store.renew().unwrap();
    let _new = store.begin().unwrap().leave();
    assert_eq!(store.resume(id).err(), Some(Error::NotOpen)); // of the life before
}

#[test]
fn a_drop_aborts_also_where_a_panic_unwinds() {
    let store = counters(1, 100);
    let store = std::sync::Mutex::new(store);
    let panicked = std::panic::catch_unwind(|| {
        let store = store.lock().unwrap();
        let mut t = store.begin().unwrap();
        assert_eq!(t.call(0, "inc:1").told(), Ok(Told::Operation(0.into())));
        panic!("in the middle of a transaction");
    });
    assert!(panicked.is_err());
    let store = store.into_inner().unwrap_or_else(|poisoned| poisoned.into_inner());
    assert_eq!((store.kept(0), store.open_count(), store.event_count()), (Ok(0), 0, 3));
}

#[test]
fn limits() {
    let store = counters(1, 1_000_000);
    let open: Vec<_> = (0..1024).map(|_| store.begin().unwrap()).collect();
    assert_eq!(store.begin().err(), Some(Error::TooManyOpen));
    drop(open);
    assert_eq!((store.open_count(), store.event_count()), (0, 2048));
    let full = counters(1, 4);
    let mut t = full.begin().unwrap();
    assert_eq!(t.call(0, "inc:1").told(), Ok(Told::Operation(0.into())));
    assert_eq!(t.call(0, "inc:1").told(), Ok(Told::Operation(0.into())));
    assert_eq!((t.call(0, "dec:1"), t.rollback(1)), (Err(Error::HistoryFull), Err(Error::HistoryFull)));
    assert_eq!(full.begin().err(), Some(Error::HistoryFull));
    t.commit().unwrap();
}

#[test]
fn events_are_forgotten_and_followed() {
    let store = counters(1, 100);
    store.begin().unwrap().commit().unwrap();
    store.begin().unwrap().commit().unwrap();
    let events = store.events(0).unwrap();
    assert_eq!(store.events(3).unwrap(), events[3..]);
    assert_eq!(store.events(4), Ok(vec![]));
    assert_eq!(store.events(u64::MAX), Ok(vec![]));
    store.forget(2);
    assert_eq!((store.events(1), store.events(2).unwrap().len()), (Err(Error::Forgotten), 2));
    let other = counters(1, 100);
    let wrong = [events[0], events[2], events[1], events[1]];
    let stopped = other.follow(&wrong).unwrap_err();
    assert_eq!((stopped.made, stopped.error), (3, Error::NotMade));
    assert_eq!(other.open_count(), 1);
    for operation in [OperationId::listed(255), OperationId::with(0, 0), OperationId::with(255, u32::MAX)] {
        let beyond = [Event::Operation { worker: 0, transaction: 1, object: 0, operation }];
        assert_eq!(other.follow(&beyond).unwrap_err().error, Error::NotMade);
    }
    assert_eq!(other.follow(&[]), Ok(()));
}

#[test]
fn moved_and_sent() {
    fn is_send<T: Send>() {}
    is_send::<Store>();
    is_send::<Type>();
    let counter = Type::read(CTR2, Kind::Intentions).unwrap();
    let stores: Vec<Store> = (0..100).map(|_| Store::new([&counter, &counter], 9).unwrap()).collect();
    drop(counter);
    let threads = stores.into_iter().map(|store| std::thread::spawn(move || store.begin().map(|t| t.number())));
    for thread in threads.collect::<Vec<_>>() {
        assert_eq!(thread.join().unwrap(), Ok(0));
    }
}

/// One handle of the library is behind it, and who reads the type waits for it.
#[test]
fn a_type_is_shared() {
    fn is_shared<T: Send + Sync + Clone>() {}
    is_shared::<Type>();
    let counter = Type::counter(50, &[1, 2], Kind::Undo).unwrap();
    let copy = counter.clone();
    std::thread::scope(|scope| {
        for _ in 0..4 {
            scope.spawn(|| {
                for state in 0..50 {
                    assert_eq!((counter.step(state, 0), copy.call_name(1)), (Ok(Some(state + 1)), Ok("dec:1".into())));
                    assert!(Store::new([&counter, &copy], 9).is_ok());
                }
            });
        }
    });
    let store = Store::new([&counter, &copy], 9).unwrap();
    drop((counter, copy));
    assert_eq!(store.types().iter().map(Type::name).collect::<Vec<_>>(), ["counter", "counter"]);
}

/// What was executed has words, and another reply than the one that is wanted is an error. It stays in the transaction.
#[test]
fn refusals_are_seen() {
    let account = Type::account(5, &[1, 2], Kind::Undo).unwrap();
    let store = Store::new([&account], 100).unwrap();
    let mut t = store.begin().unwrap();
    let reply = t.call(0, "withdraw:1").unwrap();
    assert_eq!((reply.is("short"), reply.is("ok"), reply.to_string()), (true, false, "withdraw:1 short".into()));
    let done = reply.executed().unwrap();
    assert_eq!((done.id, done.amount, done), (3.into(), None, account.in_words(3).unwrap()));
    assert_eq!((reply.expected("short"), t.expect(0, "deposit:1", "ok")), (Ok(3.into()), Ok(0.into())));
    let refused = t.expect(0, "withdraw:2", "ok").unwrap_err();
    assert!(matches!(refused, Error::Unexpected { call, reply } if call == "withdraw:2" && reply == "short"));
    assert_eq!(store.begin().unwrap().expect(0, "deposit:1", "ok"), Err(Error::Busy { blocker: TransactionId::new(0, 0) }));
    t.rollback(3).unwrap();
    assert_eq!(t.rollback(1), Err(Error::BadRollback));
}

#[test]
fn errors_are_errors() {
    let error: Box<dyn std::error::Error + Send + Sync> = Box::new(Error::NotOpen);
    assert_eq!(error.to_string(), "the transaction isn't open");
    let wrong = counters(1, 9).follow(&[Event::Commit { worker: 0, transaction: 0 }]).unwrap_err();
    assert_eq!(std::error::Error::source(&wrong).unwrap().to_string(), "no command makes this event now");
}

/// It isn't shared between threads.
///
/// The trait has two methods of one name for what is `Sync`, and one for what isn't.
#[test]
fn not_shared() {
    trait Ambiguous<A> {
        fn ask() {}
    }
    impl<T: ?Sized> Ambiguous<()> for T {}
    struct Shared;
    impl<T: ?Sized + Sync> Ambiguous<Shared> for T {}
    <Store as Ambiguous<_>>::ask();
}

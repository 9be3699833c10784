//! Whole transactions of one call by its number; in memory and over a child.

#[macro_use]
mod common;

use colock::{Attempt, Ending, Error, Kind, Limits, OperationId, Reply, SharedStore, Store, TransactionId, Type};
use common::{counter, filled, in_memory, lines, over_a_child, until, until_asleep, with_a_gift, Drawn, Fixture, Make, Telling, Told, LONG};
use std::thread;
use std::time::Duration;

const SHORT: Duration = Duration::from_millis(30);

over_both![
    it_is_a_whole_transaction,
    it_is_what_words_and_steps_are,
    calls_may_have_amounts,
    who_is_in_the_way_is_told,
    an_illegal_call_aborts,
    nothing_of_it_is_held,
    it_isnt_begun_where_too_many_are_open,
    a_turn_attempts_by_itself,
    it_goes_before_those_that_wait,
    it_lets_those_go_that_wait,
    one_that_aborts_lets_nobody_go,
    a_closed_store_says_so,
    many_attempt_at_once,
];

fn it_is_a_whole_transaction(make: Make) {
    let (stock, seats) = (Type::stock(9, &[1], Kind::Undo).unwrap(), Type::seats(2, Kind::Intentions).unwrap());
    let store = make(&[&stock, &seats]);
    let (take, hold) = (store.call_number(0, "take:1").unwrap(), store.call_number(1, "hold:2").unwrap());
    let short = stock.operation("take:1", "short").unwrap();
    assert_eq!(store.attempt_op(0, take), Ok(Reply::Operation(stock.in_words(short).unwrap())));
    assert_eq!(store.attempt_op(1, hold).unwrap().expected("ok"), Ok(hold));
    // it has committed, whatever is expected
    let unexpected = store.attempt_op(0, take).unwrap().expected("ok");
    assert_eq!(unexpected, Err(Error::Unexpected { call: "take:1".to_string(), reply: "short".to_string() }));
    let events = ["begin 0 0".to_string(), format!("op 0 0 0 {short}"), "commit 0 0".to_string(), "begin 0 1".to_string(), format!("op 0 1 1 {hold}")];
    assert_eq!((&lines(&store, 0)[..5], store.event_count()), (&events[..], Ok(9)));
    assert_eq!((store.open_count(), store.stats().commits, store.stats().aborts, store.moment().unwrap().commits), (Ok(0), 3, 0, 3));
}

/// A call in a transaction by steps.
fn by_steps(store: &SharedStore, object: u32, call: OperationId) -> Reply {
    let mut t = store.begin().unwrap();
    let reply = t.call_op(object, call).unwrap();
    if let Reply::Operation(_) = reply { t.commit() } else { t.abort() }.unwrap();
    reply
}

/// An attempt by words, as a reply.
fn by_words(store: &SharedStore, object: u32, name: &str) -> Reply {
    match store.attempt([(object, name)]).unwrap() {
        Attempt::Done(operations) => Reply::Operation(operations[0]),
        Attempt::Ended { at: 0, how: Ending::Busy { blocker } } => Reply::Busy { blocker },
        Attempt::Ended { at: 0, how: Ending::Illegal } => Reply::Illegal,
        ended => panic!("{ended:?}"),
    }
}

const PURSE: &str = "number purse\nmax 40\ninitial 7\ntake 3\ntake any\ngive any\natleast 9\nvalue\nend\n";

/// Three stores, of which each does it in its way, say the same and have the same events.
fn it_is_what_words_and_steps_are(make: Make) {
    let types = [
        Type::seats(2, Kind::Undo).unwrap(),
        Type::account(4, &[1, 2], Kind::Intentions).unwrap(),
        Type::stock(5, &[1, 3], Kind::Escrow).unwrap(),
        Type::read(PURSE, Kind::Escrow).unwrap(),
    ];
    let mut names: Vec<Vec<String>> = types[..3].iter().map(|of| (0..of.operations()).map(|k| of.call_name(k).unwrap()).collect()).collect();
    names.push(["take:3", "take:5", "take:17", "give:1", "give:40", "atleast:9", "value"].map(String::from).to_vec());
    let objects: Vec<&Type> = types.iter().collect();
    let stores: [Fixture; 3] = [(); 3].map(|()| make(&objects));
    let (mut drawn, mut open) = (Drawn::new(11), Vec::new());
    for _ in 0..300 {
        let object = drawn.below(4) as usize;
        let name = names[object][drawn.below(names[object].len() as u64) as usize].as_str();
        let (object, call) = (object as u32, stores[0].call_number(object as u32, name).unwrap());
        match drawn.below(10) {
            // others hold something meanwhile, in all stores
            0 | 1 if open.len() < 4 => {
                let mut begun = stores.each_ref().map(|store| store.begin().unwrap());
                let told = begun.each_mut().map(|t| t.call_op(object, call).told());
                assert!(told[0] == told[1] && told[0] == told[2], "{told:?}");
                open.push(begun);
            }
            2 if !open.is_empty() => open.swap_remove(0).into_iter().for_each(|t| t.commit().unwrap()),
            3 if !open.is_empty() => open.swap_remove(0).into_iter().for_each(|t| t.abort().unwrap()),
            _ => {
                let told = [stores[0].attempt_op(object, call).unwrap(), by_words(&stores[1], object, name), by_steps(&stores[2], object, call)];
                assert!(told[0] == told[1] && told[0] == told[2], "{name}: {told:?}");
            }
        }
    }
    let [one, others @ ..] = stores.each_ref().map(|store| (lines(store, 0), store.snapshot().unwrap(), store.stats()));
    let kinds = |kind: &str| one.0.iter().filter(|line| line.starts_with(kind)).count();
    assert!(kinds("busy ") > 10 && kinds("none ") > 5 && kinds("op ") > 100, "{:?}", one.0);
    for other in others {
        assert_eq!((&other.0, &other.1), (&one.0, &one.1));
        assert_eq!((other.2.commits, other.2.aborts, &other.2.busy), (one.2.commits, one.2.aborts, &one.2.busy));
    }
}

fn calls_may_have_amounts(make: Make) {
    let store = make(&[&Type::read(PURSE, Kind::Escrow).unwrap()]);
    let [give, value] = ["give:30", "value"].map(|name| store.call_number(0, name).unwrap());
    assert_eq!((give, value), (OperationId::with(4, 30), OperationId::with(8, 0)));
    assert_eq!(store.attempt_op(0, give).unwrap().to_string(), "give:30 ok");
    assert_eq!(store.attempt_op(0, OperationId::with(4, 4)).unwrap().to_string(), "give:4 full");
    assert_eq!(store.attempt_op(0, value).unwrap().executed().map(|read| read.id), Ok(OperationId::with(8, 37)));
    assert_eq!(store.attempt_op(0, OperationId::with(2, 37)).unwrap().to_string(), "take:37 ok");
    // what isn't the number of a call: a reply, a line for any amount, an amount that another line lists, one that is too great
    for none in [1.into(), 2.into(), 8.into(), OperationId::with(2, 3), OperationId::with(2, 41), OperationId::with(8, 1), OperationId::with(255, u32::MAX)] {
        assert_eq!(store.attempt_op(0, none), Err(Error::NoCall), "{none}");
    }
    assert_eq!((store.kept(0), store.open_count(), store.stats().commits), (Ok(0), Ok(0), 4));
}

fn who_is_in_the_way_is_told(make: Make) {
    let store = filled(make, 2);
    let mut holder = store.begin().unwrap();
    holder.expect(1, "inc:1", "ok").unwrap();
    let down = store.call_number(1, "dec:1").unwrap();
    assert_eq!(store.attempt_op(1, down), Ok(Reply::Busy { blocker: holder.id().unwrap() }));
    assert_eq!(store.attempt_op(1, down).unwrap().executed(), Err(Error::Busy { blocker: holder.id().unwrap() }));
    assert!(store.attempt_op(0, down).unwrap().is("ok"));
    assert_eq!((store.stats().busy, store.stats().aborts, store.open_count()), (vec![0, 2], 2, Ok(1)));
    let told = lines(&store, 6);
    assert_eq!(told.iter().filter(|line| line.starts_with("abort ")).count(), 2, "{told:?}");
    holder.commit().unwrap();
    assert!(store.attempt_op(1, down).unwrap().is("ok"));
}

fn an_illegal_call_aborts(make: Make) {
    let store = make(&[&counter()]);
    assert_eq!(store.attempt_op(0, 1), Ok(Reply::Illegal));
    assert_eq!((lines(&store, 0), store.stats().aborts), (vec!["begin 0 0".into(), "none 0 0 0 1".into(), "abort 0 0".into()], 1));
    assert_eq!(store.attempt_op(0, 1).unwrap().expected("ok"), Err(Error::Illegal));
}

fn nothing_of_it_is_held(make: Make) {
    let store = filled(make, 1);
    assert!(store.attempt_op(0, 0).unwrap().is("ok"));
    let mut t = store.begin().unwrap();
    assert_eq!(t.call(0, "dec:1").told(), Ok(Told::Operation(1.into())));
    t.commit().unwrap();
    assert_eq!((store.kept(0), store.open_count()), (Ok(500), Ok(0)));
}

fn it_isnt_begun_where_too_many_are_open(make: Make) {
    let store = make(&[&counter()]);
    let mut open: Vec<_> = (0..1024).map(|_| store.begin().unwrap()).collect();
    assert_eq!(store.open_count(), Ok(1024));
    assert_eq!(store.attempt_op(0, 0), Err(Error::TooManyOpen));
    assert_eq!((store.event_count(), store.stats().aborts), (Ok(1024), 0));
    open.pop().unwrap().abort().unwrap();
    assert!(store.attempt_op(0, 0).unwrap().is("ok"));
}

fn a_turn_attempts_by_itself(make: Make) {
    let store = make(&[&counter()]);
    let told = store.transact(|_| Ok::<_, Error>([store.attempt_op(0, 0), store.attempt_op(0, 200)]));
    assert_eq!(told, Ok([Err(Error::InTurn), Err(Error::InTurn)]));
    assert_eq!((store.kept(0), store.stats().commits), (Ok(0), 1));
}

/// It holds nothing that keeps anyone waiting, so it isn't kept back for those that wait.
fn it_goes_before_those_that_wait(make: Make) {
    let store = filled(make, 1);
    let mut holder = store.begin().unwrap();
    holder.expect(0, "inc:1", "ok").unwrap();
    thread::scope(|scope| {
        let waiter = scope.spawn(|| {
            let mut t = store.begin().unwrap();
            t.expect_within(0, "dec:1", "ok", LONG).and_then(|_| t.commit())
        });
        until_asleep(&store, 1);
        let mut young = store.begin().unwrap();
        assert!(matches!(young.call(0, "inc:1"), Ok(Reply::Busy { .. })));
        assert!(store.attempt_op(0, 0).unwrap().is("ok"));
        assert!(!waiter.is_finished());
        holder.commit().unwrap();
        assert_eq!(waiter.join().unwrap(), Ok(()));
    });
    assert_eq!(store.kept(0), Ok(501));
}

/// Its commit lets a call go that waits for another one, which stays open.
fn it_lets_those_go_that_wait(make: Make) {
    with_a_gift(make, |store, giver, is_gone| {
        let give = store.call_number(0, "give:5").unwrap();
        // at another object it lets nobody go
        assert!(store.attempt_op(1, give).unwrap().is("ok"));
        thread::sleep(SHORT);
        assert!(!is_gone());
        assert!(store.attempt_op(0, give).unwrap().is("ok"));
        until(is_gone);
        giver.commit().unwrap();
    });
}

fn one_that_aborts_lets_nobody_go(make: Make) {
    with_a_gift(make, |store, giver, is_gone| {
        let take = store.call_number(0, "take:5").unwrap();
        assert_eq!(store.attempt_op(0, take), Ok(Reply::Busy { blocker: giver.id().unwrap() }));
        thread::sleep(SHORT);
        assert!(!is_gone());
        giver.commit().unwrap();
    });
}

fn a_closed_store_says_so(make: Make) {
    let store = make(&[&counter()]);
    assert!(store.attempt_op(0, 0).unwrap().is("ok"));
    store.close().unwrap();
    for (object, call) in [(0, 0), (0, 200), (7, 0)] {
        assert_eq!(store.attempt_op(object, call), Err(Error::Closed));
    }
    assert_eq!((store.stats().commits, store.stats().aborts), (1, 0));
}

fn many_attempt_at_once(make: Make) {
    const THREADS: u64 = 16;
    const EACH: u64 = 40;
    let store = filled(make, 3);
    thread::scope(|scope| {
        for thread in 0..THREADS {
            let store = &store;
            scope.spawn(move || {
                for round in 0..EACH {
                    let (object, is_down) = (((thread + round) % 3) as u32, (thread + round) % 2);
                    assert!(store.attempt_op(object, is_down as u8).unwrap().is("ok"));
                }
            });
        }
    });
    let seen = store.snapshot().unwrap();
    assert_eq!((seen.value.iter().sum::<u64>(), seen.at.commits, store.stats().commits), (1500, 3 + EACH * THREADS, 3 + EACH * THREADS));
}

/// In memory a call that isn't there is refused in its transaction, which aborts, as of an attempt by words.
#[test]
fn what_isnt_there_aborts_in_memory() {
    let store = in_memory(&[&counter()]);
    for (object, call, error) in [(0, 200, Error::NoCall), (1, 0, Error::NoObject), (u32::MAX, 200, Error::NoObject)] {
        let name = if call == 0 { "inc:1" } else { "x" };
        assert_eq!(store.attempt_op(object, call), Err(error.clone()));
        assert_eq!(store.attempt([(object, name)]), Ok(Attempt::Ended { at: 0, how: Ending::Refused(error) }));
    }
    let told: Vec<String> = (0..6).flat_map(|t| [format!("begin 0 {t}"), format!("abort 0 {t}")]).collect();
    assert_eq!((lines(&store, 0), store.stats().aborts, store.stats().busy), (told, 6, vec![0]));
    assert_eq!(store.attempt_op("A1", 0), Err(Error::NoObjectNamed("A1".to_string())));
    assert_eq!(store.event_count(), Ok(12));
}

/// A child isn't asked for it.
#[test]
fn what_isnt_there_isnt_begun_over_a_child() {
    let store = over_a_child(&[&counter()]);
    assert_eq!((store.attempt_op(0, 200), store.attempt_op(1, 0)), (Err(Error::NoCall), Err(Error::NoObject)));
    assert_eq!((store.event_count(), store.stats().aborts), (Ok(0), 0));
}

#[test]
fn it_needs_room_in_the_history() {
    let of = counter();
    let store = Store::new([("a", &of)], 8).unwrap();
    assert_eq!(store.attempt_op("b", 0), Err(Error::NoObjectNamed("b".to_string())));
    assert!(store.attempt_op("a", 0).unwrap().is("ok") && store.attempt_op(0, 0).unwrap().is("ok"));
    assert_eq!((store.attempt_op("a", 0), store.event_count()), (Err(Error::HistoryFull), 6));
    let store = Store::with_limits([&of], Limits { open: 1, ..Limits::STANDARD }).unwrap();
    let t = store.begin().unwrap();
    assert_eq!(store.attempt_op(0, 0), Err(Error::TooManyOpen));
    t.commit().unwrap();
    assert_eq!((store.attempt_op(1, 0), store.attempt_op(0, 200)), (Err(Error::NoObject), Err(Error::NoCall)));
    assert_eq!((store.attempt_op(0, 1), store.event_count(), store.open_count()), (Ok(Reply::Illegal), 9, 0));
}

/// Whoever is in the way is of the present life.
#[test]
fn a_blocker_is_of_the_present_life() {
    let of = counter();
    let mut store = Store::new([&of], 100).unwrap();
    assert!(store.attempt_op(0, 0).unwrap().is("ok"));
    store.renew().unwrap();
    let mut holder = store.begin().unwrap();
    holder.expect(0, "inc:1", "ok").unwrap();
    assert_eq!(store.attempt_op(0, 1), Ok(Reply::Busy { blocker: TransactionId::new(1, 0) }));
    drop(holder);
    assert_eq!(store.extend([("new", &of)]), Ok(1));
    assert!(store.attempt_op("new", 0).unwrap().is("ok"));
    let shared = in_memory(&[&of]);
    shared.renew().unwrap();
    let mut holder = shared.begin().unwrap();
    holder.expect(0, "inc:1", "ok").unwrap();
    assert_eq!(shared.attempt_op(0, 1), Ok(Reply::Busy { blocker: TransactionId::new(1, 0) }));
}

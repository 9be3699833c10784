//! Whole transactions in one call; in memory and over a child.

#[macro_use]
mod common;

use colock::{Attempt, Ending, Error, Kind, Limits, Object, Reply, Retry, SharedStore, SharedTransaction, Store, TransactionId, Type};
use common::{counter, filled, in_memory, lines, over_a_child, until_asleep, with_a_gift, Drawn, Make, Telling, Told, LONG};
use std::sync::atomic::{AtomicU64, Ordering};
use std::sync::Barrier;
use std::thread;
use std::time::{Duration, Instant};

/// Longer than anything takes that doesn't wait for a limit.
const AT_ONCE: Duration = Duration::from_secs(1);

const SHORT: Duration = Duration::from_millis(30);

over_both![
    an_attempt_is_a_whole_transaction,
    a_call_ends_it_at_its_place,
    it_is_what_calls_one_by_one_are,
    nothing_of_it_is_held,
    an_attempt_of_no_call_commits,
    it_isnt_begun_where_too_many_are_open,
    what_is_no_call_is_refused,
    a_turn_attempts_by_itself,
    it_goes_before_those_that_wait,
    a_give_lets_a_take_go,
    one_that_is_ended_lets_nobody_go,
    it_waits_for_a_commit,
    it_waits_for_an_abort,
    it_waits_for_a_rollback,
    it_waits_for_one_after_another,
    a_limit_ends_it,
    a_limit_of_nothing_is_no_wait,
    a_younger_one_goes_after_it,
    it_is_tried_again_at_another_object,
    it_waits_for_room,
    one_that_waits_is_closed,
    many_want_one_seat,
    many_attempt_at_once,
    attempts_and_transactions_are_side_by_side,
];

/// What an attempt was answered in words.
fn told(attempt: Result<Attempt, Error>) -> Vec<String> {
    attempt.unwrap().executed().unwrap().iter().map(ToString::to_string).collect()
}

fn ended(at: usize, how: Ending) -> Result<Attempt, Error> {
    Ok(Attempt::Ended { at, how })
}

fn busy(at: usize, life: u64, blocker: u64) -> Result<Attempt, Error> {
    ended(at, Ending::Busy { blocker: TransactionId::new(life, blocker) })
}

fn an_attempt_is_a_whole_transaction(make: Make) {
    let (stock, seats) = (Type::stock(9, &[1], Kind::Undo).unwrap(), Type::seats(2, Kind::Intentions).unwrap());
    let store = make(&[&stock, &seats]);
    let done = store.attempt([(1, "hold:2"), (0, "take:1"), (0, "give:1"), (1, "free")]).unwrap();
    let Attempt::Done(operations) = &done else { panic!("{done:?}") };
    assert_eq!(operations[1], stock.in_words(stock.operation("take:1", "short").unwrap()).unwrap());
    assert_eq!(told(Ok(done.clone())), ["hold:2 ok", "take:1 short", "give:1 ok", "free 1"]);
    let hold = seats.operation("hold:2", "ok").unwrap();
    assert_eq!(lines(&store, 0)[..3], ["begin 0 0".to_string(), format!("op 0 0 1 {hold}"), "op 0 0 0 3".to_string()]);
    assert_eq!((lines(&store, 5), store.kept(0), store.open_count()), (vec!["commit 0 0".to_string()], Ok(1), Ok(0)));
    assert_eq!((store.stats().commits, store.stats().aborts, store.moment().unwrap().commits), (1, 0, 1));
    // names as they are, and lists of them
    let calls: Vec<(u32, String)> = (0..3).map(|_| (0, "give:1".to_string())).collect();
    assert_eq!(told(store.attempt(calls)), ["give:1 ok"; 3]);
    assert_eq!(told(store.attempt([(Object::Number(0), "take:1")].iter().copied())), ["take:1 ok"]);
    assert_eq!(store.kept(0), Ok(3));
}

fn a_call_ends_it_at_its_place(make: Make) {
    let store = filled(make, 3);
    let mut holder = store.begin().unwrap();
    holder.expect(1, "inc:1", "ok").unwrap();
    let blocker = holder.id().unwrap();
    let up = (0, "inc:1");
    for place in 0..4 {
        let mut calls = [up; 4];
        let mut ends_with = |call| {
            calls[place] = call;
            store.attempt(calls)
        };
        assert_eq!(ends_with((1, "dec:1")), busy(place, blocker.life, blocker.number));
        assert_eq!(ends_with((2, "inc:500")).map(drop), Ok(())); // it makes 1,000
        assert_eq!(store.attempt([(2, "dec:500")]).map(drop), Ok(()));
        assert_eq!(ends_with((0, "dec:500")).map(drop), Ok(()));
        assert_eq!(store.attempt([(0, "inc:500")]).map(drop), Ok(()));
        assert_eq!(ends_with((3, "inc:1")), ended(place, Ending::Refused(Error::NoObject)));
        assert_eq!(ends_with((0, "x")), ended(place, Ending::Refused(Error::NoCall)));
        // the first one of two
        calls[3] = (3, "x");
        calls[place] = (0, "inc:2");
        assert_eq!(store.attempt(calls), ended(place, Ending::Refused(Error::NoCall)));
    }
    assert_eq!(store.attempt([up, (2, "inc:500"), (2, "inc:1"), up]), ended(2, Ending::Illegal));
    assert_eq!((store.open_count(), store.kept(2)), (Ok(1), Ok(500)));
    assert_eq!(store.stats().busy, [0, 4, 0]);
    let refused = store.attempt([(0, "x")]).unwrap().executed();
    let illegal = store.attempt([(2, "inc:500"), (2, "inc:1")]).unwrap().executed();
    let is_busy = store.attempt([(1, "dec:1")]).unwrap().executed();
    assert_eq!((refused, illegal, is_busy), (Err(Error::NoCall), Err(Error::Illegal), Err(Error::Busy { blocker })));
}

/// The same calls in a transaction: what they say, and what came of it.
fn one_by_one(store: &SharedStore, calls: &[(u32, &str)]) -> Attempt {
    let mut t = store.begin().unwrap();
    let mut done = Vec::new();
    for (at, (object, name)) in calls.iter().enumerate() {
        match t.call(*object, name).unwrap() {
            Reply::Operation(operation) => done.push(operation),
            Reply::Busy { blocker } => return Attempt::Ended { at, how: Ending::Busy { blocker } },
            Reply::Illegal => return Attempt::Ended { at, how: Ending::Illegal },
        }
    }
    t.commit().unwrap();
    Attempt::Done(done)
}

/// Two stores, of which one does attempts and the other one the same calls one by one, have the same events.
fn it_is_what_calls_one_by_one_are(make: Make) {
    let types = [Type::seats(2, Kind::Undo).unwrap(), Type::account(4, &[1, 2], Kind::Intentions).unwrap(), Type::stock(5, &[1, 3], Kind::Escrow).unwrap()];
    let objects: Vec<&Type> = types.iter().collect();
    let names: Vec<Vec<String>> = types.iter().map(|of| (0..of.operations()).map(|k| of.call_name(k).unwrap()).collect()).collect();
    let (one, other) = (make(&objects), make(&objects));
    let mut drawn = Drawn::new(7);
    let mut open = Vec::new();
    for _ in 0..300 {
        let mut call = || {
            let object = drawn.below(3);
            let of = &names[object as usize];
            (object as u32, of[drawn.below(of.len() as u64) as usize].as_str())
        };
        let calls: Vec<(u32, &str)> = [call(), call(), call(), call()].to_vec();
        match drawn.below(6) {
            // others hold something meanwhile, in both stores
            0 if open.len() < 3 => {
                let mut pair = [one.begin().unwrap(), other.begin().unwrap()];
                let replies = [pair[0].call(calls[0].0, calls[0].1).told(), pair[1].call(calls[0].0, calls[0].1).told()];
                assert_eq!(replies[0], replies[1]);
                open.push(pair);
            }
            1 if !open.is_empty() => open.swap_remove(0).into_iter().for_each(|t| t.commit().unwrap()),
            _ => {
                let calls = &calls[..1 + drawn.below(4) as usize];
                assert_eq!(one.attempt(calls.iter().copied()), Ok(one_by_one(&other, calls)), "{calls:?}");
            }
        }
    }
    assert_eq!(lines(&one, 0), lines(&other, 0));
    let snapshots = (one.snapshot().unwrap(), other.snapshot().unwrap());
    assert_eq!(snapshots.0, snapshots.1);
    let stats = (one.stats(), other.stats());
    assert_eq!((stats.0.commits, &stats.0.busy), (stats.1.commits, &stats.1.busy));
}

fn nothing_of_it_is_held(make: Make) {
    let store = filled(make, 2);
    let mut holder = store.begin().unwrap();
    holder.expect(1, "inc:1", "ok").unwrap();
    assert_eq!(told(store.attempt([(0, "inc:1")])), ["inc:1 ok"]);
    assert!(matches!(store.attempt([(0, "inc:1"), (1, "dec:1")]), Ok(Attempt::Ended { at: 1, .. })));
    let mut t = store.begin().unwrap();
    assert_eq!(t.call(0, "dec:1").told(), Ok(Told::Operation(1.into())));
    t.commit().unwrap();
    holder.commit().unwrap();
    assert_eq!((store.kept(0), store.kept(1), store.open_count()), (Ok(500), Ok(501), Ok(0)));
}

fn an_attempt_of_no_call_commits(make: Make) {
    let store = make(&[&counter()]);
    let none: [(u32, &str); 0] = [];
    assert_eq!(store.attempt(none), Ok(Attempt::Done(vec![])));
    assert_eq!(store.attempt_within(none, LONG), Ok(Attempt::Done(vec![])));
    assert_eq!((lines(&store, 0), store.stats().commits), (vec!["begin 0 0".into(), "commit 0 0".into(), "begin 0 1".into(), "commit 0 1".into()], 2));
}

fn it_isnt_begun_where_too_many_are_open(make: Make) {
    let store = make(&[&counter()]);
    let mut open: Vec<_> = (0..1024).map(|_| store.begin().unwrap()).collect();
    assert_eq!(store.open_count(), Ok(1024));
    assert_eq!(store.attempt([(0, "inc:1")]), Err(Error::TooManyOpen));
    assert_eq!(store.attempt_within([(0, "inc:1")], SHORT), Err(Error::TooManyOpen));
    assert_eq!((store.event_count(), store.stats().aborts), (Ok(1024), 0));
    open.pop().unwrap().abort().unwrap();
    assert_eq!(told(store.attempt([(0, "inc:1")])), ["inc:1 ok"]);
}

fn what_is_no_call_is_refused(make: Make) {
    let store = make(&[&counter()]);
    for name in ["inc", "", " ", "inc:1 ", "inc:1 inc:1", "inc:1\n2 end", "INC:1"] {
        assert_eq!(store.attempt([(0, "inc:1"), (0, name)]), ended(1, Ending::Refused(Error::NoCall)), "{name:?}");
        assert_eq!(store.attempt_within([(0, name)], LONG), ended(0, Ending::Refused(Error::NoCall)), "{name:?}");
    }
    assert_eq!(store.attempt([("A1", "inc:1")]), ended(0, Ending::Refused(Error::NoObjectNamed("A1".to_string()))));
    assert_eq!(store.attempt([(u32::MAX, "inc:1")]), ended(0, Ending::Refused(Error::NoObject)));
    assert_eq!((store.kept(0), store.open_count(), store.stats().commits), (Ok(0), Ok(0), 0));
}

fn a_turn_attempts_by_itself(make: Make) {
    let store = make(&[&counter()]);
    let told = store.transact(|_| Ok::<_, Error>((store.attempt([(0, "inc:1")]), store.attempt_within([(0, "inc:1")], LONG))));
    assert_eq!(told, Ok((Err(Error::InTurn), Err(Error::InTurn))));
}

/// It holds nothing that keeps anyone waiting, so it isn't kept back for those that wait.
fn it_goes_before_those_that_wait(make: Make) {
    let store = filled(make, 1);
    let mut holder = store.begin().unwrap();
    holder.expect(0, "inc:1", "ok").unwrap();
    thread::scope(|scope| {
        let waiter = scope.spawn(|| {
            let mut t = store.begin().unwrap();
            t.expect_within(0, "dec:1", "ok", LONG).and_then(|_| t.commit())
        });
        until_asleep(&store, 1);
        let mut young = store.begin().unwrap();
        assert!(matches!(young.call(0, "inc:1"), Ok(Reply::Busy { .. })));
        assert_eq!(told(store.attempt([(0, "inc:1")])), ["inc:1 ok"]);
        assert!(!waiter.is_finished());
        holder.commit().unwrap();
        assert_eq!(waiter.join().unwrap(), Ok(()));
    });
    assert_eq!(store.kept(0), Ok(501));
}

/// Its commit lets a call go that waits for another one, which stays open.
fn a_give_lets_a_take_go(make: Make) {
    with_a_gift(make, |store, giver, is_gone| {
        assert_eq!(told(store.attempt([(0, "give:5")])), ["give:5 ok"]);
        common::until(is_gone);
        giver.commit().unwrap();
    });
}

fn one_that_is_ended_lets_nobody_go(make: Make) {
    with_a_gift(make, |store, giver, is_gone| {
        assert!(matches!(store.attempt([(0, "take:2"), (0, "take:3")]), Ok(Attempt::Ended { at: 1, .. })));
        thread::sleep(SHORT);
        assert!(!is_gone());
        giver.commit().unwrap();
    });
}

/// A seat that another transaction holds is had when that lets go.
fn waits_until(make: Make, end: impl FnOnce(&mut Option<SharedTransaction<'_>>)) {
    let seat = Type::seats(1, Kind::Undo).unwrap();
    let store = make(&[&seat]);
    let mut holder = store.begin().unwrap();
    holder.expect(0, "hold:1", "ok").unwrap();
    let mut holder = Some(holder);
    thread::scope(|scope| {
        let waiter = scope.spawn(|| told(store.attempt_within([(0, "hold:1"), (0, "free")], LONG)));
        until_asleep(&store, 1);
        thread::sleep(SHORT);
        assert!(!waiter.is_finished());
        end(&mut holder);
        let told = waiter.join().unwrap();
        assert!(told == ["hold:1 ok", "free 0"] || told == ["hold:1 taken", "free 0"], "{told:?}");
    });
    drop(holder);
    assert_eq!((store.open_count(), store.stats().waits, store.kept(0)), (Ok(0), 1, Ok(1)));
    // each try is a transaction
    let tries = lines(&store, 0).iter().filter(|line| line.starts_with("begin ")).count() - 1;
    assert_eq!(tries, 2, "{:?}", lines(&store, 0));
}

fn it_waits_for_a_commit(make: Make) {
    waits_until(make, |holder| holder.take().unwrap().commit().unwrap());
}

fn it_waits_for_an_abort(make: Make) {
    waits_until(make, |holder| drop(holder.take()));
}

fn it_waits_for_a_rollback(make: Make) {
    waits_until(make, |holder| holder.as_mut().unwrap().rollback(1).unwrap());
}

fn it_waits_for_one_after_another(make: Make) {
    let store = filled(make, 1);
    let begun = || {
        let mut t = store.begin().unwrap();
        t.expect(0, "inc:1", "ok").unwrap();
        t
    };
    let (first, second) = (begun(), begun());
    thread::scope(|scope| {
        let waiter = scope.spawn(|| told(store.attempt_within([(0, "dec:1")], LONG)));
        until_asleep(&store, 1);
        first.commit().unwrap();
        until_asleep(&store, 2); // for the second now
        second.commit().unwrap();
        assert_eq!(waiter.join().unwrap(), ["dec:1 ok"]);
    });
    assert_eq!(store.kept(0), Ok(501));
}

fn a_limit_ends_it(make: Make) {
    let store = filled(make, 1);
    let mut holder = store.begin().unwrap();
    holder.expect(0, "inc:1", "ok").unwrap();
    let start = Instant::now();
    assert_eq!(store.attempt_within([(0, "dec:1")], SHORT), Err(Error::TimedOut));
    assert!((SHORT..SHORT + AT_ONCE).contains(&start.elapsed()), "{:?}", start.elapsed());
    assert_eq!((store.stats().timeouts, store.stats().waits, store.open_count()), (1, 1, Ok(1)));
    // nobody goes after it any more
    let mut t = store.begin().unwrap();
    assert_eq!(t.call(0, "inc:1").told(), Ok(Told::Operation(0.into())));
    t.commit().unwrap();
    holder.commit().unwrap();
    assert_eq!(told(store.attempt_within([(0, "dec:1")], SHORT)), ["dec:1 ok"]);
}

fn a_limit_of_nothing_is_no_wait(make: Make) {
    let store = filled(make, 1);
    assert_eq!(told(store.attempt_within([(0, "dec:1")], Duration::ZERO)), ["dec:1 ok"]);
    let mut holder = store.begin().unwrap();
    holder.expect(0, "inc:1", "ok").unwrap();
    assert_eq!(store.attempt_within([(0, "dec:1")], Duration::ZERO), Err(Error::TimedOut));
    assert_eq!((store.stats().timeouts, store.stats().waits), (1, 0));
}

/// A stream of others at the object doesn't keep it waiting for ever.
fn a_younger_one_goes_after_it(make: Make) {
    let store = filled(make, 1);
    let mut holder = store.begin().unwrap();
    holder.expect(0, "inc:1", "ok").unwrap();
    thread::scope(|scope| {
        let waiter = scope.spawn(|| told(store.attempt_within([(0, "dec:1")], LONG)));
        until_asleep(&store, 1);
        let mut young = store.begin().unwrap();
        // by a number that is no transaction's
        let Ok(Reply::Busy { blocker }) = young.call(0, "inc:1") else { panic!("it isn't kept back") };
        assert!(blocker.number > u64::from(u32::MAX));
        let younger = scope.spawn(move || young.expect_within(0, "inc:1", "ok", LONG).and_then(|_| young.commit()));
        until_asleep(&store, 2);
        holder.commit().unwrap();
        assert_eq!((waiter.join().unwrap(), younger.join().unwrap()), (vec!["dec:1 ok".to_string()], Ok(())));
    });
    let told = lines(&store, 0);
    let place = |of: &dyn Fn(&str) -> bool| told.iter().rposition(|line| of(line)).unwrap();
    let (down, up) = (place(&|line| line.starts_with("op 0 ") && line.ends_with(" 0 1")), place(&|line| line.starts_with("op 0 ") && line.ends_with(" 0 0")));
    assert!(down < up, "{told:?}");
}

fn it_is_tried_again_at_another_object(make: Make) {
    let store = filled(make, 2);
    let begun = |object: u32| {
        let mut t = store.begin().unwrap();
        t.expect(object, "inc:1", "ok").unwrap();
        t
    };
    let (first, second) = (begun(0), begun(1));
    thread::scope(|scope| {
        let waiter = scope.spawn(|| told(store.attempt_within([(0, "dec:1"), (1, "dec:1")], LONG)));
        until_asleep(&store, 1);
        first.commit().unwrap();
        until_asleep(&store, 2);
        // it waits at the other one, and nobody goes after it at this one
        assert_eq!(told(store.attempt([(0, "inc:1")])), ["inc:1 ok"]);
        let mut t = store.begin().unwrap();
        assert_eq!(t.call(0, "inc:1").told(), Ok(Told::Operation(0.into())));
        drop(t);
        second.commit().unwrap();
        assert_eq!(waiter.join().unwrap(), ["dec:1 ok", "dec:1 ok"]);
    });
    assert_eq!((store.kept(0), store.kept(1)), (Ok(501), Ok(500)));
}

fn it_waits_for_room(make: Make) {
    let store = make(&[&counter()]);
    let mut open: Vec<_> = (0..1024).map(|_| store.begin().unwrap()).collect();
    assert_eq!(store.open_count(), Ok(1024));
    thread::scope(|scope| {
        let waiter = scope.spawn(|| told(store.attempt_within([(0, "inc:1")], LONG)));
        thread::sleep(SHORT);
        assert!(!waiter.is_finished());
        open.pop().unwrap().abort().unwrap();
        assert_eq!(waiter.join().unwrap(), ["inc:1 ok"]);
    });
}

fn one_that_waits_is_closed(make: Make) {
    let store = filled(make, 1);
    let mut holder = store.begin().unwrap();
    holder.expect(0, "inc:1", "ok").unwrap();
    thread::scope(|scope| {
        let waiter = scope.spawn(|| store.attempt_within([(0, "dec:1")], LONG));
        until_asleep(&store, 1);
        store.close().unwrap();
        assert_eq!(waiter.join().unwrap(), Err(Error::Closed));
    });
    assert_eq!(store.attempt([(0, "dec:1")]), Err(Error::Closed));
}

/// One has it, and the others are told so.
fn many_want_one_seat(make: Make) {
    let store = make(&[&Type::seats(1, Kind::Undo).unwrap(), &counter()]);
    let (had, start) = (AtomicU64::new(0), Barrier::new(8));
    thread::scope(|scope| {
        for _ in 0..8 {
            scope.spawn(|| {
                start.wait();
                let told = told(store.attempt_within([(0, "hold:1"), (1, "inc:1")], LONG));
                had.fetch_add(u64::from(told[0] == "hold:1 ok"), Ordering::Relaxed);
            });
        }
    });
    assert_eq!((had.into_inner(), store.kept(0), store.kept(1), store.open_count()), (1, Ok(1), Ok(8), Ok(0)));
}

/// Sixty-four in flight, of which each is done.
fn many_attempt_at_once(make: Make) {
    const THREADS: u64 = 64;
    let store = filled(make, 3);
    thread::scope(|scope| {
        for thread in 0..THREADS {
            let store = &store;
            scope.spawn(move || {
                for round in 0..10 {
                    let (from, to) = (((thread + round) % 3) as u32, ((thread + round + 1) % 3) as u32);
                    assert_eq!(told(store.attempt([(from, "dec:1"), (to, "inc:1")])), ["dec:1 ok", "inc:1 ok"]);
                }
            });
        }
    });
    let seen = store.snapshot().unwrap();
    assert_eq!((seen.value.iter().sum::<u64>(), seen.at.commits, store.stats().commits), (1500, 3 + 10 * THREADS, 3 + 10 * THREADS));
}

/// Over a child the names of begins are foretold, of which attempts take some: each call is its own transaction's.
fn attempts_and_transactions_are_side_by_side(make: Make) {
    let store = filled(make, 4);
    let work = |thread: u32| {
        let object = thread % 4;
        for round in 0..40_u32 {
            match (thread + round) % 4 {
                0 => assert_eq!(told(store.attempt_within([(object, "inc:1"), (object, "dec:1")], LONG)), ["inc:1 ok", "dec:1 ok"]),
                1 => drop(store.attempt([((object + 1) % 4, "dec:1"), (9, "x")]).unwrap()),
                2 => drop(store.begin().unwrap()),
                _ => {
                    let moved = store.retry(&Retry { tries: 1_000, ..Retry::default() }, |t| {
                        t.expect_within(object, "inc:1", "ok", LONG)?;
                        t.expect_within(object, "dec:1", "ok", LONG)
                    });
                    assert!(moved.is_ok(), "{moved:?}");
                }
            }
        }
    };
    thread::scope(|scope| (0..8).for_each(|thread| drop(scope.spawn(move || work(thread)))));
    assert_eq!(store.snapshot().unwrap().value, [500; 4]);
    common::until(|| store.open_count() == Ok(0));
    let begun = lines(&store, 0).iter().filter(|line| line.starts_with("begin ")).count() as u64;
    let stats = store.stats();
    assert_eq!(stats.commits + stats.aborts, begun, "{stats:?}");
}

/// A store in memory says where it isn't begun, and what is refused.
#[test]
fn it_needs_room_in_the_history() {
    let of = counter();
    let store = Store::new([&of], 9).unwrap();
    assert_eq!(store.attempt([(0, "inc:1"), (0, "inc:1"), (0, "x")]), ended(2, Ending::Refused(Error::NoCall)));
    assert_eq!(store.event_count(), 4);
    assert_eq!(store.attempt([(0, "inc:1"); 4]), Err(Error::HistoryFull));
    assert_eq!(told(store.attempt([(0, "inc:1"); 3])).len(), 3);
    let none: [(u32, &str); 0] = [];
    assert_eq!((store.attempt(none), store.event_count()), (Err(Error::HistoryFull), 9));
    let store = Store::with_limits([&of], Limits { open: 1, ..Limits::STANDARD }).unwrap();
    let t = store.begin().unwrap();
    assert_eq!(store.attempt([(0, "inc:1")]), Err(Error::TooManyOpen));
    t.commit().unwrap();
    let refused = store.attempt([(0, "inc:1"), (1, "inc:1")]).unwrap();
    assert_eq!(refused, Attempt::Ended { at: 1, how: Ending::Refused(Error::NoObject) });
    let done: Vec<String> = store.events(2).unwrap().iter().map(ToString::to_string).collect();
    assert_eq!(done, ["begin 0 1", "op 0 1 0 0", "abort 0 1"]);
}

#[test]
fn a_store_in_memory_takes_more_calls_than_a_child() {
    let many = [(0, "inc:1"); 65];
    assert_eq!(told(in_memory(&[&counter()]).attempt(many)).len(), 65);
    let store = over_a_child(&[&counter()]);
    assert_eq!(store.attempt(many), Err(Error::TooManyCalls));
    assert_eq!(told(store.attempt([(0, "inc:1"); 64])).len(), 64);
    assert_eq!((store.kept(0), store.event_count()), (Ok(64), Ok(66)));
    assert_eq!(Error::TooManyCalls.to_string(), "more calls in one attempt than a child takes");
}

/// In memory whoever is in the way may be aborted with all others.
#[test]
fn what_aborts_all_lets_it_go() {
    let store = filled(in_memory, 1);
    let mut holder = store.begin().unwrap();
    holder.expect(0, "inc:1", "ok").unwrap();
    thread::scope(|scope| {
        let waiter = scope.spawn(|| told(store.attempt_within([(0, "dec:1")], LONG)));
        until_asleep(&store, 1);
        store.abort_all().unwrap();
        assert_eq!(waiter.join().unwrap(), ["dec:1 ok"]);
    });
}

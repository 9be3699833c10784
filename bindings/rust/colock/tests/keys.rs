//! Keys: what has one is done once; in memory, over a child, and when the file was opened again.

#[macro_use]
mod common;

use colock::{Attempt, Ending, Error, KeyOutcome, Keyed, Kind, OpenOptions, Retry, SharedStore, SharedTransaction, Type};
use common::{counter, filled, in_memory, lines, program, until_asleep, Drawn, Folder, Make, LONG};
use std::path::Path;
use std::process::Command;
use std::sync::Barrier;
use std::thread;
use std::time::Duration;

/// How often a child is killed with commits and attempts in flight.
const KILLS: u64 = 8;

/// How many pieces of work there are then: of each of so many threads so many.
const THREADS: u64 = 4;
const WORKS: u64 = 50;

over_both![
    a_commit_is_done_once,
    an_attempt_is_done_once,
    an_attempt_of_no_call_has_a_key_too,
    a_retry_is_done_once,
    outcomes_are_told,
    other_calls_are_other_work,
    what_isnt_done_leaves_its_key_free,
    what_is_no_key_is_asked_nothing,
    a_call_that_isnt_there_is_no_other_work,
    a_victim_may_be_known,
    a_commit_that_is_known_lets_go,
    work_that_fails_since_it_was_done_is_known,
    of_retries_at_once_one_is_done,
    of_attempts_at_once_one_is_done,
    a_turn_asks_nothing,
    a_store_that_is_closed_knows_nothing,
];

/// Counts up by a transaction that commits under a key.
fn counted_under(store: &SharedStore, key: &str) -> Result<(), Error> {
    let mut t = store.begin()?;
    t.expect(0, "inc:1", "ok")?;
    t.commit_under(key)
}

fn committed(replies: &[&str]) -> Result<KeyOutcome, Error> {
    Ok(KeyOutcome::Committed { replies: replies.iter().map(ToString::to_string).collect() })
}

fn known<T>(replies: &[&str]) -> Result<Keyed<T>, Error> {
    Ok(Keyed::Known { replies: replies.iter().map(ToString::to_string).collect() })
}

/// Work that isn't to be done.
fn never(_: &mut SharedTransaction<'_>) -> Result<(), Error> {
    panic!("it was done before, or isn't to be done")
}

/// What an attempt did, in words.
fn told(attempt: Result<Attempt, Error>) -> Vec<String> {
    attempt.unwrap().executed().unwrap().iter().map(ToString::to_string).collect()
}

fn a_commit_is_done_once(make: Make) {
    let store = make(&[&counter()]);
    for _ in 0..3 {
        assert_eq!(counted_under(&store, "order:1"), Ok(()));
        assert_eq!((store.kept(0), store.open_count()), (Ok(1), Ok(0)));
    }
    assert_eq!(counted_under(&store, "order:2"), Ok(()));
    assert_eq!(store.begin().unwrap().commit_under("order:1"), Ok(()));
    assert_eq!((store.kept(0), store.open_count(), store.moment().unwrap().commits), (Ok(2), Ok(0), 2));
    // one that keeps its store has a key too
    let shared = std::sync::Arc::new(SharedStore::new([&counter()], 100).unwrap());
    assert_eq!((shared.begin_owned().unwrap().commit_under("a"), shared.outcome("a")), (Ok(()), committed(&[])));
}

fn an_attempt_is_done_once(make: Make) {
    let store = make(&[&Type::account(9, &[1, 5], Kind::Undo).unwrap()]);
    let pay = || told(store.attempt_under("pay:7", [(0, "deposit:5"), (0, "withdraw:1"), (0, "balance")]));
    assert_eq!(pay(), ["deposit:5 ok", "withdraw:1 ok", "balance 4"]);
    let events = store.event_count();
    assert_eq!(told(store.attempt([(0, "deposit:1")])), ["deposit:1 ok"]);
    // it tells the balance of then
    assert_eq!((pay(), store.kept(0)), (["deposit:5 ok", "withdraw:1 ok", "balance 4"].map(String::from).to_vec(), Ok(5)));
    assert_eq!(store.event_count(), Ok(events.unwrap() + 3));
    assert_eq!(told(store.attempt_under("pay:8", [(0, "balance")])), ["balance 5"]);
    // one that only reads is done once too
    assert_eq!(told(store.attempt([(0, "deposit:1")])), ["deposit:1 ok"]);
    assert_eq!(told(store.attempt_under("pay:8", [(0, "balance")])), ["balance 5"]);
}

fn an_attempt_of_no_call_has_a_key_too(make: Make) {
    let store = make(&[&counter()]);
    let none: [(u32, &str); 0] = [];
    for _ in 0..2 {
        assert_eq!(store.attempt_under("a", none), Ok(Attempt::Done(vec![])));
        assert_eq!((store.outcome("a"), store.moment().unwrap().commits, store.open_count()), (committed(&[]), 1, Ok(0)));
    }
    assert_eq!((counted_under(&store, "a"), store.kept(0)), (Ok(()), Ok(0)));
    assert_eq!((counted_under(&store, "b"), store.attempt_under("b", none)), (Ok(()), Ok(Attempt::Done(vec![]))));
}

fn a_retry_is_done_once(make: Make) {
    let store = make(&[&counter()]);
    let mut runs = 0;
    let mut work = || {
        store.retry_under("order:1", &Retry::default(), |t| {
            runs += 1;
            t.expect(0, "inc:1", "ok").map(|_| 17)
        })
    };
    assert_eq!((work(), work(), work()), (Ok(Keyed::Done(17)), known(&[]), known(&[])));
    assert_eq!((runs, store.kept(0), store.open_count()), (1, Ok(1), Ok(0)));
    let _done = store.attempt_under("order:2", [(0, "inc:1"), (0, "dec:1")]).unwrap().executed().unwrap();
    assert_eq!(store.retry_under("order:2", &Retry::default(), never), known(&["ok", "ok"]));
    // it is tried again as by `retry`, and what it fails by leaves the key free
    let mut blocker = Some(store.begin().unwrap());
    blocker.as_mut().unwrap().expect(0, "dec:1", "ok").unwrap();
    let one = Retry { tries: 1, ..Retry::default() };
    assert!(matches!(store.retry_under("order:3", &one, |t| t.expect(0, "inc:1", "ok")), Err(Error::Busy { .. })));
    let mut tries = 0;
    let done = store.retry_under("order:3", &Retry::default(), |t| {
        tries += 1;
        if tries == 3 {
            blocker.take().unwrap().commit()?;
        }
        t.expect(0, "inc:1", "ok").map(drop)
    });
    assert_eq!((done, tries, store.kept(0)), (Ok(Keyed::Done(())), 3, Ok(1)));
}

fn outcomes_are_told(make: Make) {
    let store = make(&[&Type::account(2, &[1], Kind::Undo).unwrap()]);
    assert_eq!(store.outcome("a"), Ok(KeyOutcome::Unknown));
    store.begin().unwrap().commit_under("a").unwrap();
    let _done = store.attempt_under("b", [(0, "withdraw:1"), (0, "deposit:1"), (0, "balance")]).unwrap();
    let mut open = store.begin().unwrap();
    open.expect(0, "deposit:1", "ok").unwrap();
    assert_eq!([store.outcome("a"), store.outcome("b"), store.outcome("A")], [committed(&[]), committed(&["short", "ok", "1"]), Ok(KeyOutcome::Unknown)]);
    open.commit().unwrap();
    let longest = "k".repeat(64);
    store.begin().unwrap().commit_under(&longest).unwrap();
    assert_eq!((store.outcome(&longest), store.outcome(&longest[1..])), (committed(&[]), Ok(KeyOutcome::Unknown)));
}

fn other_calls_are_other_work(make: Make) {
    let store = make(&[&Type::stock(9, &[1], Kind::Undo).unwrap(), &counter()]);
    assert_eq!(told(store.attempt_under("a", [(0, "take:1"), (1, "inc:1")])), ["take:1 short", "inc:1 ok"]);
    let none: [(u32, &str); 0] = [];
    for other in [&[(0, "take:1")][..], &[(0, "take:1"), (1, "inc:1"), (1, "inc:1")], &[(0, "give:1"), (1, "inc:1")], &[(1, "inc:1"), (0, "take:1")], &none] {
        assert_eq!(store.attempt_under("a", other.iter().copied()), Err(Error::OtherCalls), "{other:?}");
    }
    // calls that may have these replies are such calls, as far as anybody can tell
    assert_eq!(told(store.attempt_under("a", [(0, "take:1"), (1, "dec:1")])), ["take:1 short", "dec:1 ok"]);
    store.begin().unwrap().commit_under("b").unwrap();
    assert_eq!(store.attempt_under("b", [(1, "inc:1")]), Err(Error::OtherCalls));
    assert_eq!((store.kept(0), store.kept(1), store.open_count()), (Ok(0), Ok(1), Ok(0)));
}

fn what_isnt_done_leaves_its_key_free(make: Make) {
    let store = filled(make, 2);
    let mut holder = store.begin().unwrap();
    holder.expect(0, "inc:1", "ok").unwrap();
    let try_once = || store.attempt_under("a", [(1, "inc:1"), (0, "dec:1")]);
    assert_eq!(try_once(), Ok(Attempt::Ended { at: 1, how: Ending::Busy { blocker: holder.id().unwrap() } }));
    assert_eq!(store.attempt_under("a", [(1, "inc:500"), (1, "inc:1")]), Ok(Attempt::Ended { at: 1, how: Ending::Illegal }));
    let mut aborted = store.begin().unwrap();
    aborted.expect(1, "inc:1", "ok").unwrap();
    aborted.abort().unwrap();
    assert_eq!((store.outcome("a"), store.kept(1)), (Ok(KeyOutcome::Unknown), Ok(500)));
    holder.commit().unwrap();
    for _ in 0..2 {
        assert_eq!(told(try_once()), ["inc:1 ok", "dec:1 ok"]);
    }
    assert_eq!((store.kept(0), store.kept(1)), (Ok(500), Ok(501)));
}

fn what_is_no_key_is_asked_nothing(make: Make) {
    let store = make(&[&counter()]);
    let too_long = "k".repeat(65);
    for text in ["", " ", "a b", "a/b", "=a", "a\n1 end", "\u{e9}", &too_long] {
        let wrong = Error::BadKey(text.to_string());
        assert_eq!((counted_under(&store, text), store.outcome(text).err()), (Err(wrong.clone()), Some(wrong.clone())));
        assert_eq!(store.attempt_under(text, [(0, "inc:1")]), Err(wrong.clone()));
        assert_eq!(store.retry_under(text, &Retry::default(), never), Err(wrong));
    }
    assert_eq!((store.kept(0), store.open_count(), store.moment().unwrap().commits), (Ok(0), Ok(0), 0));
    assert_eq!(Error::BadKey("a/b".to_string()).to_string(), "\"a/b\" is no key of a transaction");
}

/// Whether the key is known or not: what is no call was never done.
fn a_call_that_isnt_there_is_no_other_work(make: Make) {
    let store = make(&[&counter()]);
    for _ in 0..2 {
        for (call, error) in [((0, "inc"), Error::NoCall), ((9, "inc:1"), Error::NoObject)] {
            assert_eq!(store.attempt_under("a", [(0, "inc:1"), call]), Ok(Attempt::Ended { at: 1, how: Ending::Refused(error) }));
        }
        let unnamed = Ending::Refused(Error::NoObjectNamed("A1".to_string()));
        assert_eq!(store.attempt_under("a", [("A1", "inc:1")]), Ok(Attempt::Ended { at: 0, how: unnamed }));
        assert_eq!(told(store.attempt_under("a", [(0, "inc:1"), (0, "inc:1")])).len(), 2);
    }
    assert_eq!(store.kept(0), Ok(2));
}

/// One that was aborted as a victim has nothing to commit; its work may have been done all the same.
fn a_victim_may_be_known(make: Make) {
    for (key, wanted) in [("known", Ok(())), ("free", Err(Error::NotOpen))] {
        let store = filled(make, 2);
        counted_under(&store, "known").unwrap();
        let (mut old, mut young) = (store.begin().unwrap(), store.begin().unwrap());
        old.expect(0, "inc:1", "ok").unwrap();
        young.expect(1, "inc:1", "ok").unwrap();
        thread::scope(|scope| {
            let older = scope.spawn(move || old.expect_within(1, "dec:1", "ok", LONG).and_then(|_| old.commit()));
            until_asleep(&store, 1);
            assert!(matches!(young.expect_within(0, "dec:1", "ok", LONG), Err(Error::Deadlock { .. })));
            assert_eq!(young.commit_under(key), wanted);
            assert_eq!(older.join().unwrap(), Ok(()));
        });
        assert_eq!((store.kept(0), store.kept(1), store.outcome("free")), (Ok(502), Ok(499), Ok(KeyOutcome::Unknown)));
    }
}

fn a_commit_that_is_known_lets_go(make: Make) {
    let store = filled(make, 1);
    counted_under(&store, "a").unwrap();
    let mut holder = store.begin().unwrap();
    holder.expect(0, "inc:1", "ok").unwrap();
    thread::scope(|scope| {
        let waiter = scope.spawn(|| {
            let mut t = store.begin().unwrap();
            t.expect_within(0, "dec:500", "ok", LONG).and_then(|_| t.commit())
        });
        until_asleep(&store, 1);
        assert_eq!(holder.commit_under("a"), Ok(()));
        assert_eq!(waiter.join().unwrap(), Ok(()));
    });
    assert_eq!((store.kept(0), store.open_count()), (Ok(1), Ok(0)));
}

fn work_that_fails_since_it_was_done_is_known(make: Make) {
    let store = make(&[&counter()]);
    let worked = store.retry_under("a", &Retry::default(), |t| {
        counted_under(&store, "a")?; // as another thread may
        t.expect(0, "dec:500", "ok")
    });
    assert_eq!((worked, store.kept(0), store.open_count()), (known(&[]), Ok(1), Ok(0)));
    let failed = store.retry_under("b", &Retry::default(), |t| t.expect(0, "dec:500", "ok"));
    assert_eq!((failed, store.outcome("b")), (Err(Error::Illegal), Ok(KeyOutcome::Unknown)));
}

/// All have found that the key is free, and one of them knows that its work is what stays.
fn of_retries_at_once_one_is_done(make: Make) {
    const AT_ONCE: u64 = 4;
    let store = make(&[&counter()]);
    for round in 0..10 {
        let (key, all) = (format!("round:{round}"), Barrier::new(AT_ONCE as usize));
        let work = |amount: &'static str| {
            store.retry_under(&key, &Retry::default(), |t| {
                t.expect(0, amount, "ok")?;
                all.wait();
                Ok::<_, Error>(amount)
            })
        };
        let told: Vec<_> = thread::scope(|scope| {
            let threads: Vec<_> = (0..AT_ONCE).map(|_| scope.spawn(|| work("inc:1"))).collect();
            threads.into_iter().map(|thread| thread.join().unwrap().unwrap()).collect()
        });
        let done = told.iter().filter(|told| **told == Keyed::Done("inc:1")).count();
        let others = told.iter().filter(|told| **told == Keyed::Known { replies: vec![] }).count();
        assert_eq!((done, others, store.kept(0)), (1, 3, Ok(round + 1)), "{told:?}");
    }
    assert_eq!((store.open_count(), store.moment().unwrap().commits), (Ok(0), 10));
}

fn of_attempts_at_once_one_is_done(make: Make) {
    let store = make(&[&counter()]);
    for round in 0..10 {
        let (key, all) = (format!("round:{round}"), Barrier::new(8));
        thread::scope(|scope| {
            for _ in 0..8 {
                scope.spawn(|| {
                    all.wait();
                    assert_eq!(told(store.attempt_under(&key, [(0, "inc:1")])), ["inc:1 ok"]);
                });
            }
        });
        assert_eq!(store.kept(0), Ok(round + 1));
    }
}

fn a_turn_asks_nothing(make: Make) {
    let store = make(&[&counter()]);
    let told = store.transact(|_| {
        let retried = store.retry_under("a", &Retry::default(), never);
        Ok::<_, Error>((store.attempt_under("a", [(0, "inc:1")]), store.outcome("a"), retried))
    });
    assert_eq!(told, Ok((Err(Error::InTurn), Err(Error::InTurn), Err(Error::InTurn))));
}

fn a_store_that_is_closed_knows_nothing(make: Make) {
    let store = make(&[&counter()]);
    counted_under(&store, "a").unwrap();
    let t = store.begin().unwrap();
    store.close().unwrap();
    assert_eq!((t.commit_under("a"), store.outcome("a")), (Err(Error::Closed), Err(Error::Closed)));
    assert_eq!(store.attempt_under("a", [(0, "inc:1")]), Err(Error::Closed));
}

/// A store in memory keeps its keys where it begins anew.
#[test]
fn keys_are_kept_where_all_ends() {
    let store = in_memory(&[&counter()]);
    counted_under(&store, "a").unwrap();
    let t = store.begin().unwrap();
    store.abort_all().unwrap();
    assert_eq!(t.commit_under("a"), Ok(()));
    let t = store.begin().unwrap();
    store.abort_all().unwrap();
    assert_eq!(t.commit_under("b"), Err(Error::NotOpen));
    store.renew().unwrap();
    assert_eq!((counted_under(&store, "a"), store.kept(0), store.outcome("b")), (Ok(()), Ok(1), Ok(KeyOutcome::Unknown)));
    assert_eq!(store.stats().commits + store.stats().aborts, 4);
    assert_eq!((lines(&store, 0), store.open_count()), (vec!["begin 0 0".into(), "op 0 0 0 0".into(), "abort 0 0".into()], Ok(0)));
}

fn opened(folder: &Path) -> SharedStore {
    let of = counter();
    OpenOptions::new().objects([&of]).create(true).program(program()).open(folder.join("a.db")).unwrap()
}

#[test]
fn what_was_done_is_known_when_the_file_is_open_again() {
    let folder = Folder::new();
    let store = opened(folder.path());
    counted_under(&store, "a").unwrap();
    let done = store.attempt_under("b", [(0, "inc:1"), (0, "inc:500")]);
    let old = store.begin().unwrap().begun().unwrap();
    store.close().unwrap();
    for _ in 0..2 {
        let store = opened(folder.path());
        assert_ne!(store.begin().unwrap().begun().unwrap().life, old.life);
        assert_eq!((counted_under(&store, "a"), store.attempt_under("b", [(0, "inc:1"), (0, "inc:500")])), (Ok(()), done.clone()));
        assert_eq!((store.outcome("a"), store.outcome("b"), store.outcome("c")), (committed(&[]), committed(&["ok", "ok"]), Ok(KeyOutcome::Unknown)));
        assert_eq!(store.retry_under("b", &Retry::default(), never), known(&["ok", "ok"]));
        assert_eq!(store.attempt_under("b", [(0, "inc:1")]), Err(Error::OtherCalls));
        assert_eq!((store.kept(0), store.open_count()), (Ok(502), Ok(0)));
        store.close().unwrap();
    }
}

/// One piece of work. Whether it was done, where the child wasn't lost.
fn works(store: &SharedStore, thread: u64, work: u64) -> bool {
    let key = format!("{thread}:{work}");
    let done = match work % 3 {
        0 => counted_under(store, &key),
        1 => store.attempt_under(&key, [(0, "inc:1")]).and_then(Attempt::executed).map(drop),
        _ => store.retry_under(&key, &Retry::default(), |t| t.expect(0, "inc:1", "ok")).map(drop),
    };
    match done {
        Ok(()) => true,
        Err(Error::ConnectionLost(_) | Error::OutcomeUnknown(_) | Error::AttemptUnknown) => false,
        Err(error) => panic!("{error:?}"),
    }
}

/// All is asked again under its key, whatever became of it.
#[test]
fn work_is_done_once_though_the_child_is_killed() {
    let (folder, mut drawn) = (Folder::new(), Drawn::new(7));
    for _ in 0..KILLS {
        let store = opened(folder.path());
        thread::scope(|scope| {
            for thread in 0..THREADS {
                let store = &store;
                scope.spawn(move || (0..WORKS).all(|work| works(store, thread, work)));
            }
            thread::sleep(Duration::from_millis(drawn.below(60)));
            let process = store.child_process().unwrap().to_string();
            assert!(Command::new("kill").args(["-9", &process]).status().unwrap().success());
        });
    }
    let store = opened(folder.path());
    for thread in 0..THREADS {
        assert!((0..WORKS).all(|work| works(&store, thread, work)));
    }
    assert_eq!((store.kept(0), store.open_count()), (Ok(THREADS * WORKS), Ok(0)));
}

//! Transactions whose begin is put off until something is asked: what goes to a child then, and what comes of a name that
//! was foretold and isn't the one that the transaction gets.

mod common;

use colock::{Error, Event, Kind, Reply, SharedStore, TransactionId, Type};
use common::teller::Teller;
use common::{counter, lines, number, over_a_child, until, Drawn, Telling, Told, LONG};
use std::sync::Barrier;
use std::thread;

/// What came of a first call after a transaction 1.0, the name that its transaction has then, and what was asked of a
/// program that answers so after that.
fn first_call(answers: &[&str]) -> (Result<Reply, Error>, Result<TransactionId, Error>, Vec<String>) {
    let teller = Teller::of(&[&["ok 1.0", "ok"], answers].concat());
    let store = teller.open();
    store.begin().unwrap().abort().unwrap();
    let mut t = store.begin().unwrap();
    let told = t.call(0, "inc:1");
    let id = t.begun();
    drop(t);
    let _is_lost = store.close();
    (told, id, teller.asked()[2..].to_vec())
}

#[test]
fn a_begin_goes_with_the_first_call() {
    let (told, id, asked) = first_call(&["ok 1.1", "reply ok", "ok"]);
    assert_eq!((told.told(), id), (Ok(Told::Operation(0.into())), Ok(common::id("1.1"))));
    assert_eq!(asked, ["begin", "call 1.1 0 inc:1", "abort 1.1", "end"]);
}

#[test]
fn another_name_than_the_foretold_one_is_called_by() {
    // another life, and a life in which one that the client doesn't know was refused
    for name in ["2.0", "1.0"] {
        let (told, id, asked) = first_call(&[&format!("ok {name}"), "refused NotOpen", "reply ok", "ok"]);
        assert_eq!((told.told(), id), (Ok(Told::Operation(0.into())), Ok(common::id(name))));
        assert_eq!(asked, ["begin", "call 1.1 0 inc:1", &format!("call {name} 0 inc:1"), &format!("abort {name}"), "end"]);
    }
}

#[test]
fn a_begin_that_is_refused_is_told_by_the_call() {
    // what asks next begins it by itself
    let (told, id, asked) = first_call(&["refused NoMemory", "refused NotOpen", "ok 1.1", "ok"]);
    assert_eq!((told, id), (Err(Error::NoMemory), Ok(common::id("1.1"))));
    assert_eq!(asked, ["begin", "call 1.1 0 inc:1", "begin", "abort 1.1", "end"]);
    // and where it can't, its drop has nothing to abort
    let (told, id, asked) = first_call(&["refused NoMemory", "refused NotOpen", "refused TooManyOpen"]);
    assert_eq!((told, id), (Err(Error::NoMemory), Err(Error::TooManyOpen)));
    assert_eq!(asked, ["begin", "call 1.1 0 inc:1", "begin", "end"]);
}

#[test]
fn a_full_epoch_is_waited_for_by_the_first_call() {
    let (told, id, asked) = first_call(&["busy drain", "refused NotOpen", "busy drain", "ok 2.0", "reply ok", "ok"]);
    assert_eq!((told.told(), id), (Ok(Told::Operation(0.into())), Ok(common::id("2.0"))));
    assert_eq!(asked, ["begin", "call 1.1 0 inc:1", "begin", "begin", "call 2.0 0 inc:1", "abort 2.0", "end"]);
}

#[test]
fn an_epoch_may_end_between_the_begin_and_the_call() {
    let (told, id, asked) = first_call(&["ok 1.1", "refused NotOpen"]);
    assert_eq!((told, id), (Err(Error::EpochEnded), Ok(common::id("1.1"))));
    assert_eq!(asked, ["begin", "call 1.1 0 inc:1", "end"]);
}

#[test]
fn a_call_that_was_done_for_another_one_is_a_loss() {
    for begin in ["ok 1.2", "ok 2.0", "refused NoMemory", "busy drain"] {
        for call in ["reply ok", "none", "busy 1.0", "refused NoMemory"] {
            let (told, id, asked) = first_call(&[begin, call]);
            assert!(matches!(&told, Err(Error::ConnectionLost(words)) if words.contains("no answer to what was asked")), "{begin}, {call}: {told:?}");
            assert!(matches!(id, Err(Error::ConnectionLost(_))));
            assert_eq!(asked, ["begin", "call 1.1 0 inc:1"]);
        }
    }
}

#[test]
fn behind_a_refused_begin_names_are_foretold_again() {
    let behind = ["refused NoMemory", "refused NotOpen", "ok 1.1", "ok", "ok 1.2", "reply ok", "ok"];
    let teller = Teller::of(&[&["ok 1.0", "ok"], &behind[..]].concat());
    let store = teller.open();
    store.begin().unwrap().commit().unwrap();
    assert_eq!(store.begin().unwrap().call(0, "inc:1"), Err(Error::NoMemory)); // and its drop has nothing to abort
    drop(store.begin().unwrap()); // which isn't put off
    let mut t = store.begin().unwrap();
    assert_eq!((t.call(0, "inc:1").told(), t.id()), (Ok(Told::Operation(0.into())), Some(common::id("1.2"))));
    assert_eq!(t.commit(), Ok(()));
    store.close().unwrap();
    let asked = teller.asked();
    assert_eq!(asked[2..], ["begin", "call 1.1 0 inc:1", "begin", "abort 1.1", "begin", "call 1.2 0 inc:1", "commit 1.2", "end"]);
}

/// What was asked of a program that answers so where a transaction is dropped that was put off, after a transaction 1.0, and
/// until this line was asked.
fn dropped(answers: &[&str], last: &str) -> Vec<String> {
    let teller = Teller::of(&[&["ok 1.0", "ok"], answers].concat());
    let store = teller.open();
    store.begin().unwrap().abort().unwrap();
    drop(store.begin().unwrap());
    until(|| {
        let _looked = store.kept(0);
        teller.asked()[2..].iter().any(|line| line == last)
    });
    let asked = teller.asked()[2..].iter().filter(|line| *line != "kept 0").cloned().collect();
    assert_eq!((store.stats().aborts, store.stats().commits), (2, 0));
    asked
}

#[test]
fn a_drop_asks_for_its_begin_and_its_end() {
    let kept = ["ok 0"; 10_000];
    let rows: [(&[&str], &[&str]); 3] = [
        (&["ok 1.1", "ok"], &["begin", "abort 1.1"]),
        (&["ok 2.0", "refused NotOpen"], &["begin", "abort 1.1", "abort 2.0"]),
        (&["ok 1.0", "refused NotOpen"], &["begin", "abort 1.1", "abort 1.0"]),
    ];
    for (answers, lines) in rows {
        assert_eq!(dropped(&[answers, &kept].concat(), lines[lines.len() - 1]), lines);
    }
}

#[test]
fn a_drop_whose_begin_is_refused_aborts_nothing() {
    for begin in ["refused NoMemory", "busy drain"] {
        let teller = Teller::of(&["ok 1.0", "ok", begin, "refused NotOpen", "ok 0", "ok 0", "ok 3.0", "reply ok", "ok"]);
        let store = teller.open();
        store.begin().unwrap().abort().unwrap();
        drop(store.begin().unwrap());
        assert_eq!((store.kept(0), store.kept(0)), (Ok(0), Ok(0)));
        let mut t = store.begin().unwrap(); // which isn't put off, since no name can be foretold
        t.expect(0, "inc:1", "ok").unwrap();
        t.commit().unwrap();
        assert_eq!((store.stats().aborts, store.stats().commits), (1, 1));
        store.close().unwrap();
        assert_eq!(teller.asked()[2..], ["begin", "abort 1.1", "kept 0", "kept 0", "begin", "call 3.0 0 inc:1", "commit 3.0", "end"]);
    }
}

/// What one thread asks comes in its order, as in memory.
#[test]
fn begins_come_before_what_a_thread_asks_else() {
    let store = over_a_child(&[&counter()]);
    store.begin().unwrap().commit().unwrap();
    let (mut first, mut second) = (store.begin().unwrap(), store.begin().unwrap());
    second.call(0, "inc:1").unwrap().expected("ok").unwrap();
    first.call(0, "inc:1").unwrap().expected("ok").unwrap();
    let third = store.begin().unwrap();
    assert_eq!(store.open_count(), Ok(3));
    let fourth = store.begin().unwrap();
    assert_eq!((store.event_count(), number(&fourth), number(&third), number(&second), number(&first)), (Ok(8), 4, 3, 2, 1));
    third.commit().unwrap();
    let fifth = store.begin().unwrap();
    first.commit().unwrap();
    drop(fifth);
    assert_eq!(lines(&store, 2)[..4], ["begin 0 1", "begin 0 2", "op 0 2 0 0", "op 0 1 0 0"]);
    assert_eq!(lines(&store, 6), ["begin 0 3", "begin 0 4", "commit 0 3", "begin 0 5", "commit 0 1", "abort 0 5"]);
}

/// Begins this many transactions at each of two objects by turns, and drops most of them, some before they have begun.
fn dropped_by(store: &SharedStore, seed: u64) {
    let mut drawn = Drawn::new(seed);
    for round in 0..300 {
        let mut t = store.begin().unwrap();
        let other = (drawn.below(3) == 0).then(|| store.begin().unwrap()); // by which the first one's begin is written
        match drawn.below(4) {
            0 => drop(t),
            1 => drop(t.begun()),
            2 => drop(t.expect(round % 2, "inc:1", "ok")),
            _ => t.expect(round % 2, "inc:1", "ok").and_then(|_| t.commit()).unwrap(),
        }
        drop(other);
    }
}

#[test]
fn what_is_dropped_is_aborted() {
    let of = Type::counter(1000, &[1], Kind::Undo).unwrap();
    let store = over_a_child(&[&of, &of]);
    thread::scope(|scope| {
        (0..6).for_each(|seed| {
            drop(scope.spawn({
                let store = &store;
                move || dropped_by(store, seed)
            }))
        })
    });
    until(|| store.open_count() == Ok(0));
    let events = store.events(0).unwrap();
    let count = |is: fn(&Event) -> bool| events.iter().filter(|event| is(event)).count() as u64;
    let (begins, aborts, commits) = (
        count(|event| matches!(event, Event::Begin { .. })),
        count(|event| matches!(event, Event::Abort { .. })),
        count(|event| matches!(event, Event::Commit { .. })),
    );
    assert_eq!((begins, store.stats().aborts, store.stats().commits), (aborts + commits, aborts, commits));
    assert_eq!(store.kept(0).unwrap() + store.kept(1).unwrap(), commits);
}

/// A transaction goes to another thread, where it is asked by several at once.
#[test]
fn a_begin_is_asked_once() {
    let store = over_a_child(&[&counter()]);
    store.begin().unwrap().commit().unwrap();
    for round in 0..50 {
        let mut t = store.begin().unwrap();
        let start = Barrier::new(4);
        thread::scope(|scope| {
            let asking: Vec<_> = (0..4)
                .map(|thread| {
                    let (t, store, start) = (&t, &store, &start);
                    scope.spawn(move || {
                        start.wait();
                        if thread == 0 {
                            store.open_count().unwrap() // which begins it too
                        } else {
                            number(t)
                        }
                    })
                })
                .collect();
            let told: Vec<u64> = asking.into_iter().map(|one| one.join().unwrap()).collect();
            assert_eq!(told, [1, round + 1, round + 1, round + 1]);
        });
        assert_eq!(t.call_within(0, "inc:1", LONG).told(), Ok(Told::Operation(0.into())));
        t.commit().unwrap();
    }
    assert_eq!((store.event_count(), store.kept(0)), (Ok(2 + 3 * 50), Ok(50)));
}

//! What a child is asked and answers of transactions of earlier lives: they are open until their ends or refusals say otherwise.

mod common;

use colock::{Attempt, Error, Reply, SharedStore, SharedTransaction};
use common::teller::Teller;
use common::{id, until_asleep, LONG};
use std::thread;

/// What a store does of a child that answers so, and what that was asked.
fn asked<T>(answers: &[&str], act: impl FnOnce(&SharedStore) -> T) -> (T, Vec<String>) {
    let teller = Teller::of(answers);
    let store = teller.open();
    let told = act(&store);
    let _is_lost = store.close();
    (told, teller.asked())
}

/// A transaction 1.0 that has counted up.
fn holder(store: &SharedStore) -> SharedTransaction<'_> {
    let mut t = store.begin().unwrap();
    t.expect(0, "inc:1", "ok").unwrap();
    t
}

/// A call that waits, and the end of its transaction.
fn waits(mut t: SharedTransaction<'_>) -> Result<(), Error> {
    t.expect_within(0, "dec:1", "ok", LONG)?;
    t.commit()
}

/// It has the number of the one for which it waits, and isn't taken for that.
#[test]
fn one_of_a_later_life_waits_for_its_number() {
    let answers = ["ok 1.0", "reply ok", "seen 2.0 0", "ok 2.0", "refused NotOpen", "busy 1.0", "busy 1.0", "reply ok", "ok", "reply ok", "reply ok", "ok"];
    let (told, lines) = asked(&answers, |store| {
        let mut first = holder(store);
        store.moment().unwrap();
        let mut second = store.begin().unwrap();
        assert_eq!((second.call(0, "dec:1"), second.id()), (Ok(Reply::Busy { blocker: id("1.0") }), Some(id("2.0"))));
        thread::scope(|scope| {
            let waiter = scope.spawn(move || waits(second));
            until_asleep(store, 1);
            first.expect(0, "inc:1", "ok").unwrap();
            assert!(!waiter.is_finished());
            first.commit().unwrap();
            (waiter.join().unwrap(), store.stats().deadlocks, store.stats().aborts)
        })
    });
    assert_eq!(told, (Ok(()), 0, 0));
    assert_eq!(lines[3..9], ["begin", "call 1.1 0 dec:1", "call 2.0 0 dec:1", "call 2.0 0 dec:1", "call 1.0 0 inc:1", "commit 1.0"]);
    assert_eq!(lines[9..], ["would 2.0 0 dec:1", "call 2.0 0 dec:1", "commit 2.0", "end"]);
}

/// The youngest is the victim, and is told for whom it waited, of whatever life.
#[test]
fn a_circle_of_two_lives_is_broken() {
    let answers = ["ok 1.0", "reply ok", "seen 2.0 0", "ok 2.0", "refused NotOpen", "reply ok", "busy 2.0", "busy 1.0", "ok", "reply ok", "reply ok", "ok"];
    let (told, lines) = asked(&answers, |store| {
        let first = holder(store);
        store.moment().unwrap();
        let mut second = holder(store);
        thread::scope(|scope| {
            let older = scope.spawn(move || waits(first));
            until_asleep(store, 1);
            (second.expect_within(0, "dec:1", "ok", LONG), older.join().unwrap(), store.stats().deadlocks)
        })
    });
    assert_eq!(told, (Err(Error::Deadlock { waited_for: id("1.0") }), Ok(()), 1));
    assert_eq!(lines[6..], ["call 1.0 0 dec:1", "call 2.0 0 dec:1", "abort 2.0", "would 1.0 0 dec:1", "call 1.0 0 dec:1", "commit 1.0", "end"]);
}

/// It may have been aborted for whom somebody waits, or who waits.
#[test]
fn who_waits_asks_once_more_in_another_life() {
    let begun = ["ok 1.0", "reply ok", "ok 1.1", "busy 1.0", "seen 2.0 0"];
    let (told, lines) = asked(&[&begun[..], &["busy 1.0", "ok", "reply ok", "reply ok", "ok"]].concat(), |store| {
        let first = holder(store);
        thread::scope(|scope| {
            let waiter = scope.spawn(|| waits(store.begin().unwrap()));
            until_asleep(store, 1);
            store.moment().unwrap();
            until_asleep(store, 2);
            first.commit().unwrap();
            (waiter.join().unwrap(), store.stats().aborts)
        })
    });
    assert_eq!(told, (Ok(()), 0));
    assert_eq!(lines[4..], ["committed 0", "would 1.1 0 dec:1", "commit 1.0", "would 1.1 0 dec:1", "call 1.1 0 dec:1", "commit 1.1", "end"]);
    // and where the end of the epoch has aborted both, each of them finds it
    let (told, lines) = asked(&[&begun[..], &["refused NotOpen", "refused NotOpen"]].concat(), |store| {
        let mut first = holder(store);
        thread::scope(|scope| {
            let waiter = scope.spawn(|| waits(store.begin().unwrap()));
            until_asleep(store, 1);
            store.moment().unwrap();
            (waiter.join().unwrap(), first.call(0, "inc:1").err(), first.commit().err(), store.stats().aborts)
        })
    });
    assert_eq!(told, (Err(Error::EpochEnded), Some(Error::EpochEnded), Some(Error::EpochEnded), 2));
    assert_eq!(lines[4..], ["committed 0", "would 1.1 0 dec:1", "call 1.0 0 inc:1", "end"]);
}

/// One that isn't open any more says that an epoch has ended, before a later life is told.
#[test]
fn a_refusal_wakes_who_waits() {
    let answers = ["ok 1.0", "reply ok", "ok 1.1", "busy 1.0", "ok 1.2", "refused NotOpen", "refused NotOpen", "ok"];
    let (told, lines) = asked(&answers, |store| {
        let first = holder(store);
        thread::scope(|scope| {
            let waiter = scope.spawn(|| waits(store.begin().unwrap()));
            until_asleep(store, 1);
            let told = store.begin().unwrap().rollback(1);
            let waited = waiter.join().unwrap();
            drop(first);
            (told, waited, store.stats().aborts, store.stats().waits)
        })
    });
    assert_eq!(told, (Err(Error::EpochEnded), Err(Error::EpochEnded), 3, 1));
    assert_eq!(lines[4..], ["begin", "rollback 1.2 1", "would 1.1 0 dec:1", "abort 1.0", "end"]);
}

#[test]
fn an_attempt_is_made_again_in_another_life() {
    let answers = ["ok 1.0", "reply ok", "busy 0 1.0", "seen 2.0 0", "busy 0 1.0", "ok", "done ok"];
    let (told, lines) = asked(&answers, |store| {
        let first = holder(store);
        thread::scope(|scope| {
            let attempt = scope.spawn(|| store.attempt_within([(0, "dec:1")], LONG).and_then(Attempt::executed));
            until_asleep(store, 1);
            store.moment().unwrap();
            until_asleep(store, 2);
            first.commit().unwrap();
            attempt.join().unwrap().is_ok()
        })
    });
    assert!(told);
    assert_eq!(lines[2..], ["do 0 dec:1", "committed 0", "do 0 dec:1", "commit 1.0", "do 0 dec:1", "end"]);
}

/// The events of another epoch tell other transactions by the same numbers.
#[test]
fn what_became_of_one_isnt_told_by_another_life() {
    let rows: [(&[&str], &[&str]); 2] =
        [(&["seen 1.0 0", "ok", "seen 2.0 0"], &["committed 0", "events 0 65536", "committed 0", "end"]), (&["seen 2.0 0"], &["committed 0", "end"])];
    for (answers, wanted) in rows {
        let (told, lines) = asked(&[&["ok 1.0", "ok"], answers].concat(), |store| {
            store.begin().unwrap().abort().unwrap();
            store.committed(id("1.0"))
        });
        assert_eq!((told, &lines[2..]), (Ok(None), &wanted.iter().map(ToString::to_string).collect::<Vec<_>>()[..]));
    }
}

/// What the end of an epoch aborted is counted once, by whatever line that is told.
#[test]
fn what_an_epoch_aborted_is_counted_once() {
    type End = fn(SharedTransaction<'_>) -> Result<(), Error>;
    let ends: [(End, &str); 4] = [
        (|t| t.commit(), "commit 1.0"),
        (|t| t.abort(), "abort 1.0"),
        (|t| t.commit_under("order:1"), "commit 1.0 order:1"),
        (|mut t| t.rollback(1).and_then(|()| t.commit()), "rollback 1.0 1"),
    ];
    for (end, line) in ends {
        let (told, lines) = asked(&["ok 1.0", "reply ok", "seen 2.0 0", "refused NotOpen"], |store| {
            let t = holder(store);
            store.moment().unwrap();
            (end(t), store.stats().commits, store.stats().aborts)
        });
        assert_eq!((told, &lines[3..]), ((Err(Error::EpochEnded), 0, 1), &[line, "end"].map(String::from)[..]), "{line}");
    }
}

/// Its abort is asked for by its name.
#[test]
fn who_is_dropped_in_another_life_is_aborted() {
    let (told, lines) = asked(&["ok 1.0", "reply ok", "seen 2.0 0", "ok", "seen 2.0 0"], |store| {
        let t = holder(store);
        store.moment().unwrap();
        drop(t);
        store.moment().unwrap();
        store.stats().aborts
    });
    assert_eq!((told, &lines[2..]), (1, &["committed 0", "abort 1.0", "committed 0", "end"].map(String::from)[..]));
}

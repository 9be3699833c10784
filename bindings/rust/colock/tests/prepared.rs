//! Transactions that are prepared: in memory, over a child, and when the file was opened again.

#[macro_use]
mod common;

use colock::{
    Attempt, Decision, Ending, Error, Event, KeyOutcome, Keyed, Kind, NotFollowed, OpenOptions, Prepared, Reply, Retry, SharedStore, SharedTransaction,
    TransactionId, Type,
};
use common::{counter, filled, in_memory, lines, program, until_asleep, Drawn, Folder, Make, LONG};
use std::path::Path;
use std::process::Command;
use std::sync::{Barrier, Mutex};
use std::thread;
use std::time::Duration;

/// How often a child is killed with prepares and decisions in flight.
const KILLS: u64 = 8;

/// How many pieces of work there are then: of each of so many threads so many.
const THREADS: u64 = 4;
const WORKS: u64 = 30;

over_both![
    nobody_but_a_decision_ends_it,
    a_decision_ends_it,
    a_decision_is_asked_again,
    a_key_that_nobody_has_is_aborted_or_unknown,
    a_key_has_one_transaction,
    it_is_prepared_once,
    what_is_no_key_is_asked_nothing,
    what_isnt_open_isnt_prepared,
    nothing_commits_under_its_key,
    its_objects_are_listed,
    what_is_prepared_is_listed,
    who_is_kept_out_waits_for_the_decision,
    an_attempt_waits_for_the_decision,
    a_retry_may_prepare,
    a_turn_asks_nothing,
    a_store_that_is_closed_decides_nothing,
    of_those_at_once_one_is_prepared,
    of_decisions_at_once_one_is_made,
];

/// A transaction that has counted up.
fn counted(store: &SharedStore) -> Result<SharedTransaction<'_>, Error> {
    let mut t = store.begin()?;
    t.expect(0, "inc:1", "ok")?;
    Ok(t)
}

/// Counts up by a transaction that is prepared. It is dropped, and stays.
fn prepared_under(store: &SharedStore, key: &str) -> Result<TransactionId, Error> {
    let mut t = counted(store)?;
    t.prepare(key, 7)?;
    t.begun()
}

/// The keys of what is prepared.
fn keys(store: &SharedStore) -> Vec<String> {
    store.prepared().unwrap().into_iter().map(|prepared| prepared.key).collect()
}

fn committed() -> Result<KeyOutcome, Error> {
    Ok(KeyOutcome::Committed { replies: vec![] })
}

fn nobody_but_a_decision_ends_it(make: Make) {
    let store = make(&[&counter()]);
    let begin = |key| {
        let mut t = counted(&store).unwrap();
        t.prepare(key, 0).unwrap();
        t
    };
    let mut t = begin("calls");
    let up = store.call_number(0, "inc:1").unwrap();
    assert_eq!((t.call(0, "inc:1"), t.call_op(0, up), t.expect(0, "inc:1", "ok")), (Err(Error::Prepared), Err(Error::Prepared), Err(Error::Prepared)));
    assert_eq!((t.call_within(0, "inc:1", LONG), t.would(0, "inc:1"), t.rollback(1)), (Err(Error::Prepared), Err(Error::Prepared), Err(Error::Prepared)));
    assert_eq!((begin("commit").commit(), begin("abort").abort()), (Err(Error::Prepared), Err(Error::Prepared)));
    assert_eq!((begin("under").commit_under("under"), begin("other").commit_under("another")), (Err(Error::Prepared), Err(Error::Prepared)));
    drop(begin("drop"));
    drop(t);
    assert_eq!(keys(&store), ["calls", "commit", "abort", "under", "other", "drop"]);
    assert_eq!((store.open_count(), store.moment().unwrap().commits, store.kept(0)), (Ok(6), 0, Ok(6)));
    assert_eq!((store.outcome("under"), store.outcome("another")), (Ok(KeyOutcome::Prepared), Ok(KeyOutcome::Unknown)));
    assert_eq!(Error::Prepared.to_string(), "the transaction is prepared, and only a decision ends it");
}

fn a_decision_ends_it(make: Make) {
    let store = make(&[&counter()]);
    let mut kept = counted(&store).unwrap();
    kept.prepare("a", 0).unwrap();
    prepared_under(&store, "b").unwrap();
    assert_eq!((store.decide("b", Decision::Abort), store.kept(0), keys(&store)), (Ok(()), Ok(1), vec!["a".to_string()]));
    assert_eq!((store.decide("a", Decision::Commit), store.kept(0), store.open_count()), (Ok(()), Ok(1), Ok(0)));
    assert_eq!((store.outcome("a"), store.outcome("b"), keys(&store).len()), (committed(), Ok(KeyOutcome::Aborted), 0));
    // who prepared it finds that it isn't open any more
    assert_eq!((kept.call(0, "inc:1"), kept.rollback(1), kept.prepare("a", 0)), (Err(Error::NotOpen), Err(Error::NotOpen), Err(Error::NotOpen)));
    assert_eq!(kept.commit(), Err(Error::NotOpen));
    assert_eq!((store.stats().commits, store.stats().aborts, store.moment().unwrap().commits), (1, 1, 1));
}

fn a_decision_is_asked_again(make: Make) {
    let store = make(&[&counter()]);
    for (key, decision, other) in [("a", Decision::Commit, Decision::Abort), ("b", Decision::Abort, Decision::Commit)] {
        prepared_under(&store, key).unwrap();
        for _ in 0..2 {
            assert_eq!((store.decide(key, decision), store.decide(key, other)), (Ok(()), Err(Error::Decided)));
        }
    }
    // what committed by itself is as what was decided
    counted(&store).unwrap().commit_under("c").unwrap();
    assert_eq!((store.decide("c", Decision::Commit), store.decide("c", Decision::Abort)), (Ok(()), Err(Error::Decided)));
    assert_eq!((store.kept(0), store.open_count(), store.moment().unwrap().commits), (Ok(2), Ok(0), 2));
    assert_eq!(Error::Decided.to_string(), "the transaction of this key was decided otherwise");
}

fn a_key_that_nobody_has_is_aborted_or_unknown(make: Make) {
    let store = make(&[&counter()]);
    assert_eq!((store.decide("a", Decision::Commit), store.outcome("a")), (Err(Error::KeyUnknown), Ok(KeyOutcome::Unknown)));
    assert_eq!((store.decide("a", Decision::Abort), store.outcome("a")), (Ok(()), Ok(KeyOutcome::Aborted)));
    assert_eq!((store.decide("a", Decision::Abort), store.decide("a", Decision::Commit)), (Ok(()), Err(Error::Decided)));
    assert_eq!(prepared_under(&store, "a"), Err(Error::KeyAborted));
    assert_eq!(counted(&store).unwrap().commit_under("a"), Err(Error::KeyAborted));
    assert_eq!(store.attempt_under("a", [(0, "inc:1")]), Err(Error::KeyAborted));
    // what is no call is told first
    let no_call = Attempt::Ended { at: 1, how: Ending::Refused(Error::NoCall) };
    assert_eq!(store.attempt_under("a", [(0, "inc:1"), (0, "inc")]), Ok(no_call));
    assert_eq!(store.retry_under("a", &Retry::default(), |_| Ok::<(), Error>(())), Err(Error::KeyAborted));
    assert_eq!((store.kept(0), store.open_count()), (Ok(0), Ok(0)));
    assert_eq!(Error::KeyUnknown.to_string(), "nobody has this key");
}

fn a_key_has_one_transaction(make: Make) {
    let store = make(&[&counter()]);
    prepared_under(&store, "a").unwrap();
    prepared_under(&store, "b").unwrap();
    store.decide("b", Decision::Commit).unwrap();
    let mut t = counted(&store).unwrap();
    assert_eq!((t.prepare("a", 0), t.prepare("b", 0)), (Err(Error::KeyPrepared), Err(Error::KeyCommitted)));
    // it stays open, and may have another key
    t.expect(0, "inc:1", "ok").unwrap();
    assert_eq!((t.prepare("c", 0), keys(&store)), (Ok(()), vec!["a".to_string(), "c".to_string()]));
    store.decide("c", Decision::Commit).unwrap();
    let mut aborted = store.begin().unwrap();
    assert_eq!((aborted.prepare("a", 0), aborted.abort()), (Err(Error::KeyPrepared), Ok(())));
    assert_eq!((store.kept(0), store.open_count()), (Ok(4), Ok(1)));
    assert_eq!(Error::KeyPrepared.to_string(), "a transaction is prepared under this key");
    assert_eq!(Error::KeyCommitted.to_string(), "the transaction of this key committed");
}

fn it_is_prepared_once(make: Make) {
    let store = make(&[&counter()]);
    let mut t = store.begin().unwrap();
    assert_eq!((t.prepare("a", 17), t.prepare("a", 18), t.prepare("b", 0)), (Ok(()), Ok(()), Err(Error::Prepared)));
    let told = store.prepared().unwrap();
    assert_eq!((told.len(), told[0].until, told[0].objects.len(), Some(told[0].id)), (1, 17, 0, t.id()));
    assert_eq!(store.outcome("b"), Ok(KeyOutcome::Unknown));
}

fn what_is_no_key_is_asked_nothing(make: Make) {
    let store = make(&[&counter()]);
    let mut t = store.begin().unwrap();
    for text in ["", "a b", "a/b", "=a", "a\n1 end"] {
        let wrong = || Err(Error::BadKey(text.to_string()));
        assert_eq!((t.prepare(text, 0), store.decide(text, Decision::Abort), store.decide(text, Decision::Commit)), (wrong(), wrong(), wrong()));
    }
    t.expect(0, "inc:1", "ok").unwrap();
    assert_eq!((t.commit(), store.kept(0)), (Ok(()), Ok(1)));
}

/// A victim has nothing left to prepare.
fn what_isnt_open_isnt_prepared(make: Make) {
    let store = filled(make, 2);
    let (mut old, mut young) = (store.begin().unwrap(), store.begin().unwrap());
    old.expect(0, "inc:1", "ok").unwrap();
    young.expect(1, "inc:1", "ok").unwrap();
    thread::scope(|scope| {
        let older = scope.spawn(move || old.expect_within(1, "dec:1", "ok", LONG).and_then(|_| old.commit()));
        until_asleep(&store, 1);
        assert!(matches!(young.expect_within(0, "dec:1", "ok", LONG), Err(Error::Deadlock { .. })));
        assert_eq!((young.prepare("a", 0), store.outcome("a")), (Err(Error::NotOpen), Ok(KeyOutcome::Unknown)));
        assert_eq!(older.join().unwrap(), Ok(()));
    });
}

fn nothing_commits_under_its_key(make: Make) {
    let store = make(&[&counter()]);
    prepared_under(&store, "a").unwrap();
    let t = counted(&store).unwrap();
    assert_eq!((t.commit_under("a"), store.attempt_under("a", [(0, "inc:1")])), (Err(Error::KeyPrepared), Err(Error::KeyPrepared)));
    let worked = store.retry_under("a", &Retry::default(), |_| -> Result<(), Error> { panic!("it isn't to be done") });
    assert_eq!((worked, store.kept(0), store.open_count()), (Err(Error::KeyPrepared), Ok(1), Ok(1)));
    store.decide("a", Decision::Commit).unwrap();
    let t = counted(&store).unwrap();
    assert_eq!((t.commit_under("a"), store.attempt_under("a", [(0, "inc:1")])), (Ok(()), Err(Error::OtherCalls)));
    let known = store.retry_under("a", &Retry::default(), |_| Ok::<(), Error>(()));
    assert_eq!((known, store.kept(0), store.open_count()), (Ok(Keyed::Known { replies: vec![] }), Ok(1), Ok(0)));
}

/// Four that are prepared, and the objects at which each holds operations.
const HOLDING: [(&str, &[u32]); 4] = [("z", &[3, 7, 19]), ("a", &[4, 5]), ("m", &[]), ("b", &[])];

fn prepare_four(store: &SharedStore) -> Vec<TransactionId> {
    let mut ids = Vec::new();
    for (key, objects, taken_back) in [("z", &[19, 3, 3, 7, 3][..], 0), ("a", &[5, 4, 5, 6, 2], 2), ("m", &[], 0), ("b", &[1, 1], 2)] {
        let mut t = store.begin().unwrap();
        for (at, object) in objects.iter().enumerate() {
            let wait = Duration::from_millis(at as u64);
            if at % 2 == 0 { t.expect(*object, "inc:1", "ok") } else { t.expect_within(*object, "inc:1", "ok", wait) }.unwrap();
        }
        if taken_back > 0 {
            t.rollback(taken_back).unwrap();
        }
        t.prepare(key, 1_800_000_000).unwrap();
        ids.push(t.begun().unwrap());
    }
    ids
}

fn its_objects_are_listed(make: Make) {
    let store = make(&[&counter(); 20]);
    prepare_four(&store);
    let told: Vec<(String, Vec<u32>)> = store.prepared().unwrap().into_iter().map(|prepared| (prepared.key, prepared.objects)).collect();
    assert_eq!(told, HOLDING.map(|(key, objects)| (key.to_string(), objects.to_vec())));
}

fn what_is_prepared_is_listed(make: Make) {
    let of = counter();
    let store = make(&[&of; 20]);
    let ids = prepare_four(&store);
    assert_eq!(keys(&store), HOLDING.map(|(key, _)| key));
    let told: Vec<(TransactionId, u32)> = store.prepared().unwrap().into_iter().map(|Prepared { id, until, .. }| (id, until)).collect();
    assert_eq!(told, ids.iter().map(|id| (*id, 1_800_000_000)).collect::<Vec<_>>());
    store.decide("a", Decision::Abort).unwrap();
    assert_eq!(keys(&store), ["z", "m", "b"]);
}

/// Who is told that it is in the way sleeps once.
fn who_is_kept_out_waits_for_the_decision(make: Make) {
    for decision in [Decision::Commit, Decision::Abort] {
        let store = filled(make, 1);
        let id = prepared_under(&store, "a").unwrap();
        let mut t = store.begin().unwrap();
        assert_eq!(t.call(0, "dec:500"), Ok(Reply::Busy { blocker: id }));
        assert_eq!(t.call_within(0, "dec:500", Duration::from_millis(5)), Err(Error::TimedOut));
        let waits = store.stats().waits;
        thread::scope(|scope| {
            let waiter = scope.spawn(move || t.expect_within(0, "dec:500", "ok", LONG).and_then(|_| t.commit()));
            until_asleep(&store, waits + 1);
            store.decide("a", decision).unwrap();
            assert_eq!(waiter.join().unwrap(), Ok(()));
        });
        assert_eq!((store.stats().waits, store.kept(0)), (waits + 1, Ok(u64::from(decision == Decision::Commit))));
    }
}

fn an_attempt_waits_for_the_decision(make: Make) {
    let store = filled(make, 1);
    prepared_under(&store, "a").unwrap();
    thread::scope(|scope| {
        let waiter = scope.spawn(|| store.attempt_within([(0, "dec:500")], LONG).and_then(Attempt::executed));
        until_asleep(&store, 1);
        store.decide("a", Decision::Abort).unwrap();
        assert!(waiter.join().unwrap().is_ok());
    });
    assert_eq!((store.stats().waits, store.kept(0)), (1, Ok(0)));
}

/// In the place of its commit. Under a key it is no commit of that.
fn a_retry_may_prepare(make: Make) {
    let store = make(&[&counter()]);
    let mut blocker = Some(store.begin().unwrap());
    blocker.as_mut().unwrap().expect(0, "inc:1", "ok").unwrap();
    let mut tries = 0;
    let told = store.retry(&Retry::default(), |t| {
        tries += 1;
        if tries == 2 {
            blocker.take().unwrap().commit()?;
        }
        t.expect(0, "dec:1", "ok")?;
        t.prepare("a", 0).map(|()| 17)
    });
    assert_eq!((told, tries, store.open_count(), store.kept(0)), (Ok(17), 2, Ok(1), Ok(0)));
    assert_eq!((store.decide("a", Decision::Abort), store.kept(0)), (Ok(()), Ok(1)));
    let told = store.retry_under("b", &Retry::default(), |t| t.prepare("b", 0));
    assert_eq!((told, store.outcome("b")), (Err(Error::Prepared), Ok(KeyOutcome::Prepared)));
    assert_eq!(store.decide("b", Decision::Commit), Ok(()));
}

fn a_turn_asks_nothing(make: Make) {
    let store = make(&[&counter()]);
    let (mut t, mut prepared) = (store.begin().unwrap(), store.begin().unwrap());
    t.expect(0, "inc:1", "ok").unwrap();
    prepared.prepare("a", 0).unwrap();
    let told = store.transact(|_| Ok::<_, Error>((t.prepare("b", 0), prepared.call(0, "inc:1"), store.decide("a", Decision::Commit), store.prepared())));
    assert_eq!(told, Ok((Err(Error::InTurn), Err(Error::InTurn), Err(Error::InTurn), Err(Error::InTurn))));
    assert_eq!((t.prepare("b", 0), keys(&store)), (Ok(()), vec!["a".to_string(), "b".to_string()]));
    // nor does it end what is dropped in it
    let dropped = store.transact(|_| {
        drop((t, prepared));
        Ok::<_, Error>(17)
    });
    assert_eq!((dropped, keys(&store).len(), store.open_count()), (Ok(17), 2, Ok(2)));
}

/// How many threads ask at once, and how often.
const AT_ONCE: u64 = 4;
const ROUNDS: u64 = 10;

/// What each of some threads is told that do the same at once, told their numbers.
fn at_once<T: Send>(act: impl Fn(u64) -> T + Sync) -> Vec<T> {
    let (all, act) = (Barrier::new(AT_ONCE as usize), &act);
    thread::scope(|scope| {
        let threads = (0..AT_ONCE).map(|thread| {
            let all = &all;
            scope.spawn(move || {
                all.wait();
                act(thread)
            })
        });
        let threads: Vec<_> = threads.collect();
        threads.into_iter().map(|thread| thread.join().unwrap()).collect()
    })
}

fn of_those_at_once_one_is_prepared(make: Make) {
    let store = make(&[&counter()]);
    for round in 0..ROUNDS {
        let key = format!("round:{round}");
        let told = at_once(|_| prepared_under(&store, &key));
        let refused = told.iter().filter(|told| **told == Err(Error::KeyPrepared)).count() as u64;
        assert_eq!((refused, keys(&store), store.open_count()), (AT_ONCE - 1, vec![key.clone()], Ok(1)), "{told:?}");
        assert_eq!((store.decide(&key, Decision::Commit), store.kept(0)), (Ok(()), Ok(round + 1)));
    }
}

/// Who decides the same as whoever decided first is told so, and all others that it was decided.
fn of_decisions_at_once_one_is_made(make: Make) {
    let store = make(&[&counter()]);
    for round in 0..ROUNDS {
        let key = format!("round:{round}");
        let kept = store.kept(0).unwrap();
        // one of them prepares it, at the same time or too late
        let prepared = Mutex::new(Some(counted(&store).unwrap()));
        let told = at_once(|thread| {
            let mine = prepared.lock().unwrap().take();
            let decision = if thread % 2 == 0 { Decision::Commit } else { Decision::Abort };
            match mine {
                Some(mut t) => (None, t.prepare(&key, 0)),
                None => (Some(decision), store.decide(&key, decision)),
            }
        });
        let by = |decision| told.iter().filter(move |(by, _)| *by == Some(decision)).map(|(_, told)| told.clone());
        match store.outcome(&key).unwrap() {
            KeyOutcome::Committed { .. } => assert!(by(Decision::Abort).all(|told| told == Err(Error::Decided)) && store.kept(0) == Ok(kept + 1), "{told:?}"),
            KeyOutcome::Aborted => assert!(by(Decision::Abort).all(|told| told == Ok(())) && store.kept(0) == Ok(kept), "{told:?}"),
            outcome => assert!(outcome == KeyOutcome::Prepared && by(Decision::Commit).all(|told| told == Err(Error::KeyUnknown)), "{told:?}"),
        }
        let _may_be_decided = store.decide(&key, Decision::Abort);
        assert_eq!(store.open_count(), Ok(0));
    }
}

fn a_store_that_is_closed_decides_nothing(make: Make) {
    let store = make(&[&counter()]);
    let (mut t, mut prepared) = (store.begin().unwrap(), store.begin().unwrap());
    t.expect(0, "inc:1", "ok").unwrap();
    prepared.prepare("a", 0).unwrap();
    store.close().unwrap();
    assert_eq!((t.prepare("b", 0), prepared.call(0, "inc:1"), prepared.commit()), (Err(Error::Closed), Err(Error::Closed), Err(Error::Closed)));
    assert_eq!((store.decide("a", Decision::Commit), store.prepared()), (Err(Error::Closed), Err(Error::Closed)));
}

// ---- in memory alone

#[test]
fn it_goes_on_where_a_store_in_memory_begins_anew() {
    let of = counter();
    let store = in_memory(&[&of]);
    prepared_under(&store, "a").unwrap();
    assert_eq!((store.renew(), store.extend([&of])), (Ok(()), Err(Error::StillOpen)));
    assert_eq!((store.open_count(), store.outcome("a"), store.event_count(), store.forgotten_count()), (Ok(1), Ok(KeyOutcome::Prepared), Ok(2), Ok(2)));
    store.decide("a", Decision::Commit).unwrap();
    assert_eq!((store.renew(), store.extend([&of]), store.outcome("a"), store.kept(0)), (Ok(()), Ok(1), committed(), Ok(1)));
}

/// What is aborted in all is what isn't prepared, each as its worker.
#[test]
fn what_is_prepared_stays_where_all_is_aborted() {
    let store = in_memory(&[&counter()]);
    let (first, mut second, third) = (store.begin_as(3).unwrap(), store.begin_as(4).unwrap(), store.begin_as(5).unwrap());
    second.expect(0, "inc:1", "ok").unwrap();
    second.prepare("a", 0).unwrap();
    store.abort_all().unwrap();
    assert_eq!((store.open_count(), store.kept(0), keys(&store)), (Ok(1), Ok(1), vec!["a".to_string()]));
    assert_eq!(lines(&store, 4), ["abort 3 0", "abort 5 2"]);
    assert_eq!((first.commit(), third.abort(), second.commit()), (Err(Error::NotOpen), Err(Error::NotOpen), Err(Error::Prepared)));
    store.decide("a", Decision::Commit).unwrap();
    assert_eq!((lines(&store, 6), store.stats().aborts), (vec!["commit 4 1".to_string()], 2));
    // who began is forgotten with the begins
    prepared_under(&store, "c").unwrap();
    let forgotten = store.begin_as(6).unwrap();
    store.forget(u64::MAX).unwrap();
    store.abort_all().unwrap();
    assert_eq!((lines(&store, store.forgotten_count().unwrap()), forgotten.commit()), (vec!["abort 0 4".to_string()], Err(Error::NotOpen)));
    store.decide("c", Decision::Abort).unwrap();
    // with nothing prepared it is as before, and what it aborts isn't prepared any more, also in another epoch
    let (t, mut aborted) = (store.begin().unwrap(), store.begin().unwrap());
    store.abort_all().unwrap();
    assert_eq!((t.commit(), store.open_count(), aborted.prepare("b", 0)), (Err(Error::NotOpen), Ok(0), Err(Error::NotOpen)));
    store.renew().unwrap();
    let open = store.begin().unwrap();
    assert_eq!((aborted.prepare("b", 0), open.commit(), store.outcome("b")), (Err(Error::NotOpen), Ok(()), Ok(KeyOutcome::Unknown)));
}

#[test]
fn no_event_of_it_is_made_again() {
    let store = in_memory(&[&counter()]);
    prepared_under(&store, "a").unwrap();
    let open = store.begin().unwrap();
    let events = [
        Event::Begin { worker: 0, transaction: 2 },
        Event::Commit { worker: 0, transaction: 1 },
        Event::Abort { worker: 0, transaction: 0 },
        Event::Commit { worker: 0, transaction: 2 },
    ];
    let NotFollowed { made, error, .. } = store.follow(&events).unwrap_err();
    assert_eq!((made, error, store.open_count(), keys(&store)), (2, Error::NotMade, Ok(2), vec!["a".to_string()]));
    store.decide("a", Decision::Commit).unwrap();
    assert!(store.follow(&events[3..]).is_ok());
    assert_eq!((open.commit(), store.open_count(), store.kept(0)), (Err(Error::NotOpen), Ok(0), Ok(1)));
}

// ---- when the file was opened again

fn opened(folder: &Path) -> SharedStore {
    let of = counter();
    OpenOptions::new().objects([&of]).create(true).program(program()).open(folder.join("a.db")).unwrap()
}

fn kill(store: &SharedStore) {
    let process = store.child_process().unwrap().to_string();
    assert!(Command::new("kill").args(["-9", &process]).status().unwrap().success());
}

/// It is found with its name, keeps others out, and is decided, after an end and after a crash.
#[test]
fn it_is_found_when_the_file_is_open_again() {
    for is_killed in [false, true] {
        let folder = Folder::new();
        let store = opened(folder.path());
        store.transact(|turn| turn.expect(0, "inc:500", "ok")).unwrap();
        let (id, other) = (prepared_under(&store, "a").unwrap(), prepared_under(&store, "b").unwrap());
        let before = store.prepared();
        if is_killed {
            kill(&store);
        } else {
            store.close().unwrap();
        }
        drop(store);
        let store = opened(folder.path());
        assert_eq!((store.prepared(), store.outcome("a"), store.kept(0), store.open_count()), (before, Ok(KeyOutcome::Prepared), Ok(502), Ok(2)));
        store.decide("b", Decision::Abort).unwrap();
        let mut t = store.begin().unwrap();
        assert!(t.begun().unwrap().life > id.life);
        assert_eq!(t.call(0, "dec:500"), Ok(Reply::Busy { blocker: id }));
        thread::scope(|scope| {
            let waiter = scope.spawn(move || t.expect_within(0, "dec:500", "ok", LONG).and_then(|_| t.commit()));
            until_asleep(&store, 1);
            store.decide("a", Decision::Commit).unwrap();
            assert_eq!(waiter.join().unwrap(), Ok(()));
        });
        assert_eq!((store.stats().waits, store.kept(0), store.open_count()), (1, Ok(1), Ok(0)));
        if is_killed {
            // the epoch goes on
            assert_eq!((store.committed(id), store.committed(other)), (Ok(Some(true)), Ok(Some(false))));
        }
        store.close().unwrap();
        let store = opened(folder.path());
        assert_eq!((store.outcome("a"), store.outcome("b"), store.prepared()), (committed(), Ok(KeyOutcome::Aborted), Ok(vec![])));
        assert_eq!((store.decide("a", Decision::Commit), store.decide("b", Decision::Commit)), (Ok(()), Err(Error::Decided)));
        store.close().unwrap();
    }
}

/// Attempts too wait for it, and whoever has its number in the later life isn't taken for it.
#[test]
fn one_of_an_earlier_life_is_waited_for() {
    let folder = Folder::new();
    let store = opened(folder.path());
    store.transact(|turn| turn.expect(0, "inc:500", "ok")).unwrap();
    prepared_under(&store, "a").unwrap();
    store.close().unwrap();
    let store = opened(folder.path());
    thread::scope(|scope| {
        let waiter = scope.spawn(|| store.attempt_within([(0, "dec:500")], LONG).and_then(Attempt::executed));
        until_asleep(&store, 1);
        for _ in 0..4 {
            store.begin().unwrap().commit().unwrap();
        }
        thread::sleep(Duration::from_millis(20));
        assert!(!waiter.is_finished());
        store.decide("a", Decision::Abort).unwrap();
        assert!(waiter.join().unwrap().is_ok());
    });
    assert_eq!((store.stats().waits, store.kept(0)), (1, Ok(0)));
    store.close().unwrap();
}

/// It goes on in the epoch that begins with more objects, under its name.
#[test]
fn it_goes_on_where_an_epoch_ends() {
    let folder = Folder::new();
    let of = counter();
    let store = OpenOptions::new().objects([&of]).create(true).program(program()).open(folder.file("a.db")).unwrap();
    let (mut t, open) = (store.begin().unwrap(), store.begin().unwrap());
    t.expect(0, "inc:1", "ok").unwrap();
    t.prepare("a", 0).unwrap();
    let life = open.begun().unwrap().life;
    assert_eq!(store.extend([&of]), Ok(1));
    assert_eq!((open.commit(), t.call(0, "inc:1")), (Ok(()), Err(Error::Prepared)));
    let mut later = store.begin().unwrap();
    assert!(later.begun().unwrap().life > life);
    assert_eq!((later.call(0, "dec:500"), store.prepared().unwrap()[0].id), (Ok(Reply::Illegal), t.id().unwrap()));
    assert_eq!((store.decide("a", Decision::Commit), t.call(0, "inc:1"), store.kept(0)), (Ok(()), Err(Error::NotOpen), Ok(1)));
    assert_eq!((store.stats().commits, store.stats().aborts), (2, 0));
    later.abort().unwrap();
    store.close().unwrap();
}

/// One piece of work, which is prepared and then committed. Whether the child wasn't lost.
fn works(store: &SharedStore, thread: u64, work: u64) -> bool {
    let key = format!("{thread}:{work}");
    let done = || match store.outcome(&key)? {
        KeyOutcome::Unknown => {
            prepared_under(store, &key)?;
            store.decide(&key, Decision::Commit)
        }
        KeyOutcome::Prepared => store.decide(&key, Decision::Commit),
        outcome => {
            assert_eq!(Ok(outcome), committed());
            Ok(())
        }
    };
    match done() {
        Ok(()) => true,
        Err(Error::ConnectionLost(_) | Error::PrepareUnknown(_)) => false,
        Err(error) => panic!("{error:?}"),
    }
}

/// Whatever became of an answer, the outcome of the key says how to go on.
#[test]
fn work_is_done_once_though_the_child_is_killed() {
    let (folder, mut drawn) = (Folder::new(), Drawn::new(11));
    for _ in 0..KILLS {
        let store = opened(folder.path());
        thread::scope(|scope| {
            for thread in 0..THREADS {
                let store = &store;
                scope.spawn(move || (0..WORKS).all(|work| works(store, thread, work)));
            }
            thread::sleep(Duration::from_millis(drawn.below(60)));
            kill(&store);
        });
    }
    let store = opened(folder.path());
    for thread in 0..THREADS {
        assert!((0..WORKS).all(|work| works(&store, thread, work)));
    }
    assert_eq!((store.kept(0), store.open_count(), store.prepared()), (Ok(THREADS * WORKS), Ok(0), Ok(vec![])));
    store.close().unwrap();
}

/// Of escrow it holds what it took: others take beside it what is left.
#[test]
fn seats_are_held_while_a_bank_is_asked() {
    let folder = Folder::new();
    let seats = Type::stock(9, &[1, 2, 9], Kind::Escrow).unwrap();
    let store = OpenOptions::new().objects([("seats", &seats)]).create(true).program(program()).open(folder.file("a.db")).unwrap();
    store.transact(|turn| turn.expect("seats", "give:9", "ok")).unwrap();
    let mut t = store.begin().unwrap();
    t.expect("seats", "take:2", "ok").unwrap();
    t.prepare("order:4711", u32::MAX).unwrap();
    drop(t);
    let beside = store.attempt([("seats", "take:1")]).unwrap().executed().unwrap();
    assert_eq!((beside[0].reply.as_str(), store.kept("seats")), ("ok", Ok(8)));
    store.decide("order:4711", Decision::Commit).unwrap();
    assert_eq!(store.kept("seats"), Ok(6));
    store.close().unwrap();
}

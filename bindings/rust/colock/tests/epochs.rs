//! Epochs of a file that end while transactions are open. Where each yes of the checker is strong, what is open goes on under its name;
//! where one is one-way, it is aborted.

mod common;

use colock::{Attempt, Decision, Ending, Error, KeyOutcome, Kind, OpenOptions, Reply, Retry, SharedStore, SharedTransaction, TransactionId, Type};
use common::{id, one_way, program, until, until_asleep, Folder, LONG};
use std::fs;
use std::process::Command;
use std::thread;

/// More attempts of 64 calls than an epoch has room for.
const MOST_ATTEMPTS: u32 = 20_000;

/// A counter up to 20.
fn counter() -> Type {
    Type::counter(20, &[1, 5], Kind::Undo).unwrap()
}

/// A store in a file of these objects, in which what is open may go on for a second where an epoch has to end.
fn opened(folder: &Folder, objects: &[&Type]) -> SharedStore {
    OpenOptions::new().objects(objects).create(true).drain(1).program(program()).open(folder.file("a.db")).unwrap()
}

/// The store in the file once more.
fn again(folder: &Folder) -> SharedStore {
    OpenOptions::new().program(program()).open(folder.file("a.db")).unwrap()
}

/// The same, with an archive.
fn archived(folder: &Folder, options: OpenOptions<'_>) -> SharedStore {
    options.archive(folder.file("old")).drain(1).program(program()).open(folder.file("a.db")).unwrap()
}

/// A store in a new file of these objects, with an archive.
fn newly_archived(folder: &Folder, objects: &[&Type]) -> SharedStore {
    fs::create_dir(folder.file("old")).unwrap();
    archived(folder, OpenOptions::new().objects(objects).create(true))
}

/// Ends the epoch, by one object more.
fn end_epoch(store: &SharedStore) {
    store.extend([&counter()]).unwrap();
}

fn kill(store: &SharedStore) {
    let process = store.child_process().unwrap().to_string();
    assert!(Command::new("kill").args(["-9", &process]).status().unwrap().success());
}

/// Two transactions of two lives, each of which has counted up at an object of its own.
fn of_two_lives(store: &SharedStore) -> (SharedTransaction<'_>, SharedTransaction<'_>) {
    store.attempt([(0, "inc:5"), (1, "inc:5")]).unwrap().executed().unwrap();
    let mut first = store.begin().unwrap();
    first.expect(0, "inc:1", "ok").unwrap();
    end_epoch(store);
    let mut second = store.begin().unwrap();
    second.expect(1, "inc:1", "ok").unwrap();
    (first, second)
}

/// A transaction that has counted up at the first object.
fn up(store: &SharedStore) -> SharedTransaction<'_> {
    let mut t = store.begin().unwrap();
    t.expect(0, "inc:1", "ok").unwrap();
    t
}

/// What is said of each.
fn told(store: &SharedStore, ids: &[TransactionId]) -> Vec<Option<bool>> {
    ids.iter().map(|id| store.committed(*id).unwrap()).collect()
}

fn busy(blocker: &str) -> Result<Reply, Error> {
    Ok(Reply::Busy { blocker: id(blocker) })
}

// ---- where each yes is strong

/// It keeps its operations and its locks in each of the lives.
#[test]
fn what_is_open_goes_on() {
    let (folder, of) = (Folder::new(), counter());
    let store = opened(&folder, &[&of, &of]);
    store.begin().unwrap().commit().unwrap();
    let mut t = store.begin().unwrap();
    t.expect(0, "inc:5", "ok").unwrap();
    for life in 2..5 {
        end_epoch(&store);
        let mut other = store.begin().unwrap();
        assert_eq!(other.begun().unwrap().life, life);
        assert_eq!((other.call(0, "dec:5"), other.would(0, "dec:1")), (busy("1.1"), busy("1.1")));
        let ended = Attempt::Ended { at: 1, how: Ending::Busy { blocker: id("1.1") } };
        assert_eq!(store.attempt([(1, "inc:1"), (0, "dec:1")]), Ok(ended));
        other.expect(1, "inc:1", "ok").unwrap();
        other.commit().unwrap();
        t.expect(0, "inc:1", "ok").unwrap();
        t.expect(0, "inc:1", "ok").unwrap();
        t.rollback(1).unwrap();
        assert!(t.would(0, "dec:5").unwrap().is("ok"));
        assert_eq!(store.committed_states([0, 1]).unwrap().value, [0, life - 1]);
    }
    assert_eq!((t.id(), t.commit()), (Some(id("1.1")), Ok(())));
    assert_eq!((store.kept(0), store.kept(1), store.open_count()), (Ok(8), Ok(3), Ok(0)));
    assert_eq!((store.stats().commits, store.stats().aborts), (5, 3));
    store.close().unwrap();
    let store = again(&folder);
    assert_eq!((store.kept(0), store.kept(1)), (Ok(8), Ok(3)));
    store.close().unwrap();
}

/// It keeps others out all the time.
#[test]
fn what_is_open_goes_on_in_a_full_epoch() {
    let (folder, of) = (Folder::new(), counter());
    let store = opened(&folder, &[&of, &of]);
    let mut t = store.begin().unwrap();
    t.expect(0, "inc:5", "ok").unwrap();
    let calls = ["inc:1", "dec:1"].repeat(32).into_iter().map(|call| (1, call));
    let kept_out = Attempt::Ended { at: 0, how: Ending::Busy { blocker: id("1.0") } };
    let has_ended = |_| {
        assert!(store.attempt(calls.clone()).unwrap().executed().is_ok());
        assert_eq!(store.attempt([(0, "dec:5")]).as_ref(), Ok(&kept_out));
        store.moment().unwrap().epoch > 1
    };
    assert!((0..MOST_ATTEMPTS).any(has_ended));
    assert_eq!(store.begin().unwrap().call(0, "dec:5"), busy("1.0"));
    t.expect(0, "inc:1", "ok").unwrap();
    assert_eq!((t.commit(), store.kept(0)), (Ok(()), Ok(6)));
    store.close().unwrap();
}

/// By its end, by a drop, and by a decision, all of a later life.
#[test]
fn who_waits_is_woken_in_a_later_life() {
    type LetGo = fn(&SharedStore, SharedTransaction<'_>);
    let rows: [(LetGo, u64); 3] = [
        (|_, t| t.commit().unwrap(), 7),
        (|_, t| drop(t), 2),
        (
            |store, mut t| {
                t.prepare("a", 0).unwrap();
                store.decide("a", Decision::Commit).unwrap();
            },
            7,
        ),
    ];
    for (let_go, kept) in rows {
        let (folder, of) = (Folder::new(), counter());
        let store = opened(&folder, &[&of]);
        store.transact(|turn| turn.expect(0, "inc:5", "ok")).unwrap();
        let mut t = store.begin().unwrap();
        t.expect(0, "inc:5", "ok").unwrap();
        let down = || store.begin().unwrap();
        let waits = |mut t: SharedTransaction<'_>| t.expect_within(0, "dec:1", "ok", LONG).and_then(|_| t.commit());
        thread::scope(|scope| {
            let earlier = down();
            earlier.begun().unwrap();
            let earlier = scope.spawn(move || waits(earlier));
            until_asleep(&store, 1);
            end_epoch(&store);
            until_asleep(&store, 2); // it has asked once more
            let later = scope.spawn(move || waits(down()));
            until_asleep(&store, 3);
            let attempt = scope.spawn(|| store.attempt_within([(0, "dec:1")], LONG).and_then(Attempt::executed));
            until_asleep(&store, 4);
            assert!(!(earlier.is_finished() || later.is_finished() || attempt.is_finished()));
            let_go(&store, t);
            assert_eq!((earlier.join().unwrap(), later.join().unwrap()), (Ok(()), Ok(())));
            assert!(attempt.join().unwrap().is_ok());
        });
        assert_eq!((store.kept(0), store.open_count(), store.stats().deadlocks), (Ok(kept), Ok(0), 0));
        store.close().unwrap();
    }
}

/// Of two lives, which are open beside each other: each keeps out others, and only its own end wakes them.
#[test]
fn two_have_one_number() {
    let (folder, of) = (Folder::new(), counter());
    let store = opened(&folder, &[&of, &of]);
    let (mut first, mut second) = of_two_lives(&store);
    assert_eq!((first.id(), second.id()), (Some(id("1.1")), Some(id("2.1"))));
    assert_eq!((second.call(0, "dec:1"), first.call(1, "dec:1")), (busy("1.1"), busy("2.1")));
    let waits = |object: u32| store.retry(&Retry::default(), |t| t.expect_within(object, "dec:1", "ok", LONG));
    thread::scope(|scope| {
        let (of_first, of_second) = (scope.spawn(move || waits(0)), scope.spawn(move || waits(1)));
        until_asleep(&store, 2);
        second.commit().unwrap();
        assert!(of_second.join().unwrap().is_ok() && !of_first.is_finished());
        first.commit().unwrap();
        assert!(of_first.join().unwrap().is_ok());
    });
    assert_eq!((store.kept(0), store.kept(1), store.stats().waits), (Ok(5), Ok(5), 2));
    store.close().unwrap();
}

/// A circle of two lives is seen, and its victim is told for whom it waited.
#[test]
fn a_circle_of_two_lives_is_broken() {
    let (folder, of) = (Folder::new(), counter());
    let store = opened(&folder, &[&of, &of]);
    let (mut first, mut second) = of_two_lives(&store);
    thread::scope(|scope| {
        let older = scope.spawn(move || first.expect_within(1, "dec:1", "ok", LONG).and_then(|_| first.commit()));
        until_asleep(&store, 1);
        let victim = second.expect_within(0, "dec:1", "ok", LONG);
        assert_eq!((victim, older.join().unwrap()), (Err(Error::Deadlock { waited_for: id("1.1") }), Ok(())));
    });
    assert_eq!((store.kept(0), store.kept(1), store.stats().deadlocks), (Ok(6), Ok(4), 1));
    store.close().unwrap();
}

/// A function is run once over the end of an epoch.
#[test]
fn a_retry_goes_on() {
    let (folder, of) = (Folder::new(), counter());
    let store = opened(&folder, &[&of]);
    let mut tries = 0;
    let told = store.retry(&Retry::default(), |t| {
        tries += 1;
        t.expect(0, "inc:1", "ok")?;
        end_epoch(&store);
        t.expect(0, "inc:1", "ok").map(|_| t.id())
    });
    assert_eq!((told, tries, store.kept(0)), (Ok(Some(id("1.0"))), 1, Ok(2)));
    store.close().unwrap();
}

/// It is prepared in a later life under its name, which it keeps where the child is killed.
#[test]
fn it_is_prepared_in_a_later_life() {
    let (folder, of) = (Folder::new(), counter());
    let store = opened(&folder, &[&of]);
    let mut t = store.begin().unwrap();
    t.expect(0, "inc:5", "ok").unwrap();
    end_epoch(&store);
    t.prepare("a", 7).unwrap();
    end_epoch(&store);
    assert_eq!((t.call(0, "inc:1"), store.begin().unwrap().call(0, "dec:5")), (Err(Error::Prepared), busy("1.0")));
    kill(&store);
    drop(store.begin());
    drop(t);
    drop(store);
    let store = again(&folder);
    let prepared: Vec<TransactionId> = store.prepared().unwrap().into_iter().map(|prepared| prepared.id).collect();
    assert_eq!((prepared, store.outcome("a")), (vec![id("1.0")], Ok(KeyOutcome::Prepared)));
    assert_eq!((store.decide("a", Decision::Commit), store.kept(0)), (Ok(()), Ok(5)));
    store.close().unwrap();
}

/// Of five of one life one ends in its epoch, and the others in the three epochs after it and in the present one, by the archive.
#[test]
fn what_went_over_is_told_by_later_epochs() {
    let (folder, of) = (Folder::new(), counter());
    let store = newly_archived(&folder, &[&of]);
    let [first, second, third, mut fourth, mut fifth] = [(); 5].map(|()| up(&store));
    let ids = [&first, &second, &third, &fourth, &fifth].map(|t| t.id().unwrap());
    first.commit().unwrap();
    end_epoch(&store);
    third.commit().unwrap();
    assert_eq!(told(&store, &ids), [Some(true), None, Some(true), None, None]);
    end_epoch(&store);
    second.abort().unwrap();
    fourth.prepare("a", 7).unwrap();
    fifth.prepare("b", 7).unwrap();
    end_epoch(&store);
    assert_eq!(told(&store, &ids), [Some(true), Some(false), Some(true), None, None]);
    kill(&store);
    until(|| store.kept(0).is_err());
    drop((fourth, fifth));
    drop(store);
    for (key, decision, wanted) in [("a", Decision::Commit, [Some(true), None]), ("b", Decision::Abort, [Some(true), Some(false)])] {
        let store = archived(&folder, OpenOptions::new());
        store.decide(key, decision).unwrap();
        assert_eq!(told(&store, &ids), [&[Some(true), Some(false), Some(true)], &wanted[..]].concat());
        store.close().unwrap();
    }
    let store = archived(&folder, OpenOptions::new());
    assert_eq!(told(&store, &ids), [true, false, true, true, false].map(Some));
    store.close().unwrap();
    assert_eq!(told(&again(&folder), &ids), [None; 5]);
}

/// With its child what is open is lost, of whatever life, and who waits is told so.
#[test]
fn a_child_is_killed_in_a_later_life() {
    let (folder, of) = (Folder::new(), counter());
    let store = opened(&folder, &[&of]);
    store.transact(|turn| turn.expect(0, "inc:1", "ok")).unwrap();
    let mut t = store.begin().unwrap();
    t.expect(0, "inc:5", "ok").unwrap();
    end_epoch(&store);
    thread::scope(|scope| {
        let waits = scope.spawn(|| store.begin().unwrap().expect_within(0, "dec:1", "ok", LONG).map(drop));
        until_asleep(&store, 1);
        kill(&store);
        let is_lost = |told: Result<(), Error>| matches!(told, Err(Error::ConnectionLost(_)));
        until(|| store.kept(0).is_err());
        assert!(is_lost(waits.join().unwrap()) && is_lost(t.call(0, "inc:1").map(drop)) && is_lost(t.commit()));
    });
    drop(store);
    let store = again(&folder);
    assert_eq!((store.kept(0), store.open_count(), store.committed(id("1.1"))), (Ok(1), Ok(0), Ok(None)));
    store.transact(|turn| turn.expect(0, "dec:1", "ok")).unwrap();
    store.close().unwrap();
}

// ---- where a yes is one-way

/// What is open is aborted, and those who wait for it are woken: a transaction, which was aborted too, and an attempt, which goes on.
#[test]
fn what_is_open_is_aborted_where_a_yes_is_one_way() {
    let (folder, of) = (Folder::new(), counter());
    let store = opened(&folder, &[&of, &one_way()]);
    store.transact(|turn| turn.expect(0, "inc:1", "ok")).unwrap();
    let (mut t, mut idle) = (store.begin().unwrap(), store.begin().unwrap());
    t.expect(0, "inc:5", "ok").unwrap();
    idle.expect(1, "q", "ok").unwrap();
    thread::scope(|scope| {
        let waits = scope.spawn(|| store.begin().unwrap().expect_within(0, "dec:1", "ok", LONG).map(drop));
        until_asleep(&store, 1);
        let attempt = scope.spawn(|| store.attempt_within([(0, "dec:1")], LONG).and_then(Attempt::executed));
        until_asleep(&store, 2);
        end_epoch(&store);
        assert_eq!((waits.join().unwrap(), attempt.join().unwrap().is_ok()), (Err(Error::EpochEnded), true));
    });
    assert_eq!((t.call(0, "inc:1"), t.rollback(1)), (Err(Error::EpochEnded), Err(Error::EpochEnded)));
    assert_eq!((store.begin().unwrap().begun().map(|id| id.life), t.commit(), idle.prepare("a", 0)), (Ok(2), Err(Error::EpochEnded), Err(Error::EpochEnded)));
    assert_eq!((store.kept(0), store.open_count(), store.outcome("a")), (Ok(0), Ok(0), Ok(KeyOutcome::Unknown)));
    store.close().unwrap();
}

/// What is prepared goes over, in the place of one that was aborted.
#[test]
fn what_was_prepared_is_told_where_a_yes_is_one_way() {
    let (folder, of) = (Folder::new(), counter());
    let store = newly_archived(&folder, &[&of, &one_way()]);
    let (first, mut second) = (up(&store), up(&store));
    let ids = [&first, &second].map(|t| t.id().unwrap());
    second.prepare("a", 7).unwrap();
    end_epoch(&store);
    assert_eq!(told(&store, &ids), [Some(false), None]);
    up(&store).abort().unwrap();
    store.decide("a", Decision::Commit).unwrap();
    assert_eq!((told(&store, &ids), first.commit()), (vec![Some(false), Some(true)], Err(Error::EpochEnded)));
    store.close().unwrap();
}

/// A function is run again where the end of an epoch aborted its transaction.
#[test]
fn a_retry_begins_anew_where_a_yes_is_one_way() {
    let (folder, of) = (Folder::new(), counter());
    let store = opened(&folder, &[&of, &one_way()]);
    let mut tries = 0;
    let told = store.retry(&Retry::default(), |t| {
        tries += 1;
        t.expect(0, "inc:1", "ok")?;
        if tries == 1 {
            end_epoch(&store);
        }
        t.expect(0, "inc:1", "ok").map(|_| t.id())
    });
    assert_eq!((told, tries, store.kept(0)), (Ok(Some(id("2.0"))), 2, Ok(2)));
    assert_eq!((store.stats().commits, store.stats().aborts), (1, 1));
    store.close().unwrap();
}

//! A store in a file: made, opened again, killed, archived; and what is said of its transactions then.

mod common;

use colock::{Error, Kind, OpenOptions, Reply, SharedStore, TransactionId, Type};
use common::{counter, id, lines, number, program, until_asleep, Drawn, Folder, Telling, Told, LONG};
use std::error::Error as _;
use std::fs;
use std::io;
use std::path::Path;
use std::process::Command;
use std::sync::Mutex;
use std::thread;
use std::time::Duration;

/// How often a child is killed with commits in flight; `KILLS` in the environment names another number.
const KILLS: u64 = 20;

/// How many kills there are in a row before the store is ended.
const KILLS_OF_AN_EPOCH: u64 = 5;

const SIZE: u64 = 31;

/// A wheel whose ticks all commute: it says how many there were, modulo its size. Where it is can be read, so that no two
/// states look alike.
fn wheel() -> Type {
    let places: Vec<String> = (0..SIZE).map(|place| place.to_string()).collect();
    let operations: Vec<(&str, &str)> = [("tick", "ok")].into_iter().chain(places.iter().map(|place| ("at", place.as_str()))).collect();
    Type::from_steps("wheel", 0, &operations, Kind::Undo, |at, (call, reply)| match call {
        "tick" => Some((at + 1) % SIZE),
        _ => (reply == at.to_string()).then_some(*at),
    })
    .unwrap()
}

fn options(objects: &[&'static Type]) -> OpenOptions<'static> {
    OpenOptions::new().objects(objects).create(true).program(program())
}

/// A type that is never dropped.
fn kept(of: Type) -> &'static Type {
    Box::leak(Box::new(of))
}

fn kill(store: &SharedStore) {
    let process = store.child_process().unwrap().to_string();
    assert!(Command::new("kill").args(["-9", &process]).status().unwrap().success());
}

/// The lives by which histories are named, in order, each behind the id of a store.
fn lives(archive: &Path) -> Vec<String> {
    let names = fs::read_dir(archive).unwrap().map(|file| file.unwrap().file_name().into_string().unwrap());
    let mut lives: Vec<String> = names.map(|name| life_in(&name).unwrap_or_else(|| panic!("{name}"))).collect();
    lives.sort();
    lives
}

/// The life in the name of a history.
fn life_in(name: &str) -> Option<String> {
    let (id, life) = name.strip_suffix(".history")?.split_once('-')?;
    let is_id = id.len() == 32 && id.bytes().all(|digit| matches!(digit, b'0'..=b'9' | b'a'..=b'f'));
    is_id.then(|| life.to_owned())
}

fn is_gone(process: u32) -> bool {
    !Path::new(&format!("/proc/{process}")).exists()
}

#[test]
fn a_file_is_made_and_opened_again() {
    let (folder, options) = (Folder::new(), options(&[kept(counter()), kept(wheel())]));
    let store = options.clone().open(folder.file("a.db")).unwrap();
    store.transact(|turn| turn.expect(0, "inc:500", "ok")).unwrap();
    let process = store.child_process().unwrap();
    assert!(!is_gone(process));
    store.close().unwrap();
    assert!(is_gone(process));
    let again = options.clone().create(false).open(folder.file("a.db")).unwrap();
    assert_eq!((again.kept(0), again.kept(1), again.event_count()), (Ok(500), Ok(0), Ok(0)));
    // an end is a life, and an opening too
    assert_eq!(again.begin().unwrap().begun(), Ok(id("3.0")));
    drop(again);
    // by the program that COLOCK names
    let any = OpenOptions::new().fast(true).drain(1).open(folder.file("a.db")).unwrap();
    assert_eq!((any.kept(0), any.begin().unwrap().begun()), (Ok(500), Ok(id("5.0"))));
}

#[test]
fn types_of_each_source_are_made() {
    let folder = Folder::new();
    let texts = "type flag\nstates 2\ninitial 0\nop raise ok\nop lower ok\nstep 0 0 1\nstep 1 1 0\nend\n";
    let conflicts = "conflict undo 0 0\nconflict undo 0 1\nconflict undo 1 0\nconflict undo 1 1\nend\n";
    let types = [
        Type::read(texts.replace("end\n", conflicts), Kind::Undo).unwrap(),
        Type::with_made_tables(texts, Kind::Intentions).unwrap(),
        Type::account(5, &[1, 2], Kind::Intentions).unwrap(),
        Type::set(&["-a", "b"], Kind::Undo).unwrap(),
        Type::semiqueue(&["mail", "report"], 2, Kind::Undo).unwrap(),
        wheel(),
        Type::account(5, &[1, 2], Kind::Escrow).unwrap(),
        Type::read(texts, Kind::Escrow).unwrap(),
        Type::from_steps("box", 2, &[("put", "ok"), ("get", "ok")], Kind::Escrow, step_of_a_box).unwrap(),
        Type::number(1_000_000, &[250]).unwrap(),
        Type::read("number purse\nmax 10000\ninitial 500\ntake any\ngive any\nvalue\nend\n", Kind::Escrow).unwrap(),
    ];
    let objects: Vec<&Type> = types.iter().chain([&types[0], &types[3]]).collect();
    let store = OpenOptions::new().objects(&objects).create(true).program(program()).open(folder.file("a.db")).unwrap();
    let mut t = store.begin().unwrap();
    let calls = ["raise", "raise", "deposit:2", "insert:-a", "enq:mail", "tick", "deposit:1", "raise", "put", "give:250", "take:17", "raise", "member:b"];
    for (object, call) in calls.into_iter().enumerate() {
        assert!(matches!(t.call(object as u32, call), Ok(Reply::Operation(_))), "{call}");
    }
    assert_eq!(t.call(3, "member:-a").told(), Ok(Told::Operation(types[3].operation("member:-a", "true").unwrap())));
    t.commit().unwrap();
    assert_eq!([6, 7, 8, 9, 10].map(|object| store.kept(object)), [1, 1, 3, 250, 483].map(Ok));
    store.close().unwrap();
}

/// Puts and gets of a box for three pieces.
fn step_of_a_box(pieces: &u32, (call, _): (&str, &str)) -> Option<u32> {
    match call {
        "put" => (*pieces < 3).then_some(pieces + 1),
        _ => pieces.checked_sub(1),
    }
}

#[test]
fn a_number_in_escrow_is_opened_again() {
    let (folder, five) = (Folder::new(), kept(Type::counter(5, &[1, 2], Kind::Escrow).unwrap()));
    let store = options(&[five]).open(folder.file("a.db")).unwrap();
    let (mut t, mut u) = (store.begin().unwrap(), store.begin().unwrap());
    assert_eq!((t.call(0, "inc:2").told(), u.call(0, "inc:1").told()), (Ok(Told::Operation(2.into())), Ok(Told::Operation(0.into()))));
    assert_eq!(store.kept(0), Ok(0));
    t.commit().unwrap();
    assert_eq!(store.kept(0), Ok(2));
    kill(&store);
    drop(u);
    drop(store);
    let again = options(&[five]).open(folder.file("a.db")).unwrap();
    assert_eq!((again.kept(0), again.begin().unwrap().call(0, "dec:2").told()), (Ok(2), Ok(Told::Operation(3.into()))));
}

#[test]
fn other_objects_are_refused() {
    let folder = Folder::new();
    let path = folder.file("a.db");
    options(&[kept(counter())]).open(&path).unwrap().close().unwrap();
    let deferred = kept(Type::counter(1000, &[1, 500], Kind::Intentions).unwrap());
    let smaller = kept(Type::counter(999, &[1, 500], Kind::Undo).unwrap());
    let escrow = kept(Type::counter(1000, &[1, 500], Kind::Escrow).unwrap());
    for objects in [&[kept(counter()), kept(counter())][..], &[deferred], &[smaller], &[escrow], &[kept(wheel())]] {
        assert_eq!(options(objects).open(&path).err(), Some(Error::OtherObjects));
    }
    assert!(options(&[kept(counter())]).open(&path).is_ok());
}

/// The words with which a file isn't opened.
fn refused(options: OpenOptions<'_>, path: impl AsRef<std::path::Path>) -> String {
    match options.open(path) {
        Err(Error::CannotOpen(failure)) => failure.to_string(),
        other => panic!("{other:?}"),
    }
}

#[test]
fn what_cant_be_opened_is_told() {
    let (folder, counter) = (Folder::new(), kept(counter()));
    let path = folder.file("a.db");
    let missing = OpenOptions::new().program(program()).objects([counter]);
    assert!(refused(missing.clone(), &path).contains("no such file"));
    assert!(!path.exists());
    assert_eq!(OpenOptions::new().program(program()).create(true).open(&path).err(), Some(Error::NoObjects));
    let nowhere = folder.file("no-program");
    assert!(refused(missing.clone().program(&nowhere), &path).contains("no-program"));
    let source = missing.clone().program(&nowhere).open(&path).unwrap_err().source().and_then(|source| source.downcast_ref::<io::Error>().map(io::Error::kind));
    assert_eq!(source, Some(io::ErrorKind::NotFound));
    assert!(refused(missing.clone().create(true).program(&nowhere), &path).contains("no-program"));
    assert!(refused(missing.clone().create(true), folder.file("none/a.db")).contains("none/a.db"));
    fs::write(folder.file("text"), "no store").unwrap();
    assert!(refused(missing.clone().create(true), folder.file("text")).contains("not a store"));
    let _open = missing.clone().create(true).open(&path).unwrap();
    assert!(refused(missing, &path).contains("in use"));
}

#[test]
fn a_child_that_is_killed_is_lost() {
    let folder = Folder::new();
    let store = options(&[kept(counter())]).open(folder.file("a.db")).unwrap();
    store.transact(|turn| turn.expect(0, "inc:1", "ok")).unwrap();
    let process = store.child_process().unwrap();
    let (mut holder, mut waiter) = (store.begin().unwrap(), store.begin().unwrap());
    holder.call(0, "inc:1").unwrap().expected("ok").unwrap();
    thread::scope(|scope| {
        let asleep = scope.spawn(move || waiter.call_within(0, "dec:1", LONG));
        until_asleep(&store, 1);
        kill(&store);
        assert!(matches!(asleep.join().unwrap(), Err(Error::ConnectionLost(_))));
    });
    assert!(is_gone(process)); // it is reaped
    assert!(matches!(holder.call(0, "inc:1"), Err(Error::ConnectionLost(_))));
    assert!(matches!(holder.call_within(0, "inc:1", LONG), Err(Error::ConnectionLost(_))));
    // nothing of it was written
    assert!(matches!(holder.commit(), Err(Error::ConnectionLost(_))));
    assert!(matches!(store.begin(), Err(Error::ConnectionLost(_))));
    assert!(matches!(store.kept(0), Err(Error::ConnectionLost(_))));
    assert!(matches!(store.transact(|turn| turn.expect(0, "inc:1", "ok")), Err(Error::ConnectionLost(_))));
    assert_eq!(store.call_number(0, "dec:1"), Ok(1.into())); // which the client knows
    assert!(matches!(store.close(), Err(Error::ConnectionLost(_))));
}

#[test]
fn a_lost_store_isnt_closed_in_silence() {
    for is_noticed in [false, true] {
        let folder = Folder::new();
        let store = options(&[kept(counter())]).open(folder.file("a.db")).unwrap();
        store.transact(|turn| turn.expect(0, "inc:1", "ok")).unwrap();
        kill(&store);
        if is_noticed {
            common::until(|| store.begin().is_err());
        }
        assert!(matches!(store.close(), Err(Error::ConnectionLost(_))), "{is_noticed}");
    }
}

/// What clients know of the commits of one opening.
#[derive(Default)]
struct Known {
    answered: Vec<TransactionId>,
    unknown: Vec<TransactionId>,
}

/// Commits until the child is lost.
fn commit_on(store: &SharedStore, known: &Mutex<Known>) {
    loop {
        let Ok(mut t) = store.begin() else { return };
        let Ok(Reply::Operation(_)) = t.call(0, "tick") else { return };
        let id = t.id().unwrap(); // known with the answer to the call
        match t.commit() {
            Ok(()) => known.lock().unwrap().answered.push(id),
            Err(Error::OutcomeUnknown(of)) => {
                assert_eq!(of, id);
                known.lock().unwrap().unknown.push(id);
            }
            Err(Error::ConnectionLost(_)) => return,
            Err(error) => panic!("{error}"),
        }
    }
}

/// Eight threads that commit until the child is killed.
fn killed(store: SharedStore, after: Duration) -> Known {
    let known = Mutex::new(Known::default());
    thread::scope(|scope| {
        for _ in 0..8 {
            scope.spawn(|| commit_on(&store, &known));
        }
        thread::sleep(after);
        kill(&store);
    });
    known.into_inner().unwrap()
}

/// How many of the commits that were known of the opening before are there, by what is said of each.
fn told(store: &SharedStore, known: &Known) -> u64 {
    let of_each = |ids: &[TransactionId]| ids.iter().map(|id| store.committed(*id).unwrap().unwrap()).collect::<Vec<bool>>();
    assert!(of_each(&known.answered[known.answered.len().saturating_sub(5)..]).iter().all(|is_committed| *is_committed));
    let unknown = of_each(&known.unknown);
    (known.answered.len() + unknown.iter().filter(|is_committed| **is_committed).count()) as u64
}

#[test]
fn commits_in_flight_are_found_or_not() {
    let kills = std::env::var("KILLS").ok().and_then(|kills| kills.parse().ok()).unwrap_or(KILLS);
    let (folder, options, mut drawn) = (Folder::new(), options(&[kept(wheel())]), Drawn::new(7));
    let (mut count, mut unknown) = (0, 0);
    let mut store = options.clone().open(folder.file("a.db")).unwrap();
    for round in 0..kills {
        let known = killed(store, Duration::from_micros(500 + drawn.below(20_000)));
        store = options.clone().open(folder.file("a.db")).unwrap();
        let found = told(&store, &known);
        count += found;
        unknown += known.unknown.len();
        assert_eq!(store.kept(0), Ok(count % SIZE), "behind {round} rounds");
        if round % KILLS_OF_AN_EPOCH == KILLS_OF_AN_EPOCH - 1 {
            store.close().unwrap();
            store = options.clone().open(folder.file("a.db")).unwrap();
            assert_eq!((store.kept(0), store.event_count()), (Ok(count % SIZE), Ok(0)));
        }
    }
    println!("{kills} kills, {count} commits, {unknown} of which nothing was known");
    assert!(unknown > 0);
}

#[test]
fn of_a_lost_begin_nothing_is_told_by_a_later_one() {
    let (folder, options) = (Folder::new(), options(&[kept(wheel())]));
    let store = options.clone().open(folder.file("a.db")).unwrap();
    let lost = store.begin().unwrap();
    let name = lost.begun().unwrap();
    kill(&store);
    assert!(lost.commit().is_err());
    drop(store);
    let store = options.open(folder.file("a.db")).unwrap();
    // its begin was never durable, so another transaction has its number
    let mut other = store.begin().unwrap();
    assert_eq!((name, other.begun()), (id("1.0"), Ok(id("2.0"))));
    other.call(0, "tick").unwrap().expected("ok").unwrap();
    other.commit().unwrap();
    assert_eq!((store.committed(id("1.0")), store.committed(id("2.0"))), (Ok(Some(false)), Ok(Some(true))));
}

#[test]
fn an_archive_tells_of_epochs_that_ended() {
    let folder = Folder::new();
    let archive = folder.file("old");
    fs::create_dir(&archive).unwrap();
    let options = options(&[kept(wheel())]).archive(&archive);
    let store = options.clone().open(folder.file("a.db")).unwrap();
    store.transact(|turn| turn.expect(0, "tick", "ok")).unwrap();
    store.begin().unwrap().abort().unwrap();
    store.close().unwrap();
    assert_eq!(lives(&archive), ["1"]);
    let store = options.clone().open(folder.file("a.db")).unwrap();
    let mut t = store.begin().unwrap();
    assert_eq!((t.call(0, "tick").told(), t.id()), (Ok(Told::Operation(0.into())), Some(id("3.0"))));
    t.commit().unwrap();
    assert_eq!((store.committed(id("1.0")), store.committed(id("1.1")), store.committed(id("1.2"))), (Ok(Some(true)), Ok(Some(false)), Ok(None)));
    assert_eq!((store.committed(id("3.0")), store.committed(id("2.0")), store.committed(id("4.0"))), (Ok(Some(true)), Ok(Some(false)), Ok(None)));
    kill(&store);
    drop(store);
    // the epoch goes on after the crash, and ends in life 4
    let store = options.clone().open(folder.file("a.db")).unwrap();
    assert_eq!(store.committed(id("3.0")), Ok(Some(true)));
    store.close().unwrap();
    let store = options.open(folder.file("a.db")).unwrap();
    assert_eq!(lives(&archive), ["1", "4"]);
    // by the archive alone 3.0 may be another transaction of the epoch, and 3.1 one of an epoch that isn't archived
    assert_eq!((store.committed(id("3.0")), store.committed(id("3.1")), store.committed(id("1.0"))), (Ok(None), Ok(None), Ok(Some(true))));
}

#[test]
fn of_earlier_lives_of_an_archived_epoch_nothing_is_told() {
    let folder = Folder::new();
    let archive = folder.file("old");
    fs::create_dir(&archive).unwrap();
    let options = options(&[kept(wheel())]).archive(&archive);
    let up = |store: &SharedStore| {
        let mut t = store.begin().unwrap();
        t.call(0, "tick").unwrap().expected("ok").unwrap();
        let name = t.id().unwrap();
        t.commit().map(|()| name).unwrap()
    };
    let store = options.clone().open(folder.file("a.db")).unwrap();
    let mut early = vec![up(&store), store.begin().unwrap().begun().unwrap()];
    early.push(up(&store));
    kill(&store);
    drop(store);
    let store = options.clone().open(folder.file("a.db")).unwrap();
    let late = up(&store);
    assert_eq!(early.iter().map(|id| store.committed(*id)).collect::<Vec<_>>(), [Ok(Some(true)), Ok(Some(false)), Ok(Some(true))]);
    store.close().unwrap();
    // the epoch had two lives, and its history has the name of the second
    assert_eq!(lives(&archive), ["2"]);
    let store = options.open(folder.file("a.db")).unwrap();
    assert_eq!((late, store.committed(late), store.committed(id("2.9"))), (id("2.3"), Ok(Some(true)), Ok(None)));
    for name in early.into_iter().chain([id("1.9")]) {
        assert_eq!(store.committed(name), Ok(None), "{name}");
    }
}

#[test]
fn of_other_stores_an_archive_tells_nothing() {
    let folder = Folder::new();
    let archive = folder.file("old");
    fs::create_dir(&archive).unwrap();
    let options = options(&[kept(wheel())]);
    let end = |file: &str, commits: bool, options: OpenOptions<'static>| {
        let store = options.open(folder.file(file)).unwrap();
        let t = store.begin().unwrap();
        assert_eq!(t.begun(), Ok(id("1.0")));
        if commits { t.commit() } else { t.abort() }.unwrap();
        store.close().unwrap();
    };
    // the epoch of each ends in life 1, and is kept of two of them
    end("a.db", true, options.clone().archive(&archive));
    end("b.db", false, options.clone().archive(&archive));
    end("c.db", true, options.clone());
    assert_eq!(lives(&archive), ["1", "1"]);
    fs::copy(fs::read_dir(&archive).unwrap().next().unwrap().unwrap().path(), archive.join("1.history")).unwrap();
    let told = ["a.db", "b.db", "c.db"].map(|file| options.clone().archive(&archive).open(folder.file(file)).unwrap().committed(id("1.0")));
    assert_eq!(told, [Ok(Some(true)), Ok(Some(false)), Ok(None)]);
}

#[test]
fn many_begin_and_one_too_many_is_told_so() {
    let folder = Folder::new();
    let store = options(&[kept(wheel())]).open(folder.file("a.db")).unwrap();
    let mut all = Vec::new();
    while let Ok(t) = store.begin() {
        all.push(t);
    }
    assert_eq!((all.len(), store.begin().err(), store.open_count()), (1024, Some(Error::TooManyOpen), Ok(1024)));
    for (number, t) in all.iter_mut().enumerate() {
        assert_eq!((t.call(0, "tick").told(), t.id().unwrap().number), (Ok(Told::Operation(0.into())), number as u64));
    }
    drop(all.pop());
    assert_eq!(number(&store.begin().unwrap()), 1024);
    all.into_iter().for_each(|t| t.commit().unwrap());
    assert_eq!((store.kept(0), store.open_count(), store.stats().aborts), (Ok(1023 % SIZE), Ok(0), 2));
}

#[test]
fn an_archive_that_fails_is_told_at_the_end() {
    let folder = Folder::new();
    let archive = folder.file("old");
    fs::create_dir(&archive).unwrap();
    let options = options(&[kept(wheel())]).archive(&archive);
    options.clone().open(folder.file("a.db")).unwrap().close().unwrap();
    let store = options.open(folder.file("a.db")).unwrap();
    store.begin().unwrap().commit().unwrap();
    // the epoch ends in life 3, of which there is a history already
    let first = fs::read_dir(&archive).unwrap().next().unwrap().unwrap().path();
    fs::rename(&first, first.to_str().unwrap().replace("-1.history", "-3.history")).unwrap();
    match store.close() {
        Err(Error::ConnectionLost(words)) => assert!(words.contains("file exists"), "{words}"),
        other => panic!("{other:?}"),
    }
}

#[test]
fn a_long_history_is_read_in_pieces() {
    let folder = Folder::new();
    let store = options(&[kept(wheel())]).open(folder.file("a.db")).unwrap();
    let mut t = store.begin().unwrap();
    for _ in 0..70_000 {
        t.call_op(0, 0).unwrap().expected("ok").unwrap();
    }
    // with its begin, and over the end of an epoch: 65,536 of these events are answered at once
    let told = lines(&store, 0);
    assert_eq!((told.len(), store.event_count()), (70_001, Ok(70_001)));
    assert_eq!(lines(&store, 65_000), told[65_000..]);
    t.commit().unwrap();
}

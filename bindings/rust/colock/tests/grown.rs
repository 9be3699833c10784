//! Objects of a store in a file: their names, and those that are added while it is served.

mod common;

use colock::{CheckRefusal, Error, Kind, NewObject, OpenOptions, SharedStore, Type};
use common::{counter, id, one_way, program, until, until_asleep, write_program, Drawn, Folder, COUNTER_ARMS, LONG};
use std::fs;
use std::process::Command;
use std::thread;
use std::time::{Duration, Instant};

/// A number from 0 to 5, at 3, in escrow.
fn stock() -> Type {
    let operations = [("take", "ok"), ("give", "ok")];
    Type::from_steps("stock", 3_u32, &operations, Kind::Escrow, |pieces, (call, _)| match call {
        "take" => pieces.checked_sub(1),
        _ => (*pieces < 5).then_some(pieces + 1),
    })
    .unwrap()
}

fn options<'t>() -> OpenOptions<'t> {
    OpenOptions::new().create(true).program(program())
}

/// A store in a file of an object of this name, and of one whose yes is one-way: so an open transaction keeps a further epoch from
/// beginning for long.
fn patient(folder: &Folder, name: &str, of: &Type) -> SharedStore {
    options().objects([(name, of), ("one-way", &one_way())]).drain(600).open(folder.file("a.db")).unwrap()
}

/// The store in the file once more, with whatever objects it has.
fn again(folder: &Folder) -> SharedStore {
    OpenOptions::new().program(program()).open(folder.file("a.db")).unwrap()
}

fn nobody(name: &str) -> Error {
    Error::NoObjectNamed(name.to_string())
}

fn up(store: &SharedStore, name: &str) {
    store.transact(|turn| turn.expect(name, "inc:1", "ok")).unwrap();
}

fn names(store: &SharedStore) -> Vec<Option<&str>> {
    (0..).take(store.types().len()).map(|x| store.name_of(x)).collect()
}

/// What a command writes.
fn told(words: &[&str]) -> String {
    let done = Command::new(program()).args(words).output().unwrap();
    assert!(done.status.success(), "{done:?}");
    String::from_utf8(done.stdout).unwrap()
}

fn kill(store: &SharedStore) {
    let process = store.child_process().unwrap().to_string();
    assert!(Command::new("kill").args(["-9", &process]).status().unwrap().success());
}

// ---- names

#[test]
fn a_new_file_has_the_names() {
    let (folder, counter, seat) = (Folder::new(), counter(), Type::seats(1, Kind::Undo).unwrap());
    let objects = [NewObject::from(("A/1", &seat)), (&counter).into(), ("b.C-d:_", &seat).into()];
    let store = options().objects(objects).open(folder.file("a.db")).unwrap();
    assert_eq!((names(&store), store.find("b.C-d:_"), store.find("C")), (vec![Some("A/1"), None, Some("b.C-d:_")], Ok(2), Err(nobody("C"))));
    let mut t = store.begin().unwrap();
    t.expect("b.C-d:_", "hold:1", "ok").unwrap();
    t.expect_within(1, "inc:1", "ok", LONG).unwrap();
    assert_eq!((t.would("A/1", "hold:1").unwrap().is("ok"), t.call("C", "hold:1")), (true, Err(nobody("C"))));
    t.commit().unwrap();
    let kept = [store.kept("A/1"), store.kept(1), store.kept("b.C-d:_"), store.kept("C")];
    assert_eq!(kept, [Ok(0), Ok(1), Ok(1), Err(nobody("C"))]);
    store.close().unwrap();
    let history = told(&["history", folder.file("a.db").to_str().unwrap()]);
    assert_eq!(history, "objects 3\nobject undo 0 A/1\nobject undo 1\nobject undo 0 b.C-d:_\nend\n");
}

#[test]
fn a_file_is_opened_with_its_names() {
    let (folder, seat) = (Folder::new(), Type::seats(1, Kind::Undo).unwrap());
    let objects = [("A1", &seat), ("A2", &seat)];
    options().objects(objects).open(folder.file("a.db")).unwrap().close().unwrap();
    let store = again(&folder);
    store.transact(|turn| turn.expect("A2", "hold:1", "ok")).unwrap();
    assert_eq!((store.kept(1), names(&store), store.find("A1")), (Ok(1), vec![Some("A1"), Some("A2")], Ok(0)));
    for name in ["A3", "a1", "", "1", "A1 "] {
        assert_eq!(store.kept(name), Err(nobody(name)));
    }
    store.close().unwrap();
    options().objects(objects).open(folder.file("a.db")).unwrap().close().unwrap();
    for names in [[Some("A2"), Some("A1")], [None, None], [Some("A1"), None]] {
        let opened = options().objects(names.map(|name| (name, &seat))).open(folder.file("a.db"));
        assert_eq!(opened.err(), Some(Error::OtherObjects));
    }
}

#[test]
fn names_that_are_none_make_no_file() {
    let (folder, counter) = (Folder::new(), counter());
    let made = |objects: Vec<(&'static str, &Type)>| options().objects(&objects).open(folder.file("a.db")).err();
    assert_eq!(made(vec![("A 1", &counter)]), Some(Error::BadName("A 1".to_string())));
    assert_eq!(made(vec![("A", &counter), ("A", &counter)]), Some(Error::NameTaken("A".to_string())));
    let many = options().objects(vec![&counter; 65_537]).open(folder.file("a.db"));
    assert_eq!((many.err(), folder.file("a.db").exists()), (Some(Error::TooManyObjects), false));
}

#[test]
fn a_command_extends_a_file() {
    let (folder, seat) = (Folder::new(), Type::seats(1, Kind::Undo).unwrap());
    options().objects([&seat]).open(folder.file("a.db")).unwrap().close().unwrap();
    fs::write(folder.file("more"), "objects 2\nobject undo 0 B1\nobject undo 0\nend\n").unwrap();
    fs::write(folder.file("seat"), told(&["make", "seats", "1"])).unwrap();
    let files = ["a.db", "more", "seat"].map(|name| folder.file(name).to_str().unwrap().to_string());
    told(&["extend", &files[0], &files[1], &files[2]]);
    let store = options().objects([(None, &seat), (Some("B1"), &seat), (None, &seat)]).open(folder.file("a.db")).unwrap();
    store.transact(|turn| turn.expect("B1", "hold:1", "ok")).unwrap();
    assert_eq!((names(&store), store.kept(1), store.kept(2)), (vec![None, Some("B1"), None], Ok(1), Ok(0)));
}

#[test]
fn an_archive_has_histories_of_named_objects() {
    let (folder, counter) = (Folder::new(), counter());
    fs::create_dir(folder.file("old")).unwrap();
    let options = options().objects([("a", &counter)]).archive(folder.file("old"));
    let store = options.clone().open(folder.file("a.db")).unwrap();
    up(&store, "a");
    store.close().unwrap();
    let store = options.open(folder.file("a.db")).unwrap();
    assert_eq!((store.committed(id("1.0")), store.committed(id("1.1"))), (Ok(Some(true)), Ok(None)));
    // of the epoch that an extension ends, and of the one that begins then
    let (first, other) = (store.begin().unwrap(), store.begin().unwrap());
    let ids = [first.begun().unwrap(), other.begun().unwrap()];
    first.commit().unwrap();
    other.abort().unwrap();
    store.extend([("b", &counter)]).unwrap();
    let next = store.begin().unwrap();
    let of_next = next.begun().unwrap();
    next.commit().unwrap();
    assert_eq!((of_next.life, of_next.number), (ids[0].life + 1, 0));
    assert_eq!([ids[0], ids[1], of_next].map(|id| store.committed(id)), [Ok(Some(true)), Ok(Some(false)), Ok(Some(true))]);
}

// ---- more objects

#[test]
fn old_objects_keep_their_states_and_new_ones_begin() {
    let (folder, counter, stock) = (Folder::new(), counter(), stock());
    let store = options().objects([(None, &counter), (Some("s"), &stock)]).open(folder.file("a.db")).unwrap();
    store.transact(|turn| turn.expect(0, "inc:1", "ok")).unwrap();
    store.transact(|turn| turn.expect("s", "take", "ok")).unwrap();
    assert_eq!(store.extend([(Some("t"), &stock), (None, &counter)]), Ok(2));
    assert_eq!([0, 1, 2, 3].map(|x| store.kept(x)), [1, 2, 3, 0].map(Ok));
    assert_eq!((store.kept(4), store.event_count(), store.stats().busy), (Err(Error::NoObject), Ok(0), vec![0; 4]));
    let mut t = store.begin().unwrap();
    assert_eq!(t.begun(), Ok(id("2.0")));
    t.expect("t", "give", "ok").unwrap();
    t.expect(3, "inc:1", "ok").unwrap();
    assert_eq!(t.call(4, "give"), Err(Error::NoObject));
    t.commit().unwrap();
    // a type of each source
    let types = [Type::set(&["-a", "b"], Kind::Undo).unwrap(), Type::number(1000, &[250]).unwrap(), Type::read(common::text_of(&stock), Kind::Escrow).unwrap()];
    assert_eq!(store.extend(types.iter().zip(["u", "v", "w"]).map(|(of, name)| (name, of))), Ok(4));
    store.transact(|turn| turn.expect("u", "insert:-a", "ok").and_then(|_| turn.expect("v", "give:250", "ok"))).unwrap();
    store.close().unwrap();
    let store = again(&folder);
    assert_eq!(names(&store), [None, Some("s"), Some("t"), None, Some("u"), Some("v"), Some("w")]);
    assert_eq!([0, 1, 2, 3, 4, 5, 6].map(|x| store.kept(x)), [1, 2, 4, 1, 1, 250, 3].map(Ok));
    assert_eq!(store.types()[4].name(), "set");
}

/// Where a yes is one-way, it waits until what is open has ended, and others are answered meanwhile.
#[test]
fn an_extension_waits() {
    let (folder, counter) = (Folder::new(), counter());
    let store = patient(&folder, "a", &counter);
    let (mut first, mut second) = (store.begin().unwrap(), store.begin().unwrap());
    for t in [&mut first, &mut second] {
        t.expect("a", "inc:1", "ok").unwrap();
    }
    thread::scope(|scope| {
        let extending = scope.spawn(|| store.extend([("b", &counter)]));
        until(|| store.waits_to_extend());
        let beginning = scope.spawn(|| {
            let mut t = store.begin().unwrap();
            let id = t.begun();
            until(|| store.find("b").is_ok()); // it is known as soon as the thread that asked sees the answer
            t.expect("b", "inc:1", "ok").unwrap();
            t.commit().and(id)
        });
        for mut t in [first, second] {
            assert!(!extending.is_finished() && !beginning.is_finished());
            t.expect("a", "inc:1", "ok").unwrap();
            assert_eq!((store.kept("b"), t.commit()), (Err(nobody("b")), Ok(())));
        }
        assert_eq!((extending.join().unwrap(), beginning.join().unwrap()), (Ok(2), Ok(id("2.0"))));
    });
    assert_eq!((store.kept("a"), store.kept("b"), store.stats().aborts, store.stats().commits), (Ok(4), Ok(1), 0, 3));
}

/// The limit is of answers, and not of what an extension waits for.
#[test]
fn a_wait_goes_beyond_the_limit() {
    let (folder, counter) = (Folder::new(), counter());
    let store = options().objects([&counter, &one_way()]).drain(600).limit(Duration::from_secs(1)).open(folder.file("a.db")).unwrap();
    let mut t = store.begin().unwrap();
    t.expect(0, "inc:1", "ok").unwrap();
    thread::scope(|scope| {
        let extending = scope.spawn(|| store.extend([("b", &counter)]));
        until(|| store.waits_to_extend());
        assert_eq!(store.begin().and_then(|t| t.begun()), Err(Error::TimedOut));
        thread::sleep(Duration::from_millis(500));
        assert!(!extending.is_finished());
        t.commit().unwrap();
        assert_eq!(extending.join().unwrap(), Ok(2));
    });
    assert_eq!((store.kept("b"), store.kept(0)), (Ok(0), Ok(1)));
}

#[test]
fn who_is_dropped_isnt_waited_for() {
    let (folder, counter) = (Folder::new(), counter());
    let store = patient(&folder, "a", &counter);
    let mut t = store.begin().unwrap();
    t.expect("a", "inc:1", "ok").unwrap();
    thread::scope(|scope| {
        let extending = scope.spawn(|| store.extend([("b", &counter)]));
        until(|| store.waits_to_extend());
        drop(t);
        assert_eq!(extending.join().unwrap(), Ok(2));
    });
    assert_eq!((store.kept("a"), store.stats().aborts), (Ok(0), 1));
}

/// Nobody asks anything meanwhile, and who sleeps is woken.
#[test]
fn who_stays_open_is_aborted() {
    let (folder, counter) = (Folder::new(), counter());
    let store = options().objects([&counter, &one_way()]).drain(1).open(folder.file("a.db")).unwrap();
    let mut holder = store.begin().unwrap();
    holder.expect(0, "inc:1", "ok").unwrap();
    thread::scope(|scope| {
        let sleeping = scope.spawn(|| store.begin().unwrap().expect_within(0, "dec:1", "ok", LONG).err());
        until_asleep(&store, 1);
        let start = Instant::now();
        assert_eq!(store.extend([&counter]), Ok(2));
        assert!((Duration::from_millis(500)..Duration::from_secs(20)).contains(&start.elapsed()), "{:?}", start.elapsed());
        assert_eq!((sleeping.join().unwrap(), holder.commit()), (Some(Error::EpochEnded), Err(Error::EpochEnded)));
    });
    assert_eq!((store.kept(0), store.stats().aborts, store.open_count()), (Ok(0), 2, Ok(0)));
}

#[test]
fn extensions_come_one_after_another() {
    let (folder, counter) = (Folder::new(), counter());
    let store = patient(&folder, "0", &counter);
    let mut t = store.begin().unwrap();
    t.expect("0", "inc:1", "ok").unwrap();
    thread::scope(|scope| {
        let extend = |name: &'static str| store.extend([(name.to_string(), &counter), (format!("{name}2"), &counter)]).map(|first| (first, name));
        let all = ["a", "b", "c"].map(|name| scope.spawn(move || extend(name)));
        until(|| store.waits_to_extend());
        t.commit().unwrap();
        let mut firsts = all.map(|extending| extending.join().unwrap().unwrap());
        firsts.sort_unstable();
        assert_eq!(firsts.map(|(first, _)| first), [2, 4, 6]);
        for (first, name) in firsts {
            assert_eq!((store.find(name), store.find(&format!("{name}2"))), (Ok(first), Ok(first + 1)));
        }
    });
    for name in ["a2", "b2", "c2"] {
        up(&store, name);
    }
    assert!((0..8).all(|x| store.kept(x) == Ok(u64::from(["0", "a2", "b2", "c2"].contains(&store.name_of(x).unwrap())))));
}

/// Threads use what is there, while one adds to it.
#[test]
fn others_work_meanwhile() {
    const OBJECTS: u32 = 12;
    const THREADS: u64 = 6;
    let (folder, counter) = (Folder::new(), counter());
    let store = options().objects([("0", &counter)]).open(folder.file("a.db")).unwrap();
    thread::scope(|scope| {
        for _ in 0..THREADS {
            scope.spawn(|| {
                for x in 0..OBJECTS {
                    let name = x.to_string();
                    until(|| store.find(&name).is_ok());
                    assert_eq!((store.find(&name), store.name_of(x)), (Ok(x), Some(name.as_str())));
                    for _ in 0..3 {
                        store.retry(&Default::default(), |t| t.expect_within(&name, "inc:1", "ok", LONG)).unwrap();
                    }
                }
            });
        }
        for x in 1..OBJECTS {
            assert_eq!(store.extend([(x.to_string(), &counter)]), Ok(x));
        }
    });
    assert!((0..OBJECTS).all(|x| store.kept(x) == Ok(3 * THREADS)));
    store.close().unwrap();
    let store = again(&folder);
    assert!((0..OBJECTS).all(|x| store.find(&x.to_string()) == Ok(x) && store.kept(x) == Ok(3 * THREADS)));
}

#[test]
fn what_isnt_added() {
    let (folder, counter) = (Folder::new(), counter());
    let store = patient(&folder, "a", &counter);
    let taken = |name: &str| Err(Error::NameTaken(name.to_string()));
    assert_eq!(store.extend([("b", &counter), ("a", &counter)]), taken("a"));
    assert_eq!(store.extend([("b", &counter), ("b", &counter)]), taken("b"));
    assert_eq!(store.extend([("b c", &counter)]), Err(Error::BadName("b c".to_string())));
    assert_eq!((store.extend([&counter; 0]), store.extend(vec![&counter; 65_536])), (Err(Error::NoObjects), Err(Error::TooManyObjects)));
    let many: Vec<Type> = (1..=300).map(|most| Type::counter(most, &[1], Kind::Undo).unwrap()).collect();
    assert_eq!(store.extend(&many), Err(Error::CannotExtend("a request has no room for 300 types".to_string().into())));
    assert_eq!(store.transact(|_| store.extend([&counter])), Err(Error::InTurn));
    assert_eq!((store.types().len(), store.extend([("b", &counter)])), (2, Ok(2)));
    store.close().unwrap();
    assert_eq!(store.extend([&counter]), Err(Error::Closed));
}

#[test]
fn a_store_is_closed_while_one_waits() {
    let (folder, counter) = (Folder::new(), counter());
    let store = patient(&folder, "a", &counter);
    let mut t = store.begin().unwrap();
    t.expect("a", "inc:1", "ok").unwrap();
    thread::scope(|scope| {
        let extending = scope.spawn(|| store.extend([("b", &counter)]));
        until(|| store.waits_to_extend());
        store.close().unwrap();
        assert_eq!(extending.join().unwrap(), Ok(2));
    });
    let store = again(&folder);
    assert_eq!((names(&store), store.kept("a")), (vec![Some("a"), Some("one-way"), Some("b")], Ok(0)));
}

#[test]
fn a_child_is_killed_while_one_waits() {
    let (folder, counter) = (Folder::new(), counter());
    let store = patient(&folder, "a", &counter);
    up(&store, "a");
    let mut t = store.begin().unwrap();
    t.expect("a", "inc:1", "ok").unwrap();
    thread::scope(|scope| {
        let extending = scope.spawn(|| store.extend([("b", &counter), ("c", &counter)]));
        until(|| store.waits_to_extend());
        kill(&store);
        assert!(matches!(extending.join().unwrap(), Err(Error::ConnectionLost(_))));
    });
    drop(t);
    drop(store);
    let store = again(&folder);
    assert_eq!((names(&store), store.kept("a")), (vec![Some("a"), Some("one-way")], Ok(1)));
}

/// All of the objects are there, or none of them; and all where that was answered.
#[test]
fn children_are_killed_at_any_moment() {
    let (folder, counter, mut drawn) = (Folder::new(), counter(), Drawn::new(3));
    options().objects([("0", &counter)]).open(folder.file("a.db")).unwrap().close().unwrap();
    let (mut count, mut least) = (1, 1);
    for turn in 0..12 {
        let store = again(&folder);
        let found = store.types().len();
        assert!(found == count + 3 || found == least.min(count), "{found} of {count} in turn {turn}");
        assert!(found >= least);
        count = found;
        let more: Vec<String> = (0..3).map(|place| format!("{turn}-{place}")).collect();
        thread::scope(|scope| {
            let extending = scope.spawn(|| store.extend(more.iter().map(|name| (name, &counter))));
            thread::sleep(Duration::from_micros(drawn.below(30_000)));
            kill(&store);
            least = match extending.join().unwrap() {
                Ok(first) => first as usize + 3,
                Err(Error::ConnectionLost(_)) => count,
                other => panic!("{other:?}"),
            };
        });
    }
}

// ---- children that answer as they like

/// A store of a child of one counter from 0 to 2, with more arms of its `case`.
fn faked(folder: &Folder, arms: &str) -> SharedStore {
    let text = format!("#!/bin/sh\necho \"colock 5 1\"\nwhile read -r tag verb rest; do\n    case \"$verb\" in\n{COUNTER_ARMS}\n    {arms}\n    esac\ndone\n");
    write_program(&folder.file("fake"), &text);
    fs::write(folder.file("a.db"), "").unwrap();
    OpenOptions::new().program(folder.file("fake")).limit(Duration::from_secs(3)).open(folder.file("a.db")).unwrap()
}

const STATS: &str = r#"stats) echo "$tag ok events 0 begun 0 open 0 prepared 0" ;;"#;

#[test]
fn answers_to_an_extension() {
    let of = Type::read(common::text_of(&stock()), Kind::Escrow).unwrap();
    for (told, wanted) in [
        ("ok 1", Ok(1)),
        ("no /tmp/x: cannot read", Err(Error::CannotExtend("/tmp/x: cannot read".to_string().into()))),
        ("no # object 3 no NotNumeric 1 0", Err(Error::Refused(CheckRefusal::NotNumeric { operation: 1, state: 0 }))),
        ("no TooLarge", Err(Error::TooManyObjects)),
        ("busy drain", Err(Error::TimedOut)),
        ("refused NoMemory", Err(Error::NoMemory)),
    ] {
        let folder = Folder::new();
        let store = faked(&folder, &format!("extend) echo \"$tag {told}\" ;; {STATS}"));
        assert_eq!((store.extend([("b", &of)]), store.find("b").is_ok()), (wanted.clone(), wanted.is_ok()), "{told}");
    }
    for told in ["ok", "ok 2", "ok x", "none", "fault BadWords", "busy 1.0"] {
        let folder = Folder::new();
        let store = faked(&folder, &format!("extend) echo \"$tag {told}\" ;; {STATS}"));
        assert!(matches!(store.extend([&of]), Err(Error::ConnectionLost(_))), "{told}");
    }
}

#[test]
fn a_late_answer_is_matched_by_its_tag() {
    let of = Type::read(common::text_of(&stock()), Kind::Escrow).unwrap();
    let folder = Folder::new();
    let store = faked(&folder, &format!("extend) late=$tag ;; kept) echo \"$tag ok 7\"; echo \"$late ok 1\" ;; {STATS}"));
    thread::scope(|scope| {
        let extending = scope.spawn(|| store.extend([("b", &of)]));
        until(|| store.waits_to_extend());
        assert!(!extending.is_finished());
        assert_eq!((store.event_count(), store.kept(0), extending.join().unwrap()), (Ok(0), Ok(7), Ok(1)));
    });
}

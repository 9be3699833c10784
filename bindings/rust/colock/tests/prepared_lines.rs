//! What a child is asked and answers of what is prepared, and who waits for one of an earlier life.

mod common;

use colock::{Attempt, Decision, Error, Keyed, OpenOptions, Reply, Retry, SharedStore, TransactionId};
use common::teller::Teller;
use common::{id, until_asleep, write_program, Folder, COUNTER_ARMS, LONG};
use std::fs;
use std::thread;

/// What a store does of a child that answers so, and what that was asked.
fn asked<T>(answers: &[&str], act: impl FnOnce(&SharedStore) -> T) -> (T, Vec<String>) {
    let teller = Teller::of(answers);
    let store = teller.open();
    let told = act(&store);
    let _is_lost = store.close();
    (told, teller.asked())
}

/// That what was answered is no answer.
fn is_broken<T: std::fmt::Debug>(told: &Result<T, Error>) -> bool {
    matches!(told, Err(Error::ConnectionLost(words)) if words.contains("no answer to what was asked"))
}

/// A child that serves a counter and writes down what it is asked, with more arms of its `case`.
struct Fake(Folder);

impl Fake {
    fn serving(arms: &str) -> Fake {
        let folder = Folder::new();
        let text = format!(
            "#!/bin/sh\necho \"colock 5 1\"\nn=0\nwhile read -r tag verb rest; do\n    echo \"$verb $rest\" >> \"$0.asked\"\n    case \"$verb\" in\n\
             {COUNTER_ARMS}\n    begin) echo \"$tag ok 1.$n\"; n=$((n + 1)) ;;\n    end) echo \"$tag ok\"; exit 0 ;;\n    {arms}\n    esac\ndone\n"
        );
        write_program(&folder.file("fake"), &text);
        fs::write(folder.file("a.db"), "").unwrap();
        Fake(folder)
    }

    fn open(&self) -> SharedStore {
        OpenOptions::new().program(self.0.file("fake")).limit(LONG).open(self.0.file("a.db")).unwrap()
    }

    /// How many of these verbs it was asked.
    fn count(&self, verbs: &[&str]) -> usize {
        let asked = fs::read_to_string(self.0.file("fake.asked")).unwrap();
        asked.lines().filter(|line| verbs.iter().any(|verb| line.split(' ').next() == Some(verb))).count()
    }
}

/// What is known to be prepared asks nothing more, not even by its drop.
#[test]
fn what_is_prepared_is_asked_once() {
    let (told, lines) = asked(&["ok 1.0", "ok"], |store| {
        let mut t = store.begin().unwrap();
        let told = (t.prepare("order:1", 4_294_967_295), t.prepare("order:1", 0), t.prepare("order:2", 0), t.call(0, "inc:1"), t.rollback(1));
        (told, t.commit(), store.stats())
    });
    assert_eq!(told.0, (Ok(()), Ok(()), Err(Error::Prepared), Err(Error::Prepared), Err(Error::Prepared)));
    assert_eq!((told.1, told.2.commits, told.2.aborts), (Err(Error::Prepared), 0, 0));
    assert_eq!(lines, ["begin", "prepare 1.0 order:1 4294967295", "end"]);
}

/// What isn't prepared stays open, and its drop aborts it.
#[test]
fn what_is_refused_stays_open() {
    let rows = [
        ("refused KeyPrepared", Error::KeyPrepared),
        ("refused Committed", Error::KeyCommitted),
        ("refused Aborted", Error::KeyAborted),
        ("refused KeyTaken", Error::KeyTaken),
        ("refused NoMemory", Error::NoMemory),
    ];
    for (answer, error) in rows {
        let (told, lines) = asked(&["ok 1.0", answer, "reply ok", "ok"], |store| {
            let mut t = store.begin().unwrap();
            (t.prepare("order:1", 0), t.call(0, "inc:1").map(|reply| reply.is("ok")))
        });
        assert_eq!(told, (Err(error), Ok(true)), "{answer}");
        assert_eq!(lines, ["begin", "prepare 1.0 order:1 0", "call 1.0 0 inc:1", "abort 1.0", "end"]);
    }
    for answer in ["fault BadWords", "prepared", "done", "refused Else"] {
        let (told, _) = asked(&["ok 1.0", answer], |store| store.begin().unwrap().prepare("order:1", 0));
        assert!(is_broken(&told), "{answer}: {told:?}");
    }
}

/// The end of an epoch has aborted it, so that nothing more is asked.
#[test]
fn what_isnt_open_isnt_prepared() {
    let (told, lines) = asked(&["ok 1.0", "refused NotOpen"], |store| {
        let mut t = store.begin().unwrap();
        let told = (t.prepare("order:1", 0), t.call(0, "inc:1"), t.prepare("order:1", 0));
        (told, store.stats().aborts)
    });
    assert_eq!(told, ((Err(Error::EpochEnded), Err(Error::EpochEnded), Err(Error::EpochEnded)), 1));
    assert_eq!(lines, ["begin", "prepare 1.0 order:1 0", "end"]);
}

/// Where no answer comes it isn't known, and the outcome of the key says it with the file open again.
#[test]
fn a_prepare_without_an_answer_isnt_known() {
    let fake = Fake::serving("prepare) exit 0 ;;");
    let store = fake.open();
    let mut t = store.begin().unwrap();
    assert_eq!(t.prepare("order:1", 0), Err(Error::PrepareUnknown(id("1.0"))));
    assert!(matches!(t.call(0, "inc:1"), Err(Error::ConnectionLost(_))));
    assert!(matches!((store.decide("order:1", Decision::Commit), store.prepared()), (Err(Error::ConnectionLost(_)), Err(Error::ConnectionLost(_)))));
    assert_eq!(Error::PrepareUnknown(id("1.0")).to_string(), "the store was lost while transaction 1.0 was prepared");
    // nor does the decision that had no answer say more than that
    let fake = Fake::serving("decide) exit 0 ;;");
    assert!(matches!(fake.open().decide("order:1", Decision::Commit), Err(Error::ConnectionLost(_))));
}

#[test]
fn a_decision_is_one_line() {
    let rows = [
        ("ok", Ok(())),
        ("refused Decided", Err(Error::Decided)),
        ("refused Unknown", Err(Error::KeyUnknown)),
        ("refused KeyTaken", Err(Error::KeyTaken)),
        ("refused NoMemory", Err(Error::NoMemory)),
    ];
    for (answer, wanted) in rows {
        for (decision, line) in [(Decision::Commit, "decide order:1 commit"), (Decision::Abort, "decide order:1 abort")] {
            // of one that this client didn't prepare nothing is counted
            let (told, lines) = asked(&[answer], |store| (store.decide("order:1", decision), store.stats().commits + store.stats().aborts));
            assert_eq!((told, lines), ((wanted.clone(), 0), vec![line.to_string(), "end".to_string()]), "{answer}");
        }
    }
    for answer in ["done", "committed", "fault UnknownVerb", "refused"] {
        let (told, _) = asked(&[answer], |store| store.decide("order:1", Decision::Abort));
        assert!(is_broken(&told), "{answer}: {told:?}");
    }
}

#[test]
fn decisions_are_counted_once() {
    let (told, _) = asked(&["ok 1.0", "ok", "ok", "ok", "refused NotOpen"], |store| {
        let mut t = store.begin().unwrap();
        t.prepare("a", 0).unwrap();
        store.decide("a", Decision::Commit).unwrap();
        store.decide("a", Decision::Commit).unwrap();
        (t.call(0, "inc:1"), t.commit(), store.stats())
    });
    assert_eq!((told.0, told.1, told.2.commits, told.2.aborts), (Err(Error::NotOpen), Err(Error::NotOpen), 1, 0));
}

/// A key may be spelled as the end of a list.
#[test]
fn what_is_prepared_is_a_list() {
    let store =
        Fake::serving("prepared) for line in 'refused 1.0 0 0' 'fault 0.4294967294 4294967295' 'ok 1.1 7 0 1 300' ok; do echo \"$tag $line\"; done ;;").open();
    let told: Vec<_> = store.prepared().unwrap().into_iter().map(|prepared| (prepared.key, prepared.id, prepared.until, prepared.objects)).collect();
    let wanted = [("refused", "1.0", 0, vec![0]), ("fault", "0.4294967294", u32::MAX, vec![]), ("ok", "1.1", 7, vec![0, 1, 300])];
    assert_eq!(told, wanted.map(|(key, name, until, objects)| (key.to_string(), id(name), until, objects)));
    let (told, lines) = asked(&["ok"], SharedStore::prepared);
    assert_eq!((told, lines), (Ok(vec![]), vec!["prepared".to_string(), "end".to_string()]));
    let (told, _) = asked(&["refused NoMemory"], SharedStore::prepared);
    assert_eq!(told, Err(Error::NoMemory));
    for line in ["a 1.0", "a 1 0 0", "a/b 1.0 0 0", "a 1.0 0 x", "a 1.0 4294967296"] {
        let store = Fake::serving(&format!("prepared) echo \"$tag {line}\"; echo \"$tag ok\" ;;")).open();
        assert!(is_broken(&store.prepared()), "{line}");
    }
}

/// One that holds operations at all of 65,536 objects is one line.
#[test]
fn a_long_line_is_read() {
    let store = Fake::serving("prepared) printf '%s long 1.0 0' \"$tag\"; seq -f ' %.0f' 0 65535 | tr -d '\\n'; echo; echo \"$tag ok\" ;;").open();
    let told = store.prepared().unwrap();
    assert_eq!((told.len(), told[0].objects.len(), told[0].objects[65_535]), (1, 65_536, 65_535));
}

#[test]
fn what_is_prepared_may_be_counted() {
    for (answer, wanted) in [("ok events 9 begun 4 open 3 prepared 2", Ok(3)), ("ok events 9 begun 4 open 3", Ok(3))] {
        let (told, _) = asked(&[answer], SharedStore::open_count);
        assert_eq!(told, wanted);
    }
    let (told, _) = asked(&["ok events 9 begun 4 open 3 prepared 2 more 1"], SharedStore::open_count);
    assert!(is_broken(&told));
}

/// A commit that is answered after a decision of the same key was done before: its own work isn't what committed.
#[test]
fn a_decision_is_who_committed_under_a_key() {
    let (told, _) = asked(&["unknown", "ok 1.0", "reply ok", "ok", "ok", "committed"], |store| {
        store.retry_under("a", &Retry::default(), |t| {
            t.expect(0, "inc:1", "ok")?;
            store.decide("a", Decision::Commit) // as another thread may, of what was prepared by then
        })
    });
    assert_eq!(told, Ok(Keyed::Known { replies: vec![] }));
}

/// What keeps others out is of life 0, and has the number of a transaction of this life, until it is decided.
const EARLIER: &str = r#"call) case "$rest" in 1.1*) echo "$tag ${first:-busy 0.0}" ;; *) echo "$tag ${second:-busy 1.1}" ;; esac ;;
    would) case "$rest" in 1.1*) echo "$tag ${first:-busy 0.0}" ;; *) echo "$tag ${second:-busy 1.1}" ;; esac ;;
    do) if [ -z "$first" ]; then echo "$tag busy 0 0.0"; else echo "$tag done ok"; fi ;;
    decide) first="reply ok"; echo "$tag ok" ;;
    commit) second="reply ok"; echo "$tag ok" ;;
    abort) echo "$tag ok" ;;"#;

/// It isn't asked again and again meanwhile, and there is no circle with the one that has its number.
#[test]
fn one_of_an_earlier_life_is_waited_for() {
    let fake = Fake::serving(EARLIER);
    let store = fake.open();
    let (mut first, mut second) = (store.begin().unwrap(), store.begin().unwrap());
    assert_eq!((first.begun(), second.begun()), (Ok(id("1.0")), Ok(id("1.1"))));
    assert_eq!(second.call(0, "dec:1"), Ok(Reply::Busy { blocker: TransactionId::new(0, 0) }));
    thread::scope(|scope| {
        let waits = scope.spawn(move || first.expect_within(0, "dec:1", "ok", LONG).and_then(|_| first.commit()));
        until_asleep(&store, 1);
        let other = scope.spawn(move || second.expect_within(0, "inc:1", "ok", LONG).and_then(|_| second.commit()));
        until_asleep(&store, 2);
        store.decide("a", Decision::Commit).unwrap();
        assert_eq!((other.join().unwrap(), waits.join().unwrap()), (Ok(()), Ok(())));
    });
    assert_eq!((store.stats().deadlocks, store.stats().timeouts), (0, 0));
    assert!(fake.count(&["call", "would"]) <= 12, "{}", fake.count(&["call", "would"]));
}

#[test]
fn an_attempt_waits_for_one_of_an_earlier_life() {
    let fake = Fake::serving(EARLIER);
    let store = fake.open();
    let busy = store.attempt([(0, "dec:1")]).unwrap().executed();
    assert_eq!(busy, Err(Error::Busy { blocker: TransactionId::new(0, 0) }));
    thread::scope(|scope| {
        let waiter = scope.spawn(|| store.attempt_within([(0, "dec:1")], LONG).and_then(Attempt::executed));
        until_asleep(&store, 1);
        store.begin().unwrap().commit().unwrap();
        store.decide("a", Decision::Abort).unwrap();
        assert!(waiter.join().unwrap().is_ok());
    });
    assert!(fake.count(&["do"]) <= 4, "{}", fake.count(&["do"]));
}

//! Outcomes of keys, of which at least so many stay: in memory and over a child, by the cases of `bindings/cases/outcomes.txt`.
//!
//! A case is a line of prose, how many outcomes stay at least, and steps at a store of an account and a counter. Behind `->` is what a
//! step is told. `attempt`, `commit` and `retry` deposit 1. `prepare` counts 1, and so does each of `attempts`. `illegal` is an attempt
//! that isn't done. `epoch` ends an epoch, in memory by beginning anew.

mod common;

use colock::{Attempt, Decision, Ending, Error, KeyOutcome, Keyed, Kind, Limits, OpenOptions, Operation, Retry, SharedStore, Type};
use common::{program, Folder};
use std::fs;
use std::path::Path;
use std::process::Command;

/// A store of an account and a counter, with the folder of its file where it has one.
struct Kept {
    store: SharedStore,
    folder: Option<Folder>,
}

impl Kept {
    fn in_memory(least: u32) -> Kept {
        let limits = Limits { outcomes: least, ..Limits::STANDARD };
        Kept { store: SharedStore::with_limits([&account(), &counter()], limits).unwrap(), folder: None }
    }

    fn over_a_child(least: u32) -> Kept {
        let folder = Folder::new();
        Kept { store: opened(&folder, Some(least)), folder: Some(folder) }
    }

    fn end_epoch(&self) -> Result<(), Error> {
        match self.folder {
            None => self.store.renew(),
            Some(_) => end_epoch(&self.store),
        }
    }
}

/// The child has ended before the folder goes away.
impl Drop for Kept {
    fn drop(&mut self) {
        let _ = self.store.close();
    }
}

fn account() -> Type {
    Type::account(9, &[1], Kind::Undo).unwrap()
}

fn counter() -> Type {
    Type::counter(50, &[1], Kind::Undo).unwrap()
}

/// The store in the file of a folder, which keeps at least so many outcomes, where it is said how many.
fn opened(folder: &Folder, least: Option<u32>) -> SharedStore {
    let (account, counter, path) = (account(), counter(), folder.file("a.db"));
    let options = if path.exists() { OpenOptions::new() } else { OpenOptions::new().objects([&account, &counter]).create(true) };
    let options = least.into_iter().fold(options, OpenOptions::outcomes);
    options.program(program()).open(path).unwrap()
}

/// Ends an epoch of a file, by one object more.
fn end_epoch(store: &SharedStore) -> Result<(), Error> {
    store.extend([&counter()]).map(drop)
}

// ---- steps

fn committed_under(store: &SharedStore, key: &str) -> Result<(), Error> {
    let mut t = store.begin()?;
    t.expect(0, "deposit:1", "ok")?;
    t.commit_under(key)
}

fn prepared_under(store: &SharedStore, key: &str) -> Result<(), Error> {
    let mut t = store.begin()?;
    t.expect(1, "inc:1", "ok")?;
    t.prepare(key, 0)
}

/// A word, and replies behind it.
fn with(word: &str, replies: impl IntoIterator<Item = impl ToString>) -> String {
    replies.into_iter().fold(word.to_string(), |told, reply| told + " " + &reply.to_string())
}

fn attempted(attempt: Attempt) -> String {
    match attempt {
        Attempt::Done(operations) => with("committed", operations.iter().map(|Operation { reply, .. }| reply)),
        Attempt::Ended { how: Ending::Illegal, .. } => "illegal".to_string(),
        ended @ Attempt::Ended { .. } => panic!("{ended:?}"),
    }
}

fn retried<T>(keyed: Keyed<T>) -> String {
    match keyed {
        Keyed::Done(_) => "done".to_string(),
        Keyed::Known { replies } => with("known", replies),
    }
}

fn outcome(outcome: KeyOutcome) -> String {
    match outcome {
        KeyOutcome::Committed { replies } => with("committed", replies),
        other => format!("{other:?}").to_lowercase(),
    }
}

/// What a step is told. An error is by its name.
fn told(kept: &Kept, words: &[&str]) -> String {
    let store = &kept.store;
    let said = |word: &'static str| move |()| word.to_string();
    let told = match words {
        ["attempt", key] => store.attempt_under(key, [(0, "deposit:1"), (0, "balance")]).map(attempted),
        ["count", key] => store.attempt_under(key, [(1, "inc:1")]).map(attempted),
        ["illegal", key] => store.attempt_under(key, [(1, "dec:1")]).map(attempted),
        ["commit", key] => committed_under(store, key).map(said("committed")),
        ["retry", key] => store.retry_under(key, &Retry::default(), |t| t.expect(0, "deposit:1", "ok")).map(retried),
        ["prepare", key] => prepared_under(store, key).map(said("prepared")),
        ["decide", key, "commit"] => store.decide(key, Decision::Commit).map(said("committed")),
        ["decide", key, "abort"] => store.decide(key, Decision::Abort).map(said("aborted")),
        ["outcome", key] => store.outcome(key).map(outcome),
        ["listed"] => store.prepared().map(|all| with("", all.iter().map(|prepared| &prepared.key)).trim().to_string()),
        ["balance"] => store.committed_states([0]).map(|seen| seen.value[0].to_string()),
        ["counted"] => store.committed_states([1]).map(|seen| seen.value[0].to_string()),
        ["epoch"] => kept.end_epoch().map(said("")),
        _ => panic!("no step: {words:?}"),
    };
    told.unwrap_or_else(|error| format!("refused {error:?}"))
}

/// What is done or asked under keys of these numbers.
fn each_told(kept: &Kept, what: &str, key: &str, numbers: impl Iterator<Item = u32>) {
    for number in numbers {
        let key = format!("{key}:{number}");
        match what {
            "attempts" => assert_eq!(told(kept, &["count", &key]), "committed ok", "{key}"),
            "known" => assert_eq!(told(kept, &["outcome", &key]), "committed ok", "{key}"),
            "unknown" => assert_eq!(told(kept, &["outcome", &key]), "unknown", "{key}"),
            _ => panic!("no step: {what}"),
        }
    }
}

/// Cases, which blank lines part, come out as they are written.
fn come_out(make: fn(u32) -> Kept) {
    let text = fs::read_to_string(Path::new(env!("CARGO_MANIFEST_DIR")).join("../../cases/outcomes.txt")).unwrap();
    let cases: Vec<&str> = text.split("\n\n").collect();
    assert!(cases.len() >= 12, "{} cases", cases.len());
    for case in cases {
        let mut lines = case.lines();
        let (prose, store) = (lines.next().unwrap(), lines.next().unwrap());
        let kept = make(store.strip_prefix("store ").unwrap().parse().unwrap());
        for (at, line) in lines.enumerate() {
            let (asked, wanted) = line.split_once("->").unwrap_or((line, ""));
            match asked.split_whitespace().collect::<Vec<_>>()[..] {
                [what, key, first, last] => each_told(&kept, what, key, first.parse().unwrap()..=last.parse().unwrap()),
                ref words => assert_eq!(told(&kept, words), wanted.trim(), "{prose} Step {at}: {line}"),
            }
        }
    }
}

#[test]
fn cases_come_out_in_memory() {
    come_out(Kept::in_memory);
}

#[test]
fn cases_come_out_over_a_child() {
    come_out(Kept::over_a_child);
}

// ---- in memory alone

/// They outlive the events, and what is prepared outlives both.
#[test]
fn they_stay_where_a_store_begins_anew_by_itself() {
    let limits = Limits { events: 100, outcomes: 5, ..Limits::STANDARD };
    let store = SharedStore::with_limits([&account(), &counter()], limits).unwrap();
    store.forget_when_full().unwrap();
    prepared_under(&store, "p").unwrap();
    for number in 0..300 {
        assert!(store.attempt_under(format!("k:{number}"), [(0, "deposit:1"), (0, "withdraw:1")]).unwrap().executed().is_ok());
        let is_known = |number: &u32| store.outcome(format!("k:{number}")).unwrap() != KeyOutcome::Unknown;
        let known: Vec<u32> = (0..=number).filter(is_known).collect();
        assert_eq!(known, ((number + 1).saturating_sub(5)..=number).collect::<Vec<_>>());
    }
    assert!(store.forgotten_count().unwrap() > 500);
    assert_eq!((store.outcome("p"), store.open_count()), (Ok(KeyOutcome::Prepared), Ok(1)));
    assert_eq!((store.decide("p", Decision::Commit), store.kept(0), store.kept(1)), (Ok(()), Ok(0), Ok(1)));
}

// ---- in a file alone

/// Counts up under each of these keys, which are letters.
fn count_under(store: &SharedStore, keys: &str) {
    for key in keys.chars() {
        assert!(store.attempt_under(key.to_string(), [(1, "inc:1")]).unwrap().executed().is_ok());
    }
}

/// The keys of all letters that are known.
fn known(store: &SharedStore) -> String {
    ('a'..='z').filter(|key| store.outcome(key.to_string()).unwrap() != KeyOutcome::Unknown).collect()
}

/// Each opening says anew how many stay. What went doesn't come back.
#[test]
fn a_file_is_opened_with_another_number() {
    let folder = Folder::new();
    let store = opened(&folder, Some(2));
    count_under(&store, "abc");
    store.close().unwrap(); // which ends the epoch
    let store = opened(&folder, Some(1));
    assert_eq!(known(&store), "bc");
    end_epoch(&store).unwrap();
    assert_eq!(known(&store), "c");
    store.close().unwrap();
    let store = opened(&folder, Some(3));
    count_under(&store, "defg");
    end_epoch(&store).unwrap();
    assert_eq!(known(&store), "efg");
    store.close().unwrap();
    let store = opened(&folder, None);
    count_under(&store, "hijk");
    end_epoch(&store).unwrap();
    assert_eq!(known(&store), "efghijk");
    store.close().unwrap();
}

/// Nothing goes by a crash, after which the epoch goes on.
#[test]
fn they_stay_where_the_child_is_killed() {
    let folder = Folder::new();
    let store = opened(&folder, Some(1));
    count_under(&store, "abc");
    let process = store.child_process().unwrap().to_string();
    assert!(Command::new("kill").args(["-9", &process]).status().unwrap().success());
    drop(store);
    let store = opened(&folder, Some(1));
    assert_eq!(known(&store), "abc");
    count_under(&store, "a");
    assert_eq!(store.kept(1), Ok(3));
    end_epoch(&store).unwrap();
    assert_eq!(known(&store), "c");
    store.close().unwrap();
}

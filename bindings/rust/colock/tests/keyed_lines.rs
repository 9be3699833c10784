//! What a child is asked and answers under keys.

mod common;

use colock::{Attempt, Ending, Error, KeyOutcome, Keyed, Retry, SharedStore, TransactionId};
use common::teller::Teller;

/// What a store does of a child that answers so after its transaction 1.0, and what that was asked.
fn asked<T>(answers: &[&str], act: impl FnOnce(&SharedStore) -> T) -> (T, Vec<String>) {
    let teller = Teller::of(&[&["ok 1.0", "ok"], answers].concat());
    let store = teller.open();
    store.begin().unwrap().abort().unwrap();
    let told = act(&store);
    let _is_lost = store.close();
    (told, teller.asked()[2..].to_vec())
}

/// That what was answered is no answer.
fn is_broken<T: std::fmt::Debug>(told: &Result<T, Error>) -> bool {
    matches!(told, Err(Error::ConnectionLost(words)) if words.contains("no answer to what was asked"))
}

#[test]
fn a_commit_has_its_key_at_its_end() {
    let (told, lines) = asked(&["ok 1.1", "ok"], |store| (store.begin().unwrap().commit_under("order:1"), store.stats()));
    assert_eq!((told.0, told.1.commits, told.1.aborts), (Ok(()), 1, 1));
    assert_eq!(lines, ["begin", "commit 1.1 order:1", "end"]);
    // it isn't open any more
    let (told, lines) = asked(&["ok 1.1", "refused NotOpen"], |store| store.begin().unwrap().commit_under("order:1"));
    assert_eq!((told, lines), (Err(Error::EpochEnded), vec!["begin".to_string(), "commit 1.1 order:1".into(), "end".into()]));
    for answer in ["fault BadWords", "committed", "done ok", "unknown", "refused Else"] {
        let (told, _) = asked(&["ok 1.1", answer], |store| store.begin().unwrap().commit_under("order:1"));
        assert!(is_broken(&told), "{answer}: {told:?}");
    }
}

/// What the child refused stays as it was there, and is aborted.
#[test]
fn a_commit_that_is_refused_is_aborted() {
    for (answer, error) in [("refused Aborted", Error::KeyAborted), ("refused KeyTaken", Error::KeyTaken), ("refused NoMemory", Error::NoMemory)] {
        let (told, lines) = asked(&["ok 1.1", answer, "ok", "ok 1.2"], |store| {
            let told = store.begin().unwrap().commit_under("order:1");
            (told, store.begin().unwrap().begun(), store.stats())
        });
        assert_eq!((told.0, told.1, told.2.commits), (Err(error), Ok(TransactionId::new(1, 2)), 0));
        assert_eq!(lines[..4], ["begin", "commit 1.1 order:1", "abort 1.1", "begin"]);
        assert!(told.2.aborts >= 2, "{:?}", told.2);
    }
    assert_eq!(Error::KeyAborted.to_string(), "the transaction of this key was aborted");
    assert_eq!(Error::KeyTaken.to_string(), "the file has another key in the place of this one");
}

#[test]
fn an_attempt_has_its_key_before_its_calls() {
    let calls = [(0, "inc:1"), (0, "dec:1")];
    let rows = [
        ("busy 1 1.7", Ok(Attempt::Ended { at: 1, how: Ending::Busy { blocker: TransactionId::new(1, 7) } })),
        ("none 0", Ok(Attempt::Ended { at: 0, how: Ending::Illegal })),
        ("refused 1 NoMemory", Ok(Attempt::Ended { at: 1, how: Ending::Refused(Error::NoMemory) })),
        ("refused TooManyOpen", Err(Error::TooManyOpen)),
        ("refused Aborted", Err(Error::KeyAborted)),
        ("refused KeyTaken", Err(Error::KeyTaken)),
        // the replies of other calls: too few, too many, or such as these calls haven't
        ("done", Err(Error::OtherCalls)),
        ("done ok", Err(Error::OtherCalls)),
        ("done ok ok ok", Err(Error::OtherCalls)),
        ("done ok short", Err(Error::OtherCalls)),
    ];
    for (answer, wanted) in rows {
        let (told, lines) = asked(&[answer], |store| (store.attempt_under("order:1", calls), store.stats().commits));
        assert_eq!((told, &lines[..]), ((wanted, 0), &["do =order:1 0 inc:1 0 dec:1".to_string(), "end".to_string()][..]), "{answer}");
    }
    let (told, lines) = asked(&["busy drain", "done ok ok"], |store| store.attempt_under("order:1", calls));
    let words: Vec<String> = told.unwrap().executed().unwrap().iter().map(ToString::to_string).collect();
    assert_eq!((words, lines.len()), (vec!["inc:1 ok".to_string(), "dec:1 ok".to_string()], 3));
    for answer in ["ok", "committed ok ok", "fault BadWords", "busy 2 1.7", "unknown"] {
        let (told, _) = asked(&[answer], |store| store.attempt_under("order:1", calls));
        assert!(is_broken(&told), "{answer}: {told:?}");
    }
    // without a key no answer is that of other calls
    for answer in ["done", "done ok", "done ok short"] {
        let (told, _) = asked(&[answer], |store| store.attempt(calls));
        assert!(is_broken(&told), "{answer}: {told:?}");
    }
    assert_eq!(Error::OtherCalls.to_string(), "the key is of other calls");
}

/// There is no line for one of no call, so it begins and commits.
#[test]
fn an_attempt_of_no_call_commits_under_its_key() {
    let none: [(u32, &str); 0] = [];
    for (outcome, wanted) in [("committed", Ok(Attempt::Done(vec![]))), ("committed ok", Err(Error::OtherCalls))] {
        let (told, lines) = asked(&["ok 1.1", "ok", outcome], |store| store.attempt_under("order:1", none));
        assert_eq!((told, &lines[..3]), (wanted, &["begin", "commit 1.1 order:1", "outcome order:1"].map(String::from)[..]));
    }
}

#[test]
fn an_outcome_is_one_line() {
    let committed = |replies: &[&str]| KeyOutcome::Committed { replies: replies.iter().map(ToString::to_string).collect() };
    let rows = [
        ("unknown", KeyOutcome::Unknown),
        ("aborted", KeyOutcome::Aborted),
        ("committed", committed(&[])),
        ("committed ok 7 short", committed(&["ok", "7", "short"])),
    ];
    for (answer, wanted) in rows {
        let (told, lines) = asked(&[answer], |store| store.outcome("order:1"));
        assert_eq!((told, lines), (Ok(wanted), vec!["outcome order:1".to_string(), "end".to_string()]));
    }
    for answer in ["ok", "done ok", "fault UnknownVerb", "committed  ok", "aborted ok", "refused"] {
        let (told, _) = asked(&[answer], |store| store.outcome("order:1"));
        assert!(is_broken(&told), "{answer}: {told:?}");
    }
    let (told, _) = asked(&["refused NoMemory"], |store| store.outcome("order:1"));
    assert_eq!(told, Err(Error::NoMemory));
}

#[test]
fn a_retry_asks_for_the_outcome_first() {
    let work = |store: &SharedStore| store.retry_under("order:1", &Retry::default(), |t| t.expect(0, "inc:1", "ok").map(|_| 17));
    let (told, lines) = asked(&["committed ok 7"], work);
    assert_eq!((told, lines.len()), (Ok(Keyed::Known { replies: vec!["ok".into(), "7".into()] }), 2));
    let (told, lines) = asked(&["aborted"], work);
    assert_eq!((told, lines.len()), (Err(Error::KeyAborted), 2));
    let (told, lines) = asked(&["unknown", "ok 1.1", "reply ok", "ok"], work);
    assert_eq!(told, Ok(Keyed::Done(17)));
    assert_eq!(lines, ["outcome order:1", "begin", "call 1.1 0 inc:1", "commit 1.1 order:1", "end"]);
    // it was aborted meanwhile
    let (told, lines) = asked(&["unknown", "ok 1.1", "reply ok", "refused Aborted", "ok", "aborted"], work);
    assert_eq!((told, &lines[3..6]), (Err(Error::KeyAborted), &["commit 1.1 order:1", "abort 1.1", "outcome order:1"].map(String::from)[..]));
    // another epoch began: it is done again, under the same key
    let (told, lines) = asked(&["unknown", "ok 1.1", "reply ok", "refused NotOpen", "ok 2.0", "refused NotOpen", "reply ok", "ok"], work);
    assert_eq!((told, lines[7].as_str()), (Ok(Keyed::Done(17)), "commit 2.0 order:1"));
    // it fails, since the work was done meanwhile
    let (told, _) = asked(&["unknown", "ok 1.1", "none", "ok", "committed"], work);
    assert_eq!(told, Ok(Keyed::Known { replies: vec![] }));
    let (told, _) = asked(&["unknown", "ok 1.1", "none", "ok", "unknown"], work);
    assert_eq!(told, Err(Error::Illegal));
}

/// Nothing is asked by what is no key, but for the end of the transaction that was to commit.
#[test]
fn what_is_no_key_isnt_asked() {
    let wrong = || Error::BadKey("a b".to_string());
    let (told, lines) = asked(&["ok 1.1", "ok"], |store| {
        let told = (store.outcome("a b"), store.attempt_under("a b", [(0, "inc:1")]), store.retry_under("a b", &Retry::default(), |_| Ok::<(), Error>(())));
        assert_eq!(told, (Err(wrong()), Err(wrong()), Err(wrong())));
        store.begin().unwrap().commit_under("a b")
    });
    assert_eq!((told, lines), (Err(wrong()), vec!["begin".to_string(), "abort 1.1".into(), "end".into()]));
}

//! What a child is asked and answers in one line: a whole transaction, or a read at one moment.

mod common;

use colock::{Attempt, Ending, Error, Moment, Reply, Seen, SharedStore, TransactionId};
use common::teller::Teller;
use common::{id, Telling, Told};

/// The words of calls that count up.
fn ups(count: usize) -> String {
    ["0 inc:1"; 64][..count].join(" ")
}

/// What a store does of a child that answers so after its transaction 1.0, and what that was asked.
fn asked<T>(answers: &[&str], act: impl FnOnce(&SharedStore) -> T) -> (T, Vec<String>) {
    let teller = Teller::of(&[&["ok 1.0", "ok"], answers].concat());
    let store = teller.open();
    store.begin().unwrap().abort().unwrap();
    let told = act(&store);
    let _is_lost = store.close();
    (told, teller.asked()[2..].to_vec())
}

fn ended(at: usize, how: Ending) -> Attempt {
    Attempt::Ended { at, how }
}

/// That what was answered is no answer.
fn is_broken<T: std::fmt::Debug>(told: &Result<T, Error>) -> bool {
    matches!(told, Err(Error::ConnectionLost(words)) if words.contains("no answer to what was asked"))
}

#[test]
fn an_attempt_is_one_line() {
    let blocker = TransactionId::new(1, 7);
    let rows = [
        ("busy 1 1.7", ended(1, Ending::Busy { blocker })),
        ("none 0", ended(0, Ending::Illegal)),
        ("refused 1 NoMemory", ended(1, Ending::Refused(Error::NoMemory))),
    ];
    for (answer, wanted) in rows {
        let (told, lines) = asked(&[answer], |store| (store.attempt([(0, "inc:1"), (0, "dec:1")]), store.stats()));
        assert_eq!((told.0, told.1.commits, told.1.aborts), (Ok(wanted), 0, 2));
        assert_eq!((told.1.busy[0], &lines[..]), (u64::from(answer.starts_with("busy")), &["do 0 inc:1 0 dec:1".to_string(), "end".to_string()][..]));
    }
    let (told, _) = asked(&["done ok ok"], |store| (store.attempt([(0, "inc:1"), (0, "dec:1")]), store.stats()));
    let words: Vec<String> = told.0.unwrap().executed().unwrap().iter().map(ToString::to_string).collect();
    assert_eq!((words, told.1.commits), (vec!["inc:1 ok".to_string(), "dec:1 ok".to_string()], 1));
    for (answer, error) in [("refused TooManyOpen", Error::TooManyOpen), ("refused HistoryFull", Error::HistoryFull), ("refused NoMemory", Error::NoMemory)] {
        let (told, _) = asked(&[answer], |store| (store.attempt([(0, "inc:1")]), store.stats()));
        assert_eq!((told.0, told.1.aborts), (Err(error), 1));
    }
}

/// By the name of its call.
#[test]
fn an_attempt_by_a_number_is_one_line() {
    let blocker = TransactionId::new(1, 7);
    let rows = [
        ("busy 0 1.7", Ok(Reply::Busy { blocker }), 2),
        ("none 0", Ok(Reply::Illegal), 2),
        ("refused 0 NoMemory", Err(Error::NoMemory), 2),
        ("refused NoMemory", Err(Error::NoMemory), 1),
        ("refused HistoryFull", Err(Error::HistoryFull), 1),
        ("refused TooManyOpen", Err(Error::TooManyOpen), 1),
    ];
    for (answer, wanted, aborts) in rows {
        let (told, lines) = asked(&[answer], |store| (store.attempt_op(0, 1), store.stats()));
        assert_eq!((told.0, told.1.commits, told.1.aborts), (wanted, 0, aborts), "{answer}");
        assert_eq!((told.1.busy[0], &lines[..]), (u64::from(answer.starts_with("busy")), &["do 0 dec:1".to_string(), "end".to_string()][..]));
    }
    let (told, lines) = asked(&["busy drain", "done ok"], |store| (store.attempt_op(0, 0).map(|reply| reply.to_string()), store.stats()));
    assert_eq!((told.0, told.1.commits, lines.len()), (Ok("inc:1 ok".to_string()), 1, 3));
    // what isn't there isn't asked for
    let (told, lines) = asked(&[], |store| [store.attempt_op(0, 2), store.attempt_op(1, 0), store.attempt_op("A1", 0)]);
    assert_eq!((told, lines), ([Err(Error::NoCall), Err(Error::NoObject), Err(Error::NoObjectNamed("A1".to_string()))], vec!["end".to_string()]));
    for answer in ["done", "done ok ok", "done short", "busy 1 1.7", "none 1", "refused 1 NoCall", "ok", "reply ok"] {
        let (told, _) = asked(&[answer], |store| store.attempt_op(0, 0));
        assert!(is_broken(&told), "{answer}: {told:?}");
    }
}

#[test]
fn a_full_epoch_is_waited_for() {
    let (told, lines) = asked(&["busy drain", "busy drain", "done ok"], |store| store.attempt([(0, "inc:1")]).map(|attempt| attempt.executed().is_ok()));
    assert_eq!((told, lines), (Ok(true), vec!["do 0 inc:1".into(), "do 0 inc:1".into(), "do 0 inc:1".into(), "end".into()]));
}

#[test]
fn what_answers_no_attempt_is_a_loss() {
    let wrong =
        ["done", "done ok ok", "done short", "busy 1 1.7", "none 1", "refused 1 NoCall", "ok", "reply ok", "none", "busy 1.7", "seen 1.0 ok", "fault BadWords"];
    for answer in wrong {
        let (told, _) = asked(&[answer], |store| store.attempt([(0, "inc:1")]));
        assert!(is_broken(&told), "{answer}: {told:?}");
    }
}

/// A begin that is written after an attempt is called by the number that comes after the attempt's.
#[test]
fn an_attempt_takes_a_number() {
    let call = |store: &SharedStore| {
        let attempt = store.attempt([(0, "inc:1")]);
        let mut t = store.begin().unwrap();
        let told = t.call(0, "inc:1").told();
        let name = t.id();
        t.abort().unwrap();
        (attempt.is_ok(), told, name)
    };
    let done = Ok(Told::Operation(0.into()));
    for answer in ["done ok", "none 0", "busy 0 1.9"] {
        let (told, lines) = asked(&[answer, "ok 1.2", "reply ok", "ok"], call);
        assert_eq!(told, (true, done.clone(), Some(id("1.2"))));
        assert_eq!(lines, ["do 0 inc:1", "begin", "call 1.2 0 inc:1", "abort 1.2", "end"]);
    }
    // one that isn't begun takes none, after which the call is made again
    let (told, lines) = asked(&["refused TooManyOpen", "ok 1.1", "refused NotOpen", "reply ok", "ok"], call);
    assert_eq!(told, (false, done, Some(id("1.1"))));
    assert_eq!(lines, ["do 0 inc:1", "begin", "call 1.2 0 inc:1", "call 1.1 0 inc:1", "abort 1.1", "end"]);
}

/// What an earlier begin put off is written before it.
#[test]
fn an_attempt_comes_after_the_begins_of_its_thread() {
    let (name, lines) = asked(&["ok 1.1", "done ok", "ok"], |store| {
        let t = store.begin().unwrap();
        assert!(store.attempt([(0, "inc:1")]).is_ok());
        let name = t.begun();
        t.commit().unwrap();
        name
    });
    assert_eq!(name, Ok(id("1.1")));
    assert_eq!(lines, ["begin", "do 0 inc:1", "commit 1.1", "end"]);
}

/// What was seen, with operations in words.
fn peeked(store: &SharedStore, calls: usize) -> Result<Seen<String>, Error> {
    let seen = store.peek(vec![(0, "inc:1"); calls])?;
    let words: Vec<String> = seen.value.iter().map(ToString::to_string).collect();
    Ok(Seen { at: seen.at, value: words.join(", ") })
}

#[test]
fn a_read_is_one_line() {
    let (told, lines) = asked(&["seen 1.5 ok ok", "seen 1.6 2 1", "seen 1.7 0", "seen 1.8 2"], |store| {
        (peeked(store, 2), store.committed_states([0, 0]), store.snapshot(), store.moment())
    });
    let at = |commits| Moment::new(1, commits);
    assert_eq!(told.0, Ok(Seen { at: at(5), value: "inc:1 ok, inc:1 ok".to_string() }));
    assert_eq!((told.1, told.2), (Ok(Seen { at: at(6), value: vec![2, 1] }), Ok(Seen { at: at(7), value: vec![0] })));
    assert_eq!(told.3, Ok(at(8)));
    assert_eq!(lines, ["peek 0 inc:1 0 inc:1", "committed 0 0", "committed 0", "committed 0", "end"]);
    for (answer, error) in [("none 1", Error::IllegalAt(1)), ("refused Changes", Error::Changes), ("refused NoMemory", Error::NoMemory)] {
        assert_eq!(asked(&[answer], |store| peeked(store, 2)).0, Err(error));
    }
}

#[test]
fn what_answers_no_read_is_a_loss() {
    for answer in ["seen 1.5", "seen 1.5 ok", "seen 1.5 ok ok ok", "seen 1.5 ok short", "seen 5 ok ok", "ok", "none", "done ok ok", "refused 1 Changes"] {
        let (told, _) = asked(&[answer], |store| peeked(store, 2));
        assert!(is_broken(&told), "{answer}: {told:?}");
    }
    for answer in ["seen 1.5 2 1", "seen 1.5 x", "seen 1.5 ", "none 0", "ok 2"] {
        let (told, _) = asked(&[answer], |store| store.snapshot());
        assert!(is_broken(&told) || (told == Err(Error::IllegalAt(0)) && answer == "none 0"), "{answer}: {told:?}");
    }
}

/// A longer read is asked again until all its lines are of one moment.
#[test]
fn a_long_read_is_of_one_moment() {
    let (one, other) = (format!("seen 1.5{}", " ok".repeat(64)), format!("seen 1.6{}", " ok".repeat(64)));
    let (told, lines) = asked(&[&one, "seen 1.6 ok", &other, "seen 1.6 ok"], |store| peeked(store, 65));
    assert_eq!(told.map(|seen| (seen.at.commits, seen.value.split(", ").count())), Ok((6, 65)));
    let (long, short) = (format!("peek {}", ups(64)), format!("peek {}", ups(1)));
    assert_eq!(lines, [long.as_str(), &short, &long, &short, "end"]);
    // or of another life
    let (told, _) = asked(&[&one, "seen 2.5 ok", &one.replace("1.5", "2.5"), "seen 2.5 ok"], |store| peeked(store, 65));
    assert_eq!(told.map(|seen| seen.at), Ok(Moment::new(2, 5)));
    // and not for ever
    let (told, lines) = asked(&[one.as_str(), "seen 1.6 ok"].repeat(100), |store| peeked(store, 65));
    assert_eq!((told, lines.len()), (Err(Error::NoMoment), 2 * 5 + 1));
    // the place of a call is its place in all of them
    let (told, _) = asked(&[&one, "none 0"], |store| peeked(store, 65));
    assert_eq!(told, Err(Error::IllegalAt(64)));
}

/// What is open may go on in a later life, of which a read tells. That it doesn't is told by a refusal, after which nothing is asked.
#[test]
fn a_read_tells_a_life() {
    let goes_on = |answers: &[&str]| {
        asked(&[&["ok 1.1", "reply ok", "seen 2.0 0"], answers].concat(), |store| {
            let mut t = store.begin().unwrap();
            t.expect(0, "inc:1", "ok").unwrap();
            let moment = store.moment();
            (moment, t.call(0, "inc:1").map(|reply| reply.is("ok")), t.commit(), store.stats().aborts)
        })
    };
    let (told, lines) = goes_on(&["reply ok", "ok"]);
    assert_eq!(told, (Ok(Moment::new(2, 0)), Ok(true), Ok(()), 1));
    assert_eq!(lines, ["begin", "call 1.1 0 inc:1", "committed 0", "call 1.1 0 inc:1", "commit 1.1", "end"]);
    let (told, lines) = goes_on(&["refused NotOpen"]);
    assert_eq!(told, (Ok(Moment::new(2, 0)), Err(Error::EpochEnded), Err(Error::EpochEnded), 2));
    assert_eq!(lines, ["begin", "call 1.1 0 inc:1", "committed 0", "call 1.1 0 inc:1", "end"]);
}

//! A child that isn't as it should be: a script of the shell, which says what a test needs. None makes a client hang.

mod common;

use colock::{Error, Event, Keyed, OpenOptions, OperationId, Retry, SharedStore, SharedTransaction};
use common::{until_asleep, write_program, Folder, Telling, Told, COUNTER_ARMS, LONG};
use std::fs;
use std::os::unix::fs::PermissionsExt;
use std::sync::{Barrier, Mutex, MutexGuard, PoisonError};
use std::thread;
use std::time::{Duration, Instant};

/// How long an answer may take where a child is silent.
const LIMIT: Duration = Duration::from_secs(1);

/// More than the limit, and less than what a test waits for a hang.
const SOON: Duration = Duration::from_secs(5);

/// A program that greets, and serves one counter from 0 to 2, with more arms of its `case`.
fn served(arms: &str) -> String {
    format!("#!/bin/sh\necho \"colock 5 1\"\nwhile read -r tag verb rest; do\n    case \"$verb\" in\n{COUNTER_ARMS}\n    {arms}\n    esac\ndone\n")
}

/// A folder with a program. One test at a time, since some have a second for an answer.
struct Fake {
    folder: Folder,
    _turn: MutexGuard<'static, ()>,
}

impl Fake {
    /// A program of this text.
    fn of(text: &str) -> Fake {
        static TURN: Mutex<()> = Mutex::new(());
        let turn = TURN.lock().unwrap_or_else(PoisonError::into_inner);
        let folder = Folder::new();
        write_program(&folder.file("fake"), text);
        fs::write(folder.file("a.db"), "").unwrap();
        Fake { folder, _turn: turn }
    }

    /// A program that serves, with more arms of its `case`.
    fn serving(arms: &str) -> Fake {
        Fake::of(&served(arms))
    }

    /// The same turn, with another program.
    fn serving_again(self, arms: &str) -> Fake {
        let Fake { folder, _turn } = self;
        write_program(&folder.file("fake"), &served(arms));
        Fake { folder, _turn }
    }

    /// A store of a child that answers, however slow the machine is.
    fn open(&self) -> Result<SharedStore, Error> {
        self.open_within(LONG)
    }

    fn open_within(&self, limit: Duration) -> Result<SharedStore, Error> {
        OpenOptions::new().program(self.folder.file("fake")).limit(limit).open(self.folder.file("a.db"))
    }

    /// The words with which it isn't opened, which come soon.
    fn refused(&self) -> String {
        let start = Instant::now();
        let opened = self.open_within(LIMIT);
        assert!(start.elapsed() < SOON, "{:?}", start.elapsed());
        match opened {
            Err(Error::CannotOpen(failure)) => failure.to_string(),
            other => panic!("{other:?}"),
        }
    }
}

/// The words with which a child is lost, which come soon.
fn lost<T: std::fmt::Debug>(act: impl FnOnce() -> Result<T, Error>) -> String {
    let start = Instant::now();
    let done = act();
    assert!(start.elapsed() < SOON, "{:?}", start.elapsed());
    match done {
        Err(Error::ConnectionLost(words)) => words,
        other => panic!("{other:?}"),
    }
}

#[test]
fn greetings_are_looked_at() {
    let rows = [
        ("#!/bin/sh\necho 'colock 1 1'\nexec sleep 60\n", "the program speaks version 1, and this client version 5"),
        ("#!/bin/sh\necho 'colock 2 1'\nexec sleep 60\n", "the program speaks version 2, and this client version 5"),
        ("#!/bin/sh\necho 'colock 3 1'\nexec sleep 60\n", "the program speaks version 3, and this client version 5"),
        ("#!/bin/sh\necho 'colock 4 1'\nexec sleep 60\n", "the program speaks version 4, and this client version 5"),
        ("#!/bin/sh\necho hello\nexec sleep 60\n", "no greeting: hello"),
        ("#!/bin/sh\necho 'colock: a.db: cannot open' >&2\nexit 3\n", "colock: a.db: cannot open"),
        ("#!/bin/sh\nexec sleep 60\n", "no answer within"),
        ("#!/bin/sh\nprintf 'colock 5 1'\n", "no whole line"),
        ("#!/bin/sh\nprintf '\\377\\n'\nexec sleep 60\n", "no whole line"),
        ("#!/bin/sh\nhead -c 1000000 /dev/zero\nexec sleep 60\n", "no whole line"),
        ("#!/bin/sh\necho 'colock 5 1'\necho '1 object redo 0'\necho '1 ok'\nexec sleep 60\n", ""),
        ("#!/bin/sh\nexit 0\n", "the program ended"),
    ];
    for (text, words) in rows {
        let told = Fake::of(text).refused();
        assert!(told.contains(words), "{text}: {told}");
    }
    let nothing = Fake::of("not a program\n");
    fs::set_permissions(nothing.folder.file("fake"), fs::Permissions::from_mode(0o644)).unwrap();
    assert!(nothing.refused().contains("ermission denied"));
}

/// A program that serves a purse with 500, of which any amount is taken and given, and the value is told.
fn serving_a_purse(arms: &str) -> Fake {
    let lines = ["number purse", "max 10000", "initial 500", "take any", "give any", "value", "end", ""].map(|line| format!("echo \"$tag {line}\"; ")).concat();
    Fake::of(&format!(
        "#!/bin/sh\necho \"colock 5 1\"\nwhile read -r tag verb rest; do\n    case \"$verb $rest\" in\n    objects*) echo \"$tag object escrow 0\"; echo \"$tag ok\" ;;\n    \
         types*) {lines} echo \"$tag ok\" ;;\n    begin*) echo \"$tag ok 1.0\" ;;\n    {arms}\n    *) echo \"$tag refused NoCall\" ;;\n    esac\ndone\n"
    ))
}

/// Names go over as they are, and replies and events come with their amounts.
#[test]
fn amounts_are_asked_and_told() {
    let fake = serving_a_purse(
        "call*' 0 take:17') echo \"$tag reply ok\" ;;\n    call*' 0 take:501') echo \"$tag reply short\" ;;\n    call*' 0 value') echo \"$tag reply 483\" ;;\n    \
         would*' 0 give:3') echo \"$tag busy 1.7\" ;;\n    \
         events*) echo \"$tag op 0 0 0 0 17\"; echo \"$tag op 0 0 0 4 483\"; echo \"$tag busy 0 1 0 4 0\"; echo \"$tag ok\" ;;",
    );
    let store = fake.open().unwrap();
    let mut t = store.begin().unwrap();
    let done = |place, amount| Ok(Told::Operation(OperationId::with(place, amount)));
    assert_eq!(
        (t.call(0, "take:17").told(), t.call_op(0, OperationId::with(0, 501)).told(), t.call(0, "value").told()),
        (done(0, 17), done(1, 501), done(4, 483))
    );
    assert_eq!(t.would(0, "give:3").told(), Ok(Told::Busy { blocker: 7 }));
    // these aren't asked at all, nor is what is refused there
    assert_eq!((t.call(0, "take:0"), t.call(0, "take:007"), t.call(0, "take:10001")), (Err(Error::NoCall), Err(Error::NoCall), Err(Error::NoCall)));
    assert_eq!(t.call(0, "take:18"), Err(Error::NoCall));
    let events = store.events(0).unwrap();
    let told = |place, amount| Event::Operation { worker: 0, transaction: 0, object: 0, operation: OperationId::with(place, amount) };
    assert_eq!(events, [told(0, 17), told(4, 483), Event::Busy { worker: 0, transaction: 1, object: 0, call: 4, blocker: 0 }]);
}

#[test]
fn wrong_amounts_are_no_answers() {
    for (call, answer) in [("value", "reply 10001"), ("value", "reply n"), ("value", "reply 007"), ("take:17", "reply 17"), ("take:17", "reply full")] {
        let fake = serving_a_purse(&format!("call*' 0 {call}') echo \"$tag {answer}\" ;;"));
        let store = fake.open().unwrap();
        assert!(matches!(store.begin().unwrap().call(0, call), Err(Error::ConnectionLost(_))), "{answer}");
    }
    for line in ["op 0 0 0 0 17 3", "op 0 0 0 0 4294967296", "op 0 0 0 256", "busy 0 1 0 4 17 0", "none 0 1 0 4 17"] {
        let fake = serving_a_purse(&format!("events*) echo \"$tag {line}\"; echo \"$tag ok\" ;;"));
        let store = fake.open().unwrap();
        assert!(matches!(store.events(0), Err(Error::ConnectionLost(_))), "{line}");
    }
}

#[test]
fn a_command_that_hangs_is_ended() {
    let fake = Fake::of("#!/bin/sh\nexec sleep 60\n");
    let (counter, start) = (common::counter(), Instant::now());
    let options = OpenOptions::new().objects([&counter]).create(true).program(fake.folder.file("fake")).limit(LIMIT);
    assert!(matches!(options.open(fake.folder.file("new.db")), Err(Error::CannotOpen(_))));
    assert!(start.elapsed() < SOON);
}

#[test]
fn broken_lines_are_no_answers() {
    let rows = [
        ("stats) echo \"$tag ok events\" ;;", "no answer to what was asked: events"),
        ("stats) echo \"$tag hello\" ;;", "no answer to what was asked: hello"),
        ("stats) echo \"$tag fault BadWords\" ;;", "no answer to what was asked: fault BadWords"),
        ("stats) echo \"$tag\" ;;", "an answer to another request"),
        ("stats) echo \"other ok events 0 begun 0 open 0\" ;;", "an answer to another request"),
        ("stats) echo ;;", "an answer to another request"),
        ("stats) printf '%s ok events 0' \"$tag\"; exit 0 ;;", "no whole line"),
        ("stats) echo 'colock: a.db: cannot read or write' >&2; exit 3 ;;", "the program ended: colock: a.db: cannot read or write"),
    ];
    for (arm, words) in rows {
        let fake = Fake::serving(arm);
        let store = fake.open().unwrap();
        let told = lost(|| store.event_count());
        assert!(told.contains(words), "{arm}: {told}");
        lost(|| store.begin().map(drop));
        lost(|| store.kept(0));
        let told = lost(|| store.close());
        assert!(told.contains(words), "{arm}: {told}");
    }
}

#[test]
fn an_answer_that_nobody_asked_for_is_a_loss() {
    let fake = Fake::serving("kept) echo \"$tag ok 1\"; echo \"$tag ok 2\" ;;");
    let store = fake.open().unwrap();
    let _first = store.kept(0); // which was answered, or lost already
    common::until(|| store.kept(0).is_err());
    // where the next request is on its way already, the line is another one's
    let told = lost(|| store.kept(0));
    assert!(told.contains("nobody asked for") || told.contains("another request"), "{told}");
}

#[test]
fn lists_are_looked_at() {
    for arm in ["events) echo \"$tag begin\"; echo \"$tag ok\" ;;", "events) echo \"$tag begin 0 0\"; echo \"$tag begin 0 1\"; exit 0 ;;"] {
        let fake = Fake::serving(arm);
        let store = fake.open().unwrap();
        lost(|| store.events(0));
    }
}

#[test]
fn an_answer_that_is_late_is_a_loss() {
    // the sleep has the pipe, and outlives the script
    let fake = Fake::serving("stats) sleep 3; echo \"$tag ok events 0 begun 0 open 0\" ;;");
    let store = fake.open_within(LIMIT).unwrap();
    let start = Instant::now();
    assert!(lost(|| store.event_count()).contains("no answer within 1s"));
    assert!((LIMIT..LIMIT + Duration::from_secs(1)).contains(&start.elapsed()), "{:?}", start.elapsed());
    lost(|| store.begin().map(drop));
    drop(store);
    assert!(start.elapsed() < SOON);
}

/// A program whose first transaction holds what the second asks for. Commits and counts are never answered.
const SILENT: &str = "begin) echo \"$tag ok 1.$((n + 0))\"; n=$((n + 1)) ;;
    call) case \"$rest\" in 1.1*) echo \"$tag busy 1.0\" ;; *) echo \"$tag reply ok\" ;; esac ;;
    commit | stats) ;;";

#[test]
fn a_silent_child_is_lost_to_all() {
    let fake = Fake::serving(SILENT);
    let store = fake.open_within(LIMIT).unwrap();
    let (mut first, mut second) = (store.begin().unwrap(), store.begin().unwrap());
    assert_eq!(first.call(0, "inc:1").told(), Ok(Told::Operation(0.into())));
    thread::scope(|scope| {
        let asleep = scope.spawn(move || second.call_within(0, "dec:1", LONG));
        until_asleep(&store, 1);
        let asking = scope.spawn(|| store.event_count());
        thread::sleep(LIMIT / 4);
        // an answer to this one can't come before that of the one before it
        let committing = scope.spawn(move || first.commit());
        lost(|| asleep.join().unwrap());
        lost(|| asking.join().unwrap());
        assert_eq!(committing.join().unwrap(), Err(Error::OutcomeUnknown(common::id("1.0"))));
    });
    lost(|| store.begin().map(drop));
}

#[test]
fn a_commit_wakes_before_it_is_answered() {
    let body = "begin) echo \"$tag ok 1.$((n + 0))\"; n=$((n + 1)) ;;
    call) if [ -z \"$told\" ]; then case \"$rest\" in 1.1*) told=1; echo \"$tag busy 1.0\" ;; *) echo \"$tag reply ok\" ;; esac
        else echo \"$tag reply ok\"; fi ;;
    would) echo \"$tag reply ok\" ;;
    commit) if [ \"$rest\" = 1.0 ]; then sleep 0.3; fi; echo \"$tag ok\" ;;";
    let fake = Fake::serving(body);
    let store = fake.open().unwrap();
    let (mut first, mut second) = (store.begin().unwrap(), store.begin().unwrap());
    assert_eq!(first.call(0, "inc:1").told(), Ok(Told::Operation(0.into())));
    thread::scope(|scope| {
        let waiter = scope.spawn(move || second.call_within(0, "dec:1", LONG).and_then(|reply| second.commit().map(|()| reply)));
        until_asleep(&store, 1);
        // answered late, when the second one has asked, which it does since this one was asked for
        assert_eq!(first.commit(), Ok(()));
        assert_eq!(waiter.join().unwrap().told(), Ok(Told::Operation(1.into())));
    });
    assert_eq!(store.stats().commits, 2);
}

/// A program that answers the call of the second transaction late, with what was so before the first one ends or rolls back.
/// A file beside it says that it has the call.
const BELATED: &str = r#"begin) echo "$tag ok 1.$((n + 0))"; n=$((n + 1)) ;;
    call) case "$rest" in 1.1*) if [ -z "$told" ]; then told=1; : > "$0.called"; sleep 0.3; echo "$tag busy 1.0"; else echo "$tag reply ok"; fi ;;
        *) echo "$tag reply ok" ;; esac ;;
    rollback | commit | abort) echo "$tag ok" ;;
    would) echo "$tag reply ok" ;;
    end) echo "$tag ok"; exit 0 ;;"#;

#[test]
fn a_blocker_that_let_go_meanwhile_isnt_waited_for() {
    type LetGo = fn(SharedTransaction<'_>);
    let rows: [LetGo; 3] = [
        |mut blocker| {
            blocker.rollback(1).unwrap();
            blocker.commit().unwrap();
        },
        |blocker| blocker.commit().unwrap(),
        |blocker| blocker.abort().unwrap(),
    ];
    for let_go in rows {
        let fake = Fake::serving(BELATED);
        let store = fake.open().unwrap();
        let (mut first, mut second) = (store.begin().unwrap(), store.begin().unwrap());
        assert_eq!(first.call(0, "inc:1").told(), Ok(Told::Operation(0.into())));
        thread::scope(|scope| {
            let waiter = scope.spawn(move || second.call_within(0, "dec:1", SOON));
            common::until(|| fake.folder.file("fake.called").exists());
            let_go(first);
            assert_eq!(waiter.join().unwrap().told(), Ok(Told::Operation(1.into())));
        });
        assert_eq!(store.stats().waits, 0);
        assert_eq!(store.close(), Ok(()));
    }
}

/// A program that ends its epoch before the third transaction begins, which aborts the first two.
const RENEWED: &str = r#"begin) case "$n" in '') echo "$tag ok 1.0"; n=1 ;; 1) echo "$tag ok 1.1"; n=2 ;; *) echo "$tag ok 2.0"; n=3 ;; esac ;;
    call | would) case "$n $rest" in 3" 1."*) echo "$tag refused NotOpen" ;; *" 1.1"*) echo "$tag busy 1.0" ;; *) echo "$tag reply ok" ;; esac ;;
    commit) case "$rest" in 1.*) echo "$tag refused NotOpen" ;; *) echo "$tag ok" ;; esac ;;
    end) echo "$tag ok"; exit 0 ;;"#;

#[test]
fn transactions_of_an_epoch_that_ended_are_told_so() {
    let fake = Fake::serving(RENEWED);
    let store = fake.open().unwrap();
    let (mut first, mut second) = (store.begin().unwrap(), store.begin().unwrap());
    assert_eq!(first.call(0, "inc:1").told(), Ok(Told::Operation(0.into())));
    thread::scope(|scope| {
        let asleep = scope.spawn(move || (second.call_within(0, "dec:1", LONG), second.commit()));
        until_asleep(&store, 1);
        let third = store.begin().unwrap();
        assert_eq!(third.begun(), Ok(common::id("2.0")));
        assert_eq!(asleep.join().unwrap(), (Err(Error::EpochEnded), Err(Error::EpochEnded)));
        assert_eq!((first.call(0, "inc:1"), first.rollback(1)), (Err(Error::EpochEnded), Err(Error::EpochEnded)));
        assert_eq!(first.commit(), Err(Error::EpochEnded));
        assert_eq!(third.commit(), Ok(()));
    });
    assert_eq!((store.stats().commits, store.stats().aborts), (1, 2));
    // without a word of a begin, a refusal says so
    assert_eq!(store.close(), Ok(()));
    let fake = fake.serving_again("begin) echo \"$tag ok 1.0\" ;; commit | call) echo \"$tag refused NotOpen\" ;;");
    let store = fake.open().unwrap();
    let mut t = store.begin().unwrap();
    assert_eq!((t.call(0, "inc:1"), t.commit()), (Err(Error::EpochEnded), Err(Error::EpochEnded)));
}

#[test]
fn a_full_epoch_is_asked_again() {
    let later = "begin) n=\"$n.\"; if [ \"$n\" = .... ]; then echo \"$tag ok 2.0\"; else echo \"$tag busy drain\"; fi ;; abort) echo \"$tag ok\" ;;";
    let fake = Fake::serving(later);
    let store = fake.open().unwrap();
    assert_eq!(store.begin().unwrap().begun(), Ok(common::id("2.0")));
    drop(store);
    let fake = fake.serving_again("begin) echo \"$tag busy drain\" ;;");
    let store = fake.open_within(LIMIT).unwrap();
    let start = Instant::now();
    assert_eq!(store.begin().err(), Some(Error::TimedOut));
    assert!((LIMIT..SOON).contains(&start.elapsed()), "{:?}", start.elapsed());
    let turn = store.transact(|turn| turn.expect(0, "inc:1", "ok"));
    assert_eq!(turn, Err(Error::TimedOut));
}

/// A program that begins one transaction, does its calls, and answers nothing else.
const DEAF: &str = r#"begin) if [ -z "$n" ]; then n=1; echo "$tag ok 1.0"; fi ;; call) echo "$tag reply ok" ;; abort | end) ;;"#;

#[test]
fn a_drop_waits_for_no_answer() {
    let fake = Fake::serving(DEAF);
    let store = fake.open_within(LIMIT).unwrap();
    let process = store.child_process().unwrap();
    let mut called = store.begin().unwrap();
    called.expect(0, "inc:1", "ok").unwrap();
    // a begin is put off until the thread asks for something else, as for another one
    let (written, put_off) = (store.begin().unwrap(), store.begin().unwrap());
    let start = Instant::now();
    drop(written);
    drop(put_off);
    drop(called);
    drop(store);
    assert!(start.elapsed() < LIMIT, "{:?}", start.elapsed());
    // which isn't left to itself for ever
    common::until(|| !std::path::Path::new(&format!("/proc/{process}")).exists());
    assert!((LIMIT..SOON).contains(&start.elapsed()), "{:?}", start.elapsed());
}

/// A program whose second transaction gets its answers late. Files beside it say that it has a call, and an abort.
const SLOW: &str = r#"begin) echo "$tag ok 1.$((n + 0))"; n=$((n + 1)) ;;
    call) case "$rest" in 1.1*) : > "$0.called"; sleep 2 ;; esac; echo "$tag reply ok" ;;
    abort) : > "$0.aborted"; echo "$tag ok" ;;
    commit) if [ -e "$0.aborted" ]; then echo "$tag ok"; else echo "$tag refused NotOpen"; fi ;;
    end) echo "$tag ok"; exit 0 ;;"#;

/// Who drops a transaction while a turn of another thread waits for the child leaves it to that turn.
#[test]
fn a_drop_waits_for_no_turn() {
    let fake = Fake::serving(SLOW);
    let store = fake.open().unwrap();
    let mut dropped = store.begin().unwrap();
    dropped.expect(0, "inc:1", "ok").unwrap();
    thread::scope(|scope| {
        let turn = scope.spawn(|| store.transact(|turn| turn.expect(0, "inc:1", "ok")));
        common::until(|| fake.folder.file("fake.called").exists());
        let start = Instant::now();
        drop(dropped);
        assert!(start.elapsed() < LIMIT, "{:?}", start.elapsed());
        assert_eq!(turn.join().unwrap().map(drop), Ok(())); // the abort went before its commit
    });
    assert_eq!((store.stats().aborts, store.stats().commits, store.close()), (1, 1, Ok(())));
}

#[test]
fn a_file_is_opened_when_its_last_child_has_ended() {
    let fake = Fake::serving("end) sleep 2; echo \"$tag ok\"; exit 0 ;;");
    let store = fake.open().unwrap();
    let (process, start) = (store.child_process().unwrap(), Instant::now());
    drop(store);
    assert!(start.elapsed() < LIMIT, "{:?}", start.elapsed());
    let again = fake.open().unwrap();
    assert!(!std::path::Path::new(&format!("/proc/{process}")).exists());
    assert_eq!(again.close(), Ok(()));
    fake.open().unwrap().close().unwrap(); // and is free again
}

#[test]
fn a_child_that_doesnt_end_as_it_was_asked_is_told() {
    let rows = [
        ("end) ;;", "no answer within 1s"),
        ("end) echo \"$tag ok\"; exec sleep 60 ;;", "the program didn't end within 1s"),
        ("end) echo \"$tag ok\"; echo 'colock: a.db: cannot write' >&2; exit 3 ;;", "the program ended with exit status: 3: colock: a.db: cannot write"),
        ("end) echo \"$tag ok\"; kill -9 $$ ;;", "the program ended with signal: 9"),
        ("end) exit 0 ;;", "the program ended"),
    ];
    for (arm, words) in rows {
        let fake = Fake::serving(arm);
        let store = fake.open_within(LIMIT).unwrap();
        let process = store.child_process().unwrap();
        let told = lost(|| store.close());
        assert!(told.contains(words), "{arm}: {told}");
        assert!(!std::path::Path::new(&format!("/proc/{process}")).exists());
    }
}

/// Nobody knows what became of an attempt that wasn't answered.
#[test]
fn an_attempt_in_flight_is_unknown() {
    for arm in ["do) exit 3 ;;", "do) ;;", "do) echo \"0 done ok\" ;;"] {
        let fake = Fake::serving(arm);
        let limit = if arm.contains("exit") { LONG } else { LIMIT };
        let store = fake.open_within(limit).unwrap();
        assert_eq!(store.attempt([(0, "inc:1")]), Err(Error::AttemptUnknown), "{arm}");
        assert!(lost(|| store.attempt([(0, "inc:1")])).len() > 3);
        assert!(lost(|| store.attempt_op(0, 0)).len() > 3);
        assert!(lost(|| store.attempt_within([(0, "inc:1")], LONG)).len() > 3);
        assert!(lost(|| store.moment()).len() > 3);
    }
    assert_eq!(Error::AttemptUnknown.to_string(), "the store was lost while an attempt was made");
}

/// Who waits between two tries is told that the child is lost.
#[test]
fn an_attempt_that_waits_is_told_of_a_loss() {
    let fake = Fake::serving("begin) echo \"$tag ok 1.0\" ;;\n    call) echo \"$tag reply ok\" ;;\n    do) echo \"$tag busy 0 1.0\" ;;\n    kept) exit 3 ;;");
    let store = fake.open().unwrap();
    let mut holder = store.begin().unwrap();
    holder.expect(0, "inc:1", "ok").unwrap();
    thread::scope(|scope| {
        let waiter = scope.spawn(|| store.attempt_within([(0, "dec:1")], LONG));
        until_asleep(&store, 1);
        let words = lost(|| store.kept(0));
        assert_eq!(waiter.join().unwrap(), Err(Error::ConnectionLost(words)));
    });
}

/// A program of which each commit under a key is answered as done.
const KEYED: &str = r#"begin) echo "$tag ok 1.$((n + 0))"; n=$((n + 1)) ;;
    call) echo "$tag reply ok" ;;
    outcome) if [ -z "$known" ]; then echo "$tag unknown"; else echo "$tag committed"; fi ;;
    commit) known=1; echo "$tag ok" ;;
    end) echo "$tag ok"; exit 0 ;;"#;

/// The answers are the same, and the first of them is that of the work which stays.
#[test]
fn of_two_under_a_key_one_is_done() {
    let fake = Fake::serving(KEYED);
    let store = fake.open().unwrap();
    let all = Barrier::new(2);
    let work = || {
        store.retry_under("order:1", &Retry::default(), |t| {
            t.expect(0, "inc:1", "ok")?;
            all.wait(); // both have found that the key is free
            Ok::<_, Error>(())
        })
    };
    let mut told = thread::scope(|scope| [scope.spawn(work), scope.spawn(work)].map(|thread| thread.join().unwrap().unwrap()));
    told.sort_by_key(|told| *told != Keyed::Done(()));
    assert_eq!(told, [Keyed::Done(()), Keyed::Known { replies: vec![] }]);
    assert_eq!((store.stats().commits, store.stats().aborts), (1, 1));
    assert_eq!(work(), Ok(Keyed::Known { replies: vec![] }));
    assert_eq!(store.close(), Ok(()));
}

/// Under a key as without one: it is known then under which key to ask again.
#[test]
fn what_is_lost_under_a_key_is_told() {
    let lost_at = |verb: &str| Fake::serving(&format!("{verb}) exit 0 ;; begin) echo \"$tag ok 1.0\" ;; call) echo \"$tag reply ok\" ;;"));
    let begun = |store: &SharedStore| {
        let mut t = store.begin().unwrap();
        t.expect(0, "inc:1", "ok").unwrap();
        t.commit_under("order:1")
    };
    assert_eq!(begun(&lost_at("commit").open().unwrap()), Err(Error::OutcomeUnknown(common::id("1.0"))));
    assert_eq!(lost_at("do").open().unwrap().attempt_under("order:1", [(0, "inc:1")]), Err(Error::AttemptUnknown));
    lost(|| lost_at("outcome").open().unwrap().outcome("order:1"));
    let fake = lost_at("nothing) ;; outcome) echo \"$tag unknown\" ;; commit");
    let retried = fake.open().unwrap().retry_under("order:1", &Retry::default(), |t| t.expect(0, "inc:1", "ok"));
    assert_eq!(retried, Err(Error::OutcomeUnknown(common::id("1.0"))));
}

/// A program that ends its epoch before the third transaction begins, which aborts the first two, and knows a key.
const RENEWED_WITH_A_KEY: &str = r#"begin) case "$n" in '') echo "$tag ok 1.0"; n=1 ;; 1) echo "$tag ok 1.1"; n=2 ;; *) echo "$tag ok 2.0"; n=3 ;; esac ;;
    call) case "$n $rest" in 3" 1."*) echo "$tag refused NotOpen" ;; *) echo "$tag reply ok" ;; esac ;;
    commit) case "$rest" in "1.0 known" | 2.*) echo "$tag ok" ;; *) echo "$tag refused NotOpen" ;; esac ;;
    end) echo "$tag ok"; exit 0 ;;"#;

#[test]
fn a_key_is_asked_for_though_the_epoch_has_ended() {
    let fake = Fake::serving(RENEWED_WITH_A_KEY);
    let store = fake.open().unwrap();
    let (mut first, second) = (store.begin().unwrap(), store.begin().unwrap());
    assert_eq!(first.call(0, "inc:1").told(), Ok(Told::Operation(0.into())));
    assert_eq!(second.begun(), Ok(common::id("1.1")));
    let third = store.begin().unwrap();
    assert_eq!(third.begun(), Ok(common::id("2.0")));
    assert_eq!(first.call(0, "inc:1"), Err(Error::EpochEnded));
    assert_eq!((first.commit_under("known"), second.commit_under("free")), (Ok(()), Err(Error::EpochEnded)));
    assert_eq!((store.stats().commits, store.stats().aborts), (0, 2));
    assert_eq!((third.commit_under("free"), store.stats().commits), (Ok(()), 1));
    assert_eq!(store.close(), Ok(()));
}

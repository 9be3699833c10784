//! What a shared store does without waiting: calls, turns, counts, ends; in memory and over a child.

#[macro_use]
mod common;

use colock::{Cause, Error, Event, Kind, OpenOptions, OperationId, OwnedTransaction, Retry, SharedStore, SharedTransaction, TransactionId, Type};
use common::{counter, filled, id, lines, number, until_asleep, Make, Telling, Told, LONG};
use std::fmt;
use std::ops::Deref;
use std::panic::{catch_unwind, AssertUnwindSafe};
use std::sync::Arc;
use std::thread;

over_both![
    calls_are_answered,
    refusals_are_seen,
    what_is_wrong_is_told,
    a_drop_aborts,
    events_are_read_from_a_place,
    a_turn_is_a_whole_transaction,
    turns_dont_overlap,
    a_turn_that_fails_aborts,
    a_turn_that_panics_aborts,
    a_turn_asks_and_rolls_back,
    a_turn_isnt_waited_for_by_its_own_thread,
    what_ends_in_a_turn_is_aborted_after_it,
    a_turn_that_is_over_is_no_turn,
    turns_of_two_stores_are_nested,
    a_retry_commits,
    errors_of_callers_are_handed_on,
    wrapped_errors_are_tried_again,
    what_came_of_a_transaction_is_told,
    stores_are_closed,
];

/// A reply has words, and another one than is wanted is an error, after which the operation is there.
fn refusals_are_seen(make: Make) {
    let account = Type::account(5, &[1, 2], Kind::Undo).unwrap();
    let store = make(&[&account]);
    let is_short = |error| matches!(error, Error::Unexpected { call, reply } if call == "withdraw:2" && reply == "short");
    let mut t = store.begin().unwrap();
    assert_eq!(t.call(0, "withdraw:1").unwrap().to_string(), "withdraw:1 short");
    assert_eq!(t.would(0, "balance").unwrap().executed().unwrap(), account.in_words(8).unwrap());
    assert!(is_short(t.expect(0, "withdraw:2", "ok").unwrap_err()));
    assert!(is_short(t.expect_within(0, "withdraw:2", "ok", LONG).unwrap_err()));
    assert_eq!((t.expect(0, "deposit:1", "ok"), t.rollback(4), t.rollback(1)), (Ok(0.into()), Ok(()), Err(Error::BadRollback)));
    drop(t);
    assert!(is_short(store.transact(|turn| turn.expect(0, "withdraw:2", "ok")).unwrap_err()));
    assert_eq!(store.transact(|turn| turn.expect(0, "deposit:2", "ok")), Ok(4.into()));
    assert_eq!((store.types().len(), store.types()[0].name().as_str(), store.kept(0)), (1, "account", Ok(2)));
}

fn calls_are_answered(make: Make) {
    let store = make(&[&counter(), &counter()]);
    let (up, down) = (store.call_number(0, "inc:1").unwrap(), store.call_number(1, "dec:1").unwrap());
    let (mut first, mut second) = (store.begin().unwrap(), store.begin().unwrap());
    assert_eq!((number(&first), number(&second)), (0, 1));
    assert_eq!(first.would(0, "inc:1").told(), Ok(Told::Operation(0.into())));
    assert_eq!(first.call(0, "inc:1").told(), Ok(Told::Operation(0.into())));
    assert_eq!(second.call_op(0, up).told(), Ok(Told::Operation(0.into()))); // beside the first
    assert_eq!((second.would(0, "dec:1").told(), second.would_op(0, down).told()), (Ok(Told::Busy { blocker: 0 }), Ok(Told::Busy { blocker: 0 })));
    assert_eq!(second.call(0, "dec:1").told(), Ok(Told::Busy { blocker: 0 }));
    assert_eq!(second.call(1, "dec:1").told(), Ok(Told::Illegal));
    assert_eq!((store.kept(0), store.kept(1), store.open_count()), (Ok(2), Ok(0), Ok(2)));
    first.rollback(1).unwrap();
    assert_eq!(store.kept(0), Ok(1));
    first.commit().unwrap();
    second.abort().unwrap();
    assert_eq!((store.kept(0), store.open_count(), store.event_count()), (Ok(0), Ok(0), Ok(9)));
    let wanted = ["begin 0 0", "begin 0 1", "op 0 0 0 0", "op 0 1 0 0", "busy 0 1 0 1 0", "none 0 1 1 1", "rollback 0 0 1", "commit 0 0", "abort 0 1"];
    assert_eq!(lines(&store, 0), wanted);
}

fn what_is_wrong_is_told(make: Make) {
    let store = make(&[&counter()]);
    let mut t = store.begin().unwrap();
    assert_eq!((t.call(1, "inc:1"), t.would(1, "inc:1")), (Err(Error::NoObject), Err(Error::NoObject)));
    for name in ["inc", "", "inc:1 ", "inc:1\n2 end", "inc:1 0"] {
        assert_eq!((t.call(0, name), t.would(0, name)), (Err(Error::NoCall), Err(Error::NoCall)), "{name}");
        assert_eq!(t.call_within(0, name, common::LONG), Err(Error::NoCall), "{name}");
    }
    assert_eq!((t.call_op(0, 4), t.would_op(0, 255)), (Err(Error::NoCall), Err(Error::NoCall)));
    assert_eq!((t.rollback(0), t.rollback(1), t.rollback(u64::MAX)), (Err(Error::BadRollback), Err(Error::BadRollback), Err(Error::BadRollback)));
    assert_eq!((store.kept(1), store.call_number(1, "inc:1"), store.call_number(0, "x")), (Err(Error::NoObject), Err(Error::NoObject), Err(Error::NoCall)));
    assert_eq!(store.event_count(), Ok(1));
    t.commit().unwrap();
}

fn a_drop_aborts(make: Make) {
    let store = make(&[&counter()]);
    let mut t = store.begin().unwrap();
    assert_eq!(t.call(0, "inc:1").told(), Ok(Told::Operation(0.into())));
    drop(t);
    assert_eq!((store.kept(0), store.open_count()), (Ok(0), Ok(0)));
    assert_eq!(lines(&store, 2), ["abort 0 0"]);
    assert_eq!((store.stats().commits, store.stats().aborts), (0, 1));
}

fn events_are_read_from_a_place(make: Make) {
    let store = make(&[&counter()]);
    store.begin().unwrap().commit().unwrap();
    assert_eq!(store.events(1), Ok(vec![Event::Commit { worker: 0, transaction: 0 }]));
    assert_eq!((store.events(2), store.events(u64::MAX)), (Ok(vec![]), Ok(vec![])));
}

fn a_turn_is_a_whole_transaction(make: Make) {
    let store = make(&[&counter(), &counter()]);
    let number = store.transact(|turn| {
        turn.expect(0, "inc:1", "ok")?;
        turn.call_op(1, 0)?.expected("ok")?;
        Ok::<u64, Error>(turn.number())
    });
    assert_eq!(number, Ok(0));
    assert_eq!((store.kept(0), store.kept(1), store.open_count()), (Ok(1), Ok(1), Ok(0)));
    assert_eq!(lines(&store, 0), ["begin 0 0", "op 0 0 0 0", "op 0 0 1 0", "commit 0 0"]);
    assert_eq!(store.stats().commits, 1);
}

fn turns_dont_overlap(make: Make) {
    let store = make(&[&counter()]);
    thread::scope(|scope| {
        for _ in 0..4 {
            scope.spawn(|| {
                for _ in 0..50 {
                    store.transact(|turn| turn.expect(0, "inc:1", "ok")).unwrap();
                }
            });
        }
    });
    assert_eq!(store.kept(0), Ok(200));
    let wanted = (0..200).flat_map(|t| [format!("begin 0 {t}"), format!("op 0 {t} 0 0"), format!("commit 0 {t}")]);
    assert_eq!(lines(&store, 0), wanted.collect::<Vec<_>>());
}

fn a_turn_that_fails_aborts(make: Make) {
    let store = filled(make, 1);
    let failed: Result<(), String> = store
        .transact(|turn| {
            turn.call(0, "inc:1").map_err(|error| Text(error.to_string()))?.expected("ok")?;
            Err(Text("no more".to_string()))
        })
        .map_err(|text: Text| text.0);
    assert_eq!(failed, Err("no more".to_string()));
    assert_eq!((store.kept(0), store.open_count()), (Ok(500), Ok(0)));
}

/// An error of a caller.
struct Text(String);

impl From<Error> for Text {
    fn from(error: Error) -> Text {
        Text(error.to_string())
    }
}

fn a_turn_that_panics_aborts(make: Make) {
    let store = filled(make, 1);
    let panicked = catch_unwind(AssertUnwindSafe(|| {
        store.transact(|turn| -> Result<(), Error> {
            turn.expect(0, "inc:1", "ok")?;
            panic!("in the middle of a turn");
        })
    }));
    assert!(panicked.is_err());
    assert_eq!((store.kept(0), store.open_count()), (Ok(500), Ok(0)));
    store.transact(|turn| turn.expect(0, "inc:1", "ok")).unwrap();
    assert_eq!(store.kept(0), Ok(501));
}

fn a_turn_asks_and_rolls_back(make: Make) {
    let store = filled(make, 1);
    store
        .transact(|turn| {
            assert!(turn.would(0, "inc:1")?.is("ok") && turn.would_op(0, 0)?.is("ok"));
            turn.expect(0, "inc:1", "ok")?;
            turn.rollback(1)?;
            assert_eq!(turn.rollback(1), Err(Error::BadRollback));
            turn.expect(0, "dec:1", "ok")
        })
        .unwrap();
    assert_eq!(store.kept(0), Ok(499));
}

/// Whether each call of a store says that the thread is in a turn of it.
fn are_told(store: &SharedStore) -> bool {
    let told = Some(Error::InTurn);
    let read = [store.kept(0).err(), store.open_count().err(), store.event_count().err(), store.events(0).err(), store.committed(id("0.0")).err()];
    let turn = store.transact(|turn| turn.expect(0, "inc:1", "ok"));
    let retry = store.retry(&Retry::default(), |t| t.expect(0, "inc:1", "ok"));
    let done = [store.begin().err(), turn.err(), retry.err()];
    let followed = store.follow(&[]).err().map(|followed| followed.error);
    let extended = store.extend([&counter()]).err();
    let in_memory = [store.forgotten_count().err(), store.forget(1).err(), store.renew().err(), extended, store.abort_all().err(), followed];
    read.iter().chain(&done).chain(&in_memory).all(|error| *error == told)
}

fn a_turn_isnt_waited_for_by_its_own_thread(make: Make) {
    let store = filled(make, 1);
    let (mut t, put_off) = (store.begin().unwrap(), store.begin().unwrap());
    t.expect(0, "inc:1", "ok").unwrap();
    store
        .transact(|turn| {
            assert!(are_told(&store));
            let told = [t.call(0, "inc:1").err(), t.call_within(0, "inc:1", common::LONG).err(), t.would(0, "inc:1").err(), t.rollback(1).err()];
            assert!(told.iter().all(|error| *error == Some(Error::InTurn)), "{told:?}");
            let _is_asked = (put_off.begun(), store.stats());
            assert_eq!(store.call_number(0, "dec:1"), Ok(1.into()));
            turn.expect(0, "inc:1", "ok")
        })
        .unwrap();
    // they go on
    t.expect(0, "inc:1", "ok").unwrap();
    t.commit().unwrap();
    put_off.commit().unwrap();
    assert_eq!((store.kept(0), store.open_count()), (Ok(503), Ok(0)));
}

fn what_ends_in_a_turn_is_aborted_after_it(make: Make) {
    let store = filled(make, 1);
    let began = |store: &SharedStore| lines(store, 0).iter().filter(|line| line.starts_with("begin")).count();
    let start = began(&store);
    let mut open: Vec<_> = (0..4).map(|_| store.begin().unwrap()).collect();
    for t in &mut open[1..] {
        t.expect(0, "inc:1", "ok").unwrap();
    }
    let [put_off, dropped, committed, aborted] = open.try_into().unwrap();
    let ends = || {
        drop((put_off, dropped));
        assert_eq!((committed.commit(), aborted.abort()), (Err(Error::InTurn), Err(Error::InTurn)));
        Ok::<(), Error>(())
    };
    store.transact(|_| ends()).unwrap();
    assert_eq!((store.kept(0), store.open_count(), began(&store) - start), (Ok(500), Ok(0), 5));
    // where the turn fails too
    let t = store.begin().unwrap();
    let failed = store.transact(|_| {
        drop(t);
        Err::<(), Error>(Error::Illegal)
    });
    assert_eq!((failed, store.open_count(), store.stats().aborts), (Err(Error::Illegal), Ok(0), 6));
}

fn a_turn_that_is_over_is_no_turn(make: Make) {
    let store = filled(make, 1);
    assert_eq!(store.transact(|_| Err::<(), Error>(Error::Illegal)), Err(Error::Illegal));
    assert_eq!(store.kept(0), Ok(500));
    let panicked = catch_unwind(AssertUnwindSafe(|| store.transact(|_| -> Result<(), Error> { panic!("as a caller may") })));
    assert!(panicked.is_err());
    assert_eq!(store.kept(0), Ok(500));
    store.transact(|turn| turn.expect(0, "inc:1", "ok")).unwrap();
    assert_eq!(store.kept(0), Ok(501));
}

fn turns_of_two_stores_are_nested(make: Make) {
    let (one, other) = (filled(make, 1), filled(make, 1));
    one.transact(|turn| {
        turn.expect(0, "inc:1", "ok")?;
        other.transact(|inner| {
            assert_eq!((one.kept(0), other.kept(0)), (Err(Error::InTurn), Err(Error::InTurn)));
            inner.expect(0, "inc:1", "ok")
        })?;
        assert_eq!((one.kept(0), other.kept(0)), (Err(Error::InTurn), Ok(501)));
        turn.expect(0, "inc:1", "ok")
    })
    .unwrap();
    assert_eq!((one.kept(0), other.kept(0)), (Ok(502), Ok(501)));
}

fn a_retry_commits(make: Make) {
    let store = filled(make, 1);
    let told = store.retry(&Retry::default(), |t| t.expect(0, "inc:1", "ok"));
    assert_eq!((told, store.kept(0)), (Ok(0.into()), Ok(501)));
}

fn errors_of_callers_are_handed_on(make: Make) {
    let store = filled(make, 1);
    let mut tries = 0;
    let told: Result<(), Box<dyn std::error::Error>> = store.retry(&Retry::default(), |t| {
        tries += 1;
        t.expect(0, "inc:1", "ok")?;
        Err("sold out".into())
    });
    assert_eq!((told.unwrap_err().to_string(), tries), ("sold out".to_string(), 1));
    let told: Result<OperationId, Box<dyn std::error::Error + Send + Sync>> = store.retry(&Retry::default(), |t| {
        tries += 1;
        let _reply = t.call(0, "inc:1")?;
        Ok(t.expect(0, "inc:500", "ok")?)
    });
    assert_eq!((told.unwrap_err().to_string(), tries), (Error::Illegal.to_string(), 2));
    assert_eq!((store.kept(0), store.open_count()), (Ok(500), Ok(0)));
}

/// An error of a caller, round one that it has from elsewhere.
#[derive(Debug)]
struct Wrapped<E>(E);

impl<E: fmt::Display> fmt::Display for Wrapped<E> {
    fn fmt(&self, f: &mut fmt::Formatter<'_>) -> fmt::Result {
        write!(f, "no booking: {}", self.0)
    }
}

impl<E: std::error::Error + 'static> std::error::Error for Wrapped<E> {
    fn source(&self) -> Option<&(dyn std::error::Error + 'static)> {
        Some(&self.0)
    }
}

/// An error behind a pointer, as `anyhow::Error` is: it isn't one by itself.
struct Report(Box<dyn std::error::Error + Send + Sync>);

impl<E: std::error::Error + Send + Sync + 'static> From<E> for Report {
    fn from(error: E) -> Report {
        Report(error.into())
    }
}

impl Deref for Report {
    type Target = dyn std::error::Error + Send + Sync;

    fn deref(&self) -> &Self::Target {
        &*self.0
    }
}

/// How many tries there are until a blocker commits before the third one, where errors come wrapped.
fn tries_of<E: From<Wrapped<Wrapped<Error>>> + From<Error> + Cause>(store: &SharedStore) -> u32 {
    let mut blocker = store.begin().ok();
    let _reply = blocker.as_mut().unwrap().call(0, "inc:1").unwrap();
    let mut tries = 0;
    let told: Result<OperationId, E> = store.retry(&Retry::default(), |t| {
        tries += 1;
        if tries == 3 {
            blocker.take().unwrap().commit()?;
        }
        Ok(t.expect(0, "dec:1", "ok").map_err(|error| Wrapped(Wrapped(error)))?)
    });
    assert!(told.is_ok(), "after {tries} tries");
    tries
}

fn wrapped_errors_are_tried_again(make: Make) {
    let store = filled(make, 1);
    assert_eq!(tries_of::<Box<dyn std::error::Error>>(&store), 3);
    assert_eq!(tries_of::<Box<dyn std::error::Error + Send + Sync>>(&store), 3);
    assert_eq!(tries_of::<Report>(&store), 3);
    assert_eq!((store.kept(0), store.open_count()), (Ok(500), Ok(0)));
}

fn what_came_of_a_transaction_is_told(make: Make) {
    let store = make(&[&counter()]);
    let ids: Vec<TransactionId> = (0..3)
        .map(|_| {
            store
                .begin()
                .map(|t| {
                    let id = t.begun().unwrap();
                    t.commit().unwrap();
                    id
                })
                .unwrap()
        })
        .collect();
    assert!(ids.iter().all(|id| store.committed(*id) == Ok(Some(true))));
    let (open, aborted) = (store.begin().unwrap(), store.begin().unwrap());
    let id = aborted.begun().unwrap();
    aborted.abort().unwrap();
    assert_eq!((store.committed(open.begun().unwrap()), store.committed(id)), (Ok(None), Ok(Some(false))));
    assert_eq!(store.committed(TransactionId { number: 100, ..id }), Ok(None));
    assert_eq!(store.committed(TransactionId { life: id.life + 1, ..id }), Ok(None));
}

fn stores_are_closed(make: Make) {
    let store = make(&[&counter()]);
    store.transact(|turn| turn.expect(0, "inc:1", "ok")).unwrap();
    let (mut open, mut waiter, put_off) = (store.begin().unwrap(), store.begin().unwrap(), store.begin().unwrap());
    open.expect(0, "inc:1", "ok").unwrap();
    thread::scope(|scope| {
        let asleep = scope.spawn(move || (waiter.call_within(0, "dec:1", LONG), waiter.commit()));
        until_asleep(&store, 1);
        assert_eq!(store.close(), Ok(()));
        assert_eq!(asleep.join().unwrap(), (Err(Error::Closed), Err(Error::Closed)));
    });
    let told =
        [open.call(0, "inc:1").err(), open.call_within(0, "inc:1", LONG).err(), open.would(0, "inc:1").err(), open.rollback(1).err(), open.commit().err()];
    assert_eq!(told, [const { Some(Error::Closed) }; 5]);
    assert_eq!((put_off.abort(), store.begin().err(), store.close()), (Err(Error::Closed), Some(Error::Closed), Err(Error::Closed)));
    let told = [store.kept(0).err(), store.open_count().err(), store.event_count().err(), store.events(0).err(), store.committed(id("0.0")).err()];
    assert_eq!(told, [const { Some(Error::Closed) }; 5]);
    assert_eq!(store.transact(|turn| turn.expect(0, "inc:1", "ok")), Err(Error::Closed));
    assert_eq!(store.retry(&Retry::default(), |t| t.expect(0, "inc:1", "ok")), Err(Error::Closed));
    // what the client knows
    assert_eq!((store.stats().commits, store.types().len(), store.call_number(0, "dec:1")), (1, 1, Ok(1.into())));
}

/// What a function does with a transaction, whether it keeps its store or not.
fn count_up(t: &mut SharedTransaction<'_>) -> Result<OperationId, Error> {
    t.expect_within(0, "inc:1", "ok", LONG)
}

/// Transactions that outlive whoever opened the store, in other threads.
fn owned(store: SharedStore) {
    let store = Arc::new(store);
    let [mut first, mut second, dropped] = [(); 3].map(|()| store.begin_owned().unwrap());
    count_up(&mut store.begin().unwrap()).unwrap();
    count_up(&mut first).unwrap();
    let weak = Arc::downgrade(&store);
    drop(store);
    let counting = thread::spawn(move || {
        count_up(&mut second).unwrap();
        second.commit()
    });
    drop(dropped);
    assert_eq!((counting.join().unwrap(), first.commit()), (Ok(()), Ok(())));
    assert!(weak.upgrade().is_none());
}

#[test]
fn transactions_keep_their_store() {
    let (counter, folder) = (counter(), common::Folder::new());
    owned(SharedStore::new([&counter], 100).unwrap());
    let options = OpenOptions::new().objects([&counter]).create(true).program(common::program());
    owned(options.clone().open(folder.file("a.db")).unwrap());
    let again = options.open(folder.file("a.db")).unwrap();
    assert_eq!((again.kept(0), again.event_count(), again.close()), (Ok(2), Ok(0), Ok(())));
}

#[test]
fn transactions_go_to_other_threads() {
    fn goes<T: Send + 'static>() {}
    goes::<OwnedTransaction>();
}

#[test]
fn what_only_a_store_in_memory_does() {
    let store = common::in_memory(&[&counter()]);
    let mut t = store.begin_as(7).unwrap();
    assert_eq!(t.call(0, "inc:1").told(), Ok(Told::Operation(0.into())));
    store.abort_all().unwrap();
    assert_eq!((t.call(0, "inc:1"), t.rollback(1)), (Err(Error::NotOpen), Err(Error::NotOpen)));
    assert_eq!(lines(&store, 0), ["begin 7 0", "op 7 0 0 0", "abort 7 0"]);
    store.forget(2).unwrap();
    assert_eq!((store.forgotten_count(), store.events(1), store.event_count()), (Ok(2), Err(Error::Forgotten), Ok(3)));
    store.renew().unwrap();
    let mut again = store.begin().unwrap();
    assert_eq!(again.id(), Some(id("1.0")));
    // the number is another one's now
    assert_eq!((t.call(0, "inc:1"), t.commit()), (Err(Error::NotOpen), Err(Error::NotOpen)));
    assert_eq!(again.call(0, "inc:1").told(), Ok(Told::Operation(0.into())));
    again.commit().unwrap();
    let other = common::in_memory(&[&counter()]);
    other.follow(&store.events(0).unwrap()).unwrap();
    assert_eq!((other.kept(0), other.committed(id("0.0"))), (Ok(1), Ok(Some(true))));
    assert_eq!((store.committed(id("0.0")), store.committed(id("1.0"))), (Ok(None), Ok(Some(true))));
}

#[test]
fn what_a_child_doesnt_do() {
    let store = common::over_a_child(&[&counter()]);
    assert_eq!(store.begin_as(1).err(), Some(Error::InMemoryOnly));
    assert_eq!(
        (store.forgotten_count(), store.forget(1), store.renew(), store.abort_all()),
        (Err(Error::InMemoryOnly), Err(Error::InMemoryOnly), Err(Error::InMemoryOnly), Err(Error::InMemoryOnly))
    );
    assert_eq!((store.forget_when_full(), store.take_events()), (Err(Error::InMemoryOnly), Err(Error::InMemoryOnly)));
    let followed = store.follow(&[Event::Begin { worker: 0, transaction: 0 }]).unwrap_err();
    assert_eq!((followed.made, followed.error), (0, Error::InMemoryOnly));
}

#[test]
fn limits_of_a_store_in_memory() {
    let counter = counter();
    assert_eq!(SharedStore::new([&counter; 0], 9).err(), Some(Error::NoObjects));
    assert_eq!(SharedStore::new([&counter], 1).err(), Some(Error::BadMax));
    let store = SharedStore::new([&counter], 3).unwrap();
    let mut t = store.begin().unwrap();
    assert_eq!(t.call(0, "inc:1").told(), Ok(Told::Operation(0.into())));
    assert_eq!((t.call(0, "inc:1"), t.call_within(0, "inc:1", common::LONG)), (Err(Error::HistoryFull), Err(Error::HistoryFull)));
    assert_eq!(store.begin().err(), Some(Error::HistoryFull));
    t.commit().unwrap();
}

#[test]
fn shared_between_threads() {
    fn is_shared<T: Send + Sync>() {}
    fn is_sent<T: Send>() {}
    is_shared::<SharedStore>();
    is_sent::<colock::SharedTransaction<'static>>();
}

#[test]
fn types_are_made_of_steps() {
    let operations = [("take:1", "ok"), ("take:1", "none"), ("give:1", "ok")];
    let step = |pieces: &u32, operation: (&str, &str)| match operation {
        ("take:1", "ok") => pieces.checked_sub(1),
        ("take:1", _) => (*pieces == 0).then_some(0),
        _ => (*pieces < 2).then_some(pieces + 1),
    };
    let stock = Type::from_steps("stock", 2, &operations, Kind::Undo, step).unwrap();
    // found from two pieces on, an operation after another: 2 pieces, 1, 0
    assert_eq!((stock.name().as_str(), stock.states(), stock.initial(), stock.operations()), ("stock", 3, 0, 3));
    let steps: Vec<Option<u64>> = (0..9_u8).map(|cell| stock.step(u64::from(cell / 3), cell % 3).unwrap()).collect();
    assert_eq!(steps, [Some(1), None, None, Some(2), None, Some(0), None, Some(2), Some(1)]);
    assert_eq!(stock.conflicts_named(("take:1", "ok"), ("give:1", "ok")), Ok(true));
    assert_eq!(stock.conflicts_named(("take:1", "ok"), ("take:1", "ok")), Ok(false));
    assert_eq!(stock.conflicts_named(("take:1", "ok"), ("give:1", "full")), Err(Error::NoOperation));
    assert_eq!(stock.operation("give:1", "ok"), Ok(2.into()));
}

#[test]
fn steps_of_a_number_in_escrow_are_in_ascending_order() {
    let operations = [("give", "ok"), ("take", "ok")];
    let step = |pieces: &i32, (call, _): (&str, &str)| Some(if call == "give" { pieces + 1 } else { pieces - 1 }).filter(|to| (5..=9).contains(to));
    let stock = Type::from_steps("stock", 7, &operations, Kind::Escrow, step).unwrap();
    assert_eq!((stock.initial(), stock.states()), (2, 5));
    let gives: Vec<Option<u64>> = (0..5).map(|state| stock.step(state, 0).unwrap()).collect();
    assert_eq!(gives, [Some(1), Some(2), Some(3), Some(4), None]);
    // as they are found: 7, 8, 6, 9, 5
    let found = Type::from_steps("stock", 7, &operations, Kind::Undo, step).unwrap();
    assert_eq!((found.initial(), found.step(0, 1), found.step(1, 0), found.step(2, 1)), (0, Ok(Some(2)), Ok(Some(3)), Ok(Some(4))));
}

#[test]
fn types_of_steps_have_limits() {
    let up = [("dec", "ok"), ("inc", "ok")];
    let many = Type::from_steps("line", 0_u32, &up, Kind::Undo, |state, (call, _)| (call == "inc").then_some(state + 1));
    assert_eq!(many.err(), Some(Error::TooManyStates { call: "inc".to_string(), reply: "ok".to_string() }));
    let most = Type::from_steps("line", 0_u32, &up, Kind::Undo, |state, (call, _)| (call == "inc" && *state < 1023).then_some(state + 1));
    assert_eq!(most.unwrap().states(), 1024);
    let same = |_: &u32, _: (&str, &str)| Some(0);
    let words: [(&str, &[(&str, &str)]); 5] = [("Line", &up), ("", &up), ("line", &[]), ("line", &[("a b", "ok")]), ("line", &[("a", "b\nend")])];
    for (name, operations) in words {
        assert_eq!(Type::from_steps(name, 0, operations, Kind::Undo, same).err(), Some(Error::BadParameter), "{name}");
    }
    let names: Vec<String> = (0..65).map(|k| k.to_string()).collect();
    let operations: Vec<(&str, &str)> = names.iter().map(|name| (name.as_str(), "ok")).collect();
    assert_eq!(Type::from_steps("line", 0, &operations, Kind::Undo, same).err(), Some(Error::TooLarge));
    assert_eq!(Type::from_steps("line", 0, &operations[..64], Kind::Undo, same).unwrap().operations(), 64);
    let twice = Type::from_steps("line", 0, &[("a", "b"), ("a", "b")], Kind::Undo, same);
    assert!(matches!(twice.err(), Some(Error::BadText { line: 5, .. })));
}

#[test]
fn types_are_displayed_as_grids() {
    let account = Type::account(1, &[1], Kind::Intentions).unwrap();
    let grid = account.to_string();
    let rows: Vec<&str> = grid.lines().collect();
    assert_eq!((rows[0], rows.len()), ("account, intentions, 2 states", 8));
    for (requested, row) in rows[2..].iter().enumerate() {
        let marks: Vec<&str> = row.split(' ').rev().take(6).collect();
        for (held, mark) in marks.iter().rev().enumerate() {
            let wanted = if account.conflicts(requested as u8, held as u8).unwrap() { "x" } else { "." };
            assert_eq!(*mark, wanted, "{grid}");
        }
    }
}

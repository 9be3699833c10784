//! Reads of what is committed, for which nobody waits: peeks, committed states and snapshots; in memory and over a child.

#[macro_use]
mod common;

use colock::{Error, Kind, Limits, Moment, Object, OpenOptions, Operation, Retry, Seen, SharedStore, Store, Type};
use common::{counter, lines, program, until_asleep, Folder, Make, LONG};
use std::sync::atomic::{AtomicBool, Ordering};
use std::thread;
use std::time::Duration;

over_both![
    a_peek_waits_for_nobody,
    a_peek_is_no_event,
    peeks_say_what_is_wrong,
    reads_of_nothing_have_a_moment,
    moments_are_ordered,
    committed_states_are_beside_the_kept,
    a_peek_is_one_moment,
    long_reads_are_one_moment,
    what_waits_sleeps_on_beside_reads,
    a_turn_reads_by_itself,
    a_store_that_is_closed_is_not_read,
];

/// A row of seats of each kind that has tables.
const TABLES: [Kind; 2] = [Kind::Undo, Kind::Intentions];

/// A purse from 0 to 50, whose balance is a reply.
fn account(kind: Kind) -> Type {
    Type::account(50, &[1], kind).unwrap()
}

/// The replies of a peek.
fn replies(seen: &Seen<Vec<Operation>>) -> Vec<String> {
    seen.value.iter().map(|operation| operation.reply.to_string()).collect()
}

/// While a transaction holds a seat, a peek sees what is committed.
fn a_peek_waits_for_nobody(make: Make) {
    for kind in TABLES {
        let seats = Type::seats(2, kind).unwrap();
        let store = make(&[&seats, &seats]);
        let mut holder = store.begin().unwrap();
        holder.expect(0, "hold:1", "ok").unwrap();
        assert_eq!(store.begin().unwrap().call(0, "free").unwrap(), colock::Reply::Busy { blocker: holder.id().unwrap() });
        let before = store.peek([(0, "free"), (1, "free")]).unwrap();
        assert_eq!(replies(&before), ["2", "2"]);
        holder.commit().unwrap();
        let after = store.peek([(0, "free"), (1, "free"), (0, "free")]).unwrap();
        assert_eq!(replies(&after), ["1", "2", "1"]);
        assert_eq!((after.at.epoch, after.at.commits), (before.at.epoch, before.at.commits + 1));
        assert_eq!(after.value[0], seats.in_words(after.value[0].id).unwrap());
        assert_eq!(store.stats().waits, 0);
    }
}

fn a_peek_is_no_event(make: Make) {
    let store = make(&[&account(Kind::Undo)]);
    let mut holder = store.begin().unwrap();
    holder.expect(0, "deposit:1", "ok").unwrap();
    let before = lines(&store, 0);
    assert_eq!(replies(&store.peek([(0, "balance")]).unwrap()), ["0"]);
    assert_eq!(store.peek([(0, "deposit:1")]), Err(Error::Changes));
    assert_eq!(store.committed_states([0]).unwrap().value, [0]);
    assert_eq!(store.snapshot().unwrap().value, [0]);
    assert_eq!((lines(&store, 0), store.open_count()), (before, Ok(1)));
    // what it reads isn't held: another one may change it
    holder.expect(0, "deposit:1", "ok").unwrap();
    holder.commit().unwrap();
    assert_eq!(replies(&store.peek([(0, "balance")]).unwrap()), ["2"]);
}

fn peeks_say_what_is_wrong(make: Make) {
    // a look that is legal where it is on alone
    let lamp = Type::from_steps("lamp", false, &[("press", "ok"), ("see", "light")], Kind::Undo, |is_on, operation| match operation {
        ("press", _) => Some(!is_on),
        _ => is_on.then_some(true),
    });
    let lamp = lamp.unwrap();
    let store = make(&[&lamp, &lamp]);
    store.transact(|turn| turn.expect(0, "press", "ok")).unwrap();
    assert_eq!(replies(&store.peek([(0, "see")]).unwrap()), ["light"]);
    assert_eq!(store.peek([(0, "see"), (0, "see"), (1, "see")]), Err(Error::IllegalAt(2)));
    assert_eq!(store.peek([(0, "see"), (0, "press"), (1, "see")]), Err(Error::Changes));
    assert_eq!((store.peek([(0, "see"), (2, "see")]), store.committed_states([0, 2])), (Err(Error::NoObject), Err(Error::NoObject)));
    for name in ["", " ", "see ", "see see", "SEE", "see\n2 end"] {
        assert_eq!(store.peek([(0, name)]), Err(Error::NoCall), "{name:?}");
    }
    let nobody = Error::NoObjectNamed("A1".to_string());
    assert_eq!((store.peek([("A1", "see")]), store.committed_states(["A1"])), (Err(nobody.clone()), Err(nobody)));
    let words = [Error::IllegalAt(2), Error::Changes, Error::NoMoment].map(|error| error.to_string());
    assert_eq!(words, ["no operation of call 2 is legal", "an operation of the call may change something", "what was read was of several moments"]);
}

fn reads_of_nothing_have_a_moment(make: Make) {
    let store = make(&[&counter()]);
    store.begin().unwrap().commit().unwrap();
    let (no_calls, no_objects): ([(u32, &str); 0], [u32; 0]) = ([], []);
    let at = store.moment().unwrap();
    assert_eq!((store.peek(no_calls), store.committed_states(no_objects)), (Ok(Seen { at, value: vec![] }), Ok(Seen { at, value: vec![] })));
    assert_eq!(at.commits, 1);
}

fn moments_are_ordered(make: Make) {
    let store = make(&[&counter()]);
    let mut moments = vec![store.moment().unwrap()];
    for round in 0..5 {
        let mut t = store.begin().unwrap();
        t.expect(0, "inc:1", "ok").unwrap();
        assert_eq!(store.moment().unwrap(), moments[round]);
        drop(store.begin().unwrap());
        if round % 2 == 0 {
            t.commit().unwrap();
        } else {
            store.transact(|turn| turn.expect(0, "inc:1", "ok")).unwrap();
        }
        moments.push(store.moment().unwrap());
    }
    assert!(moments.windows(2).all(|pair| pair[0] < pair[1] && pair[0].commits + 1 == pair[1].commits), "{moments:?}");
    assert!(Moment::new(0, 9) < Moment::new(1, 0));
}

/// Of each kind: what is committed is there beside what open transactions did, whoever ends first.
fn committed_states_are_beside_the_kept(make: Make) {
    for kind in [Kind::Undo, Kind::Intentions, Kind::Escrow] {
        let of = Type::counter(9, &[1, 2], kind).unwrap();
        let store = make(&[&of, &of, &of]);
        store.transact(|turn| turn.expect(1, "inc:2", "ok")).unwrap();
        let (mut one, mut other) = (store.begin().unwrap(), store.begin().unwrap());
        one.expect(1, "inc:1", "ok").unwrap();
        if kind != Kind::Intentions {
            other.expect(1, "inc:2", "ok").unwrap();
        }
        one.expect(2, "inc:1", "ok").unwrap();
        let open = store.kept(1).unwrap();
        assert_eq!(open, if kind == Kind::Undo { 5 } else { 2 });
        let before = store.committed_states([1, 0, 2, 1]).unwrap();
        assert_eq!((&before.value[..], before.at.commits), (&[2, 0, 0, 2][..], 1));
        assert_eq!(store.snapshot().unwrap(), Seen { at: before.at, value: vec![0, 2, 0] });
        one.commit().unwrap();
        let after = store.snapshot().unwrap();
        assert_eq!((&after.value[..], after.at.commits), (&[0, 3, 1][..], 2), "{kind}");
        drop(other);
        assert_eq!((store.snapshot().unwrap(), store.kept(1)), (after, Ok(3)));
    }
}

/// Moves one from an account to another, over and over, until it is over.
fn move_to_and_fro(store: &SharedStore, worker: u32, is_over: &AtomicBool) {
    let mut round = worker;
    while !is_over.load(Ordering::Relaxed) {
        let (from, to) = (round % 2, 1 - round % 2);
        let moved = |from: u32, to: u32| {
            store.retry(&Retry { tries: 1_000, ..Retry::default() }, |t| {
                if t.call_within(from, "withdraw:1", LONG)?.is("ok") {
                    t.expect_within(to, "deposit:1", "ok", LONG)?;
                }
                Ok::<(), Error>(())
            })
        };
        moved(from, to).unwrap();
        round += 1;
    }
}

/// What readers do while others move money to and fro.
fn while_others_move(store: &SharedStore, read: impl Fn() + Sync) {
    store.transact(|turn| (0..30).try_for_each(|_| turn.expect(0, "deposit:1", "ok").map(drop))).unwrap();
    let is_over = AtomicBool::new(false);
    thread::scope(|scope| {
        let is_over_yet = &is_over;
        let movers: Vec<_> = (0..3).map(|worker| scope.spawn(move || move_to_and_fro(store, worker, is_over_yet))).collect();
        let readers: Vec<_> = (0..3).map(|_| scope.spawn(&read)).collect();
        let are_right: Vec<bool> = readers.into_iter().map(|reader| reader.join().is_ok()).collect();
        is_over.store(true, Ordering::Relaxed);
        movers.into_iter().for_each(|mover| mover.join().unwrap());
        assert_eq!(are_right, [true; 3]);
    });
}

/// The sum is the same in each peek, and the moments of one thread never go back.
fn a_peek_is_one_moment(make: Make) {
    for kind in [Kind::Undo, Kind::Intentions, Kind::Escrow] {
        let account = account(kind);
        let store = make(&[&account, &account]);
        while_others_move(&store, || {
            let mut last = store.moment().unwrap();
            for round in 0..100 {
                let at = if round % 2 == 0 {
                    let seen = store.peek([(0, "balance"), (1, "balance")]).unwrap();
                    assert_eq!(replies(&seen).iter().map(|reply| reply.parse::<u64>().unwrap()).sum::<u64>(), 30);
                    seen.at
                } else {
                    let seen = store.snapshot().unwrap();
                    assert_eq!(seen.value.iter().sum::<u64>(), 30);
                    seen.at
                };
                assert!(last <= at);
                last = at;
            }
        });
    }
}

/// A read of more than a child takes in one line.
fn long_reads_are_one_moment(make: Make) {
    let account = account(Kind::Undo);
    let store = make(&[&account; 200]);
    while_others_move(&store, || {
        for _ in 0..20 {
            let seen = store.peek((0..200).map(|object| (object % 2, "balance"))).unwrap();
            let told: Vec<u64> = replies(&seen).iter().map(|reply| reply.parse().unwrap()).collect();
            assert!(told.len() == 200 && told.chunks(2).all(|pair| pair == &told[..2]) && told[0] + told[1] == 30, "{told:?}");
            let states = store.committed_states((0..130).map(|object| if object == 100 { 1 } else { object })).unwrap();
            assert_eq!((states.value.len(), states.value[0] + states.value[100]), (130, 30));
            let all = store.snapshot().unwrap().value;
            assert_eq!((all.len(), all.iter().sum::<u64>()), (200, 30));
        }
    });
    assert_eq!(store.peek((0..100).map(|object| (if object == 80 { 200 } else { object }, "balance"))), Err(Error::NoObject));
}

/// A reader goes by those that wait, and lets nobody go.
fn what_waits_sleeps_on_beside_reads(make: Make) {
    let account = account(Kind::Undo);
    let store = make(&[&account]);
    let mut holder = store.begin().unwrap();
    holder.expect(0, "deposit:1", "ok").unwrap();
    thread::scope(|scope| {
        let waiter = scope.spawn(|| store.begin().unwrap().call_within(0, "balance", LONG));
        until_asleep(&store, 1);
        for _ in 0..20 {
            assert_eq!(replies(&store.peek([(0, "balance")]).unwrap()), ["0"]);
        }
        thread::sleep(Duration::from_millis(20));
        assert!(!waiter.is_finished());
        holder.commit().unwrap();
        assert!(waiter.join().unwrap().unwrap().is("1"));
    });
    assert_eq!(store.stats().waits, 1);
}

fn a_turn_reads_by_itself(make: Make) {
    let store = make(&[&counter()]);
    let told = store.transact(|_| {
        let told = (store.moment(), store.peek([(0, "inc:1")]), store.committed_states([0]), store.snapshot());
        Ok::<_, Error>(told)
    });
    assert_eq!(told, Ok((Err(Error::InTurn), Err(Error::InTurn), Err(Error::InTurn), Err(Error::InTurn))));
}

fn a_store_that_is_closed_is_not_read(make: Make) {
    let store = make(&[&counter()]);
    store.close().unwrap();
    assert_eq!((store.moment(), store.snapshot()), (Err(Error::Closed), Err(Error::Closed)));
    assert_eq!((store.peek([(0, "inc:1")]), store.committed_states([0])), (Err(Error::Closed), Err(Error::Closed)));
}

/// In memory the moments count from 0 again where the store begins anew.
#[test]
fn another_epoch_is_later() {
    let seat = Type::seats(1, Kind::Undo).unwrap();
    let mut store = Store::new([("A1", &seat)], 100).unwrap();
    let _held = store.attempt([("A1", "hold:1")]).unwrap().executed().unwrap();
    let before = store.snapshot().unwrap();
    store.renew().unwrap();
    assert_eq!((before.at, store.moment()), (Moment::new(0, 1), Moment::new(1, 0)));
    assert_eq!(store.extend([("A2", &seat)]), Ok(1));
    assert_eq!(store.snapshot(), Ok(Seen { at: Moment::new(2, 0), value: vec![1, 0] }));
    let by_both = [(Object::Name("A1"), "free"), (Object::Number(1), "free")];
    assert_eq!(replies(&store.peek(by_both).unwrap()), ["0", "1"]);
    assert_eq!(store.peek([("A1", "hold:1")]), Err(Error::Changes));
    assert_eq!(store.peek([("A3", "free")]), Err(Error::NoObjectNamed("A3".to_string())));
    assert_eq!(store.committed_states(["A2", "A1"]).unwrap().value, [0, 1]);
    assert_eq!((store.committed_states([2]), store.peek([(2, "free")])), (Err(Error::NoObject), Err(Error::NoObject)));
}

/// What a client has committed is in each read that is asked after it, also where the epoch of the file is another one.
#[test]
fn another_opening_is_later() {
    let (folder, seat) = (Folder::new(), Type::seats(1, Kind::Undo).unwrap());
    let open = || OpenOptions::new().objects([("A1", &seat)]).create(true).program(program()).open(folder.file("a.db")).unwrap();
    let store = open();
    store.transact(|turn| turn.expect("A1", "hold:1", "ok")).unwrap();
    let before = store.peek([("A1", "free")]).unwrap();
    store.close().unwrap();
    let store = open();
    let after = store.peek([("A1", "free")]).unwrap();
    assert!(before.at < after.at && before.at.commits == 1 && replies(&after) == ["0"], "{before:?} {after:?}");
    store.close().unwrap();
}

/// Reads of a store of as many objects as there may be.
#[test]
fn all_of_a_large_store_is_read() {
    let seat = Type::seats(1, Kind::Undo).unwrap();
    let limits = Limits { objects: 65_536, ..Limits::STANDARD };
    let store = SharedStore::with_limits(std::iter::repeat_n(&seat, 65_536), limits).unwrap();
    store.transact(|turn| turn.expect(65_535, "hold:1", "ok")).unwrap();
    let seen = store.snapshot().unwrap();
    assert_eq!((seen.value.len(), seen.value.iter().sum::<u64>(), seen.value[65_535]), (65_536, 1, 1));
    let folder = Folder::new();
    let objects = std::iter::repeat_n(&seat, 3_000);
    let store = OpenOptions::new().objects(objects).create(true).program(program()).open(folder.file("a.db")).unwrap();
    store.transact(|turn| turn.expect(2_999, "hold:1", "ok")).unwrap();
    let seen = store.snapshot().unwrap();
    assert_eq!((seen.value.len(), seen.value.iter().sum::<u64>(), seen.value[2_999]), (3_000, 1, 1));
    store.close().unwrap();
}

//! Who waits for whom in a shared store, and who is let go; in memory and over a child.

#[macro_use]
mod common;

use colock::{Error, Kind, Reply, Retry, SharedStore, SharedTransaction, Type};
use common::{filled, id, lines, number, until_asleep, Fixture, Make, Telling, Told, LONG};
use std::sync::atomic::{AtomicBool, AtomicU64, Ordering};
use std::sync::Barrier;
use std::thread;
use std::time::{Duration, Instant};

/// Longer than anything takes that doesn't wait for a limit.
const AT_ONCE: Duration = Duration::from_secs(1);

const SHORT: Duration = Duration::from_millis(30);

over_both![
    a_call_waits_for_a_commit,
    a_call_waits_for_an_abort,
    a_call_waits_for_a_drop,
    a_rollback_wakes,
    a_call_that_is_free_doesnt_wait,
    a_call_waits_for_one_after_another,
    a_limit_ends_a_wait,
    a_limit_of_nothing_is_no_wait,
    the_younger_of_two_is_the_victim,
    who_closes_the_circle_is_the_victim,
    the_youngest_of_three_is_the_victim,
    the_gate_lets_the_older_go_first,
    the_gate_is_waited_at,
    who_leaves_the_gate_lets_others_go,
    who_is_waited_for_passes_the_gate,
    a_circle_by_the_gate_has_no_victim,
    a_stream_of_takes_lets_a_give_through,
    a_victim_tries_again_behind_its_blocker,
    tries_end,
    a_retry_keeps_its_age,
    a_swallowed_deadlock_is_no_commit,
    stats_count,
    a_take_in_escrow_waits_for_a_take,
    the_gate_of_a_number_lets_gives_pass,
    takes_in_escrow_deadlock,
    a_give_that_commits_lets_a_take_go,
    an_abort_of_another_one_lets_a_take_go,
    a_drop_of_another_one_lets_a_take_go,
    a_rollback_of_another_one_lets_a_take_go,
    what_lets_go_elsewhere_wakes_nobody,
    a_give_at_any_moment_lets_a_take_go,
];

/// A transaction that counts an object up, by 1.
fn holder(store: &SharedStore, object: u32) -> SharedTransaction<'_> {
    let mut holder = store.begin().unwrap();
    assert_eq!(holder.call(object, "inc:1").told(), Ok(Told::Operation(0.into())));
    holder
}

/// That a call waits for a transaction, and is executed after what ends the wait.
fn waits_until(make: Make, end: impl FnOnce(&mut Option<SharedTransaction<'_>>)) {
    let store = filled(make, 1);
    let (start, mut blocker) = (store.event_count().unwrap(), Some(holder(&store, 0)));
    thread::scope(|scope| {
        let waiter = scope.spawn(|| {
            let mut waiter = store.begin().unwrap();
            let reply = waiter.call_within(0, "dec:1", LONG);
            waiter.commit().unwrap();
            reply
        });
        until_asleep(&store, 1);
        thread::sleep(SHORT);
        assert!(!waiter.is_finished());
        end(&mut blocker);
        assert_eq!(waiter.join().unwrap().told(), Ok(Told::Operation(1.into())));
    });
    drop(blocker);
    let told = lines(&store, start);
    // one event of the call that was busy, and none of those that were only asked
    assert_eq!(told.iter().filter(|line| line.starts_with("busy ")).count(), 1, "{told:?}");
    assert_eq!(store.stats().waits, 1);
}

fn a_call_waits_for_a_commit(make: Make) {
    waits_until(make, |blocker| blocker.take().unwrap().commit().unwrap());
}

fn a_call_waits_for_an_abort(make: Make) {
    waits_until(make, |blocker| blocker.take().unwrap().abort().unwrap());
}

fn a_call_waits_for_a_drop(make: Make) {
    waits_until(make, |blocker| drop(blocker.take()));
}

fn a_rollback_wakes(make: Make) {
    // it stays open, and holds nothing
    waits_until(make, |blocker| blocker.as_mut().unwrap().rollback(1).unwrap());
}

fn a_call_that_is_free_doesnt_wait(make: Make) {
    let store = filled(make, 1);
    let _holder = holder(&store, 0);
    let mut t = store.begin().unwrap();
    assert_eq!(t.call_within(0, "inc:1", LONG).told(), Ok(Told::Operation(0.into())));
    assert_eq!(t.call_op_within(0, 0, Duration::ZERO).told(), Ok(Told::Operation(0.into())));
    assert_eq!(t.call_within(0, "inc:500", LONG).told(), Ok(Told::Illegal)); // 503 and 500 are too many
    assert_eq!(store.stats().waits, 0);
}

fn a_call_waits_for_one_after_another(make: Make) {
    let store = filled(make, 1);
    let (first, second) = (holder(&store, 0), holder(&store, 0));
    thread::scope(|scope| {
        let waiter = scope.spawn(|| store.begin().unwrap().call_within(0, "dec:1", LONG));
        until_asleep(&store, 1);
        first.commit().unwrap();
        thread::sleep(SHORT);
        assert!(!waiter.is_finished()); // it waits for the second now
        second.commit().unwrap();
        assert_eq!(waiter.join().unwrap().told(), Ok(Told::Operation(1.into())));
    });
    // what is asked again leaves no event
    assert_eq!(lines(&store, 0).iter().filter(|line| line.starts_with("busy ")).count(), 1);
}

fn a_limit_ends_a_wait(make: Make) {
    let store = filled(make, 1);
    let blocker = holder(&store, 0);
    let mut t = store.begin().unwrap();
    let start = Instant::now();
    assert_eq!(t.call_within(0, "dec:1", SHORT), Err(Error::TimedOut));
    assert!((SHORT..SHORT + AT_ONCE).contains(&start.elapsed()), "{:?}", start.elapsed());
    // nothing was executed, and it is open
    assert_eq!((store.kept(0), store.open_count(), store.stats().timeouts), (Ok(501), Ok(2), 1));
    blocker.commit().unwrap();
    assert_eq!(t.call_within(0, "dec:1", SHORT).told(), Ok(Told::Operation(1.into())));
    t.commit().unwrap();
}

fn a_limit_of_nothing_is_no_wait(make: Make) {
    let store = filled(make, 1);
    let _blocker = holder(&store, 0);
    assert_eq!(store.begin().unwrap().call_within(0, "dec:1", Duration::ZERO), Err(Error::TimedOut));
    assert_eq!((store.stats().waits, store.stats().timeouts), (0, 1));
}

/// The call of a waiter in a thread: whether it was executed, and how long it took. It commits where it can.
fn waiting(mut t: SharedTransaction<'_>, object: u32) -> (Result<Reply, Error>, Duration) {
    let start = Instant::now();
    let reply = t.call_within(object, "dec:1", LONG);
    let took = start.elapsed();
    if reply.is_ok() {
        t.commit().unwrap();
    } else {
        // a victim has ended already
        assert_eq!((t.call(object, "dec:1"), t.commit()), (Err(Error::NotOpen), Err(Error::NotOpen)));
    }
    (reply, took)
}

fn the_younger_of_two_is_the_victim(make: Make) {
    let store = filled(make, 2);
    let (older, younger) = (holder(&store, 0), holder(&store, 1));
    let blocker = older.begun().unwrap();
    thread::scope(|scope| {
        let victim = scope.spawn(|| waiting(younger, 0));
        until_asleep(&store, 1);
        let start = Instant::now();
        assert_eq!(waiting(older, 1).0.told(), Ok(Told::Operation(1.into())));
        assert!(start.elapsed() < AT_ONCE, "{:?}", start.elapsed());
        assert_eq!(victim.join().unwrap().0, Err(Error::Deadlock { waited_for: blocker }));
    });
    // the victim's up was taken out: 500 and one up, 500 and one down
    assert_eq!((store.kept(0), store.kept(1), store.open_count(), store.stats().deadlocks), (Ok(501), Ok(499), Ok(0), 1));
}

fn who_closes_the_circle_is_the_victim(make: Make) {
    let store = filled(make, 2);
    let (older, younger) = (holder(&store, 0), holder(&store, 1));
    let blocker = older.begun().unwrap();
    thread::scope(|scope| {
        let survivor = scope.spawn(|| waiting(older, 1));
        until_asleep(&store, 1);
        let (reply, took) = waiting(younger, 0);
        assert_eq!(reply, Err(Error::Deadlock { waited_for: blocker }));
        assert!(took < AT_ONCE, "{took:?}");
        assert_eq!(survivor.join().unwrap().0.told(), Ok(Told::Operation(1.into())));
    });
    assert_eq!((store.kept(0), store.kept(1), store.stats().deadlocks), (Ok(501), Ok(499), 1));
}

fn the_youngest_of_three_is_the_victim(make: Make) {
    let store = filled(make, 3);
    let (first, second, third) = (holder(&store, 0), holder(&store, 1), holder(&store, 2));
    let blocker = first.begun().unwrap();
    thread::scope(|scope| {
        let victim = scope.spawn(|| waiting(third, 0)); // for the first
        until_asleep(&store, 1);
        let middle = scope.spawn(|| waiting(second, 2)); // for the third
        until_asleep(&store, 2);
        let start = Instant::now();
        assert_eq!(waiting(first, 1).0.told(), Ok(Told::Operation(1.into()))); // for the second, which goes on as the third is gone
        assert!(start.elapsed() < AT_ONCE, "{:?}", start.elapsed());
        assert_eq!(victim.join().unwrap().0, Err(Error::Deadlock { waited_for: blocker }));
        assert_eq!(middle.join().unwrap().0.told(), Ok(Told::Operation(1.into())));
    });
    // up by the first; up by the second and down by the first; down by the second
    assert_eq!((store.kept(0), store.kept(1), store.kept(2)), (Ok(501), Ok(500), Ok(499)));
    assert_eq!((store.stats().deadlocks, store.open_count()), (1, Ok(0)));
}

fn the_gate_lets_the_older_go_first(make: Make) {
    let store = filled(make, 2);
    let first = holder(&store, 0);
    let older = store.begin().unwrap();
    let name = number(&older);
    let mut younger = store.begin().unwrap();
    thread::scope(|scope| {
        let waiter = scope.spawn(|| waiting(older, 0));
        until_asleep(&store, 1);
        let start = store.event_count().unwrap();
        // beside the first, but before who waits for it
        assert_eq!(younger.call(0, "inc:1").told(), Ok(Told::Busy { blocker: name }));
        assert_eq!(younger.would(0, "inc:1").told(), Ok(Told::Busy { blocker: name }));
        assert_eq!(younger.call_within(0, "inc:1", Duration::ZERO), Err(Error::TimedOut));
        assert_eq!(store.event_count().unwrap(), start); // the gate answers without an event
        assert_eq!(younger.call(0, "dec:1").told(), Ok(Told::Busy { blocker: number(&first) })); // which doesn't block a down
        assert_eq!(younger.call(1, "inc:1").told(), Ok(Told::Operation(0.into()))); // at another object
        first.commit().unwrap();
        assert_eq!(waiter.join().unwrap().0.told(), Ok(Told::Operation(1.into())));
    });
    assert_eq!(younger.call(0, "inc:1").told(), Ok(Told::Operation(0.into())));
    younger.commit().unwrap();
    assert_eq!(store.kept(0), Ok(501));
}

fn the_gate_is_waited_at(make: Make) {
    let store = filled(make, 1);
    let (first, older, mut younger) = (holder(&store, 0), store.begin().unwrap(), store.begin().unwrap());
    thread::scope(|scope| {
        let waiter = scope.spawn(|| waiting(older, 0));
        until_asleep(&store, 1);
        let start = store.event_count().unwrap();
        let behind = scope.spawn(move || {
            let reply = younger.call_within(0, "inc:1", LONG);
            younger.commit().unwrap();
            reply
        });
        until_asleep(&store, 2);
        first.commit().unwrap();
        assert_eq!(waiter.join().unwrap().0.told(), Ok(Told::Operation(1.into())));
        assert_eq!(behind.join().unwrap().told(), Ok(Told::Operation(0.into())));
        let told = lines(&store, start);
        let at = |end: &str| told.iter().position(|line| line.starts_with("op ") && line.ends_with(end)).unwrap();
        assert!(at(" 0 1") < at(" 0 0"), "the down comes before the up: {told:?}");
    });
    assert_eq!(store.kept(0), Ok(501));
}

/// Who waited at the gate goes on when the older one has given up, which stays open.
fn who_leaves_the_gate_lets_others_go(make: Make) {
    let store = filled(make, 1);
    let (first, mut older, mut younger) = (holder(&store, 0), store.begin().unwrap(), store.begin().unwrap());
    thread::scope(|scope| {
        let waiter = scope.spawn(|| older.call_within(0, "dec:1", AT_ONCE / 4));
        until_asleep(&store, 1);
        let start = Instant::now();
        // beside the first, which is still open
        assert_eq!(younger.call_within(0, "inc:1", LONG).told(), Ok(Told::Operation(0.into())));
        assert!(start.elapsed() < AT_ONCE, "{:?}", start.elapsed());
        assert_eq!(waiter.join().unwrap(), Err(Error::TimedOut));
    });
    assert_eq!((store.open_count(), store.stats().waits), (Ok(3), 2));
    drop((first, older, younger));
}

fn who_is_waited_for_passes_the_gate(make: Make) {
    let store = filled(make, 1);
    let older = store.begin().unwrap();
    let mut younger = holder(&store, 0);
    thread::scope(|scope| {
        let waiter = scope.spawn(|| waiting(older, 0));
        until_asleep(&store, 1);
        assert_eq!(younger.would(0, "inc:1").told(), Ok(Told::Operation(0.into())));
        assert_eq!(younger.call(0, "inc:1").told(), Ok(Told::Operation(0.into())));
        assert_eq!(younger.call_within(0, "inc:1", LONG).told(), Ok(Told::Operation(0.into())));
        younger.commit().unwrap();
        assert_eq!(waiter.join().unwrap().0.told(), Ok(Told::Operation(1.into())));
    });
    assert_eq!((store.kept(0), store.stats().deadlocks), (Ok(502), 0));
}

/// The oldest waits at object 0 for the first holder. The youngest holds object 1, and waits at the gate of object 0. Then
/// the first holder waits for the youngest: a circle, which the youngest leaves by passing the gate.
fn a_circle_by_the_gate_has_no_victim(make: Make) {
    let store = filled(make, 2);
    let oldest = store.begin().unwrap();
    let (first, mut youngest) = (holder(&store, 0), holder(&store, 1));
    thread::scope(|scope| {
        let waiter = scope.spawn(|| waiting(oldest, 0));
        until_asleep(&store, 1);
        let passing = scope.spawn(move || {
            let reply = youngest.call_within(0, "inc:1", LONG);
            youngest.commit().unwrap();
            reply
        });
        until_asleep(&store, 2);
        let start = Instant::now();
        assert_eq!(waiting(first, 1).0.told(), Ok(Told::Operation(1.into())));
        assert!(start.elapsed() < AT_ONCE, "{:?}", start.elapsed());
        assert_eq!(passing.join().unwrap().told(), Ok(Told::Operation(0.into())));
        assert_eq!(waiter.join().unwrap().0.told(), Ok(Told::Operation(1.into())));
    });
    // two ups and a down; an up and a down
    assert_eq!((store.kept(0), store.kept(1), store.stats().deadlocks), (Ok(501), Ok(500), 0));
}

/// How long a take holds its piece where no other one comes.
const GRACE: Duration = Duration::from_millis(250);

/// Takes a piece, and holds it until another take holds one too, so that at each moment there is one; or a while. It aborts
/// then, so that there are always some pieces.
fn take(store: &SharedStore, holding: &AtomicU64) {
    let mut take = store.begin().unwrap();
    assert_eq!(take.call_within(0, "dec:1", LONG).told(), Ok(Told::Operation(1.into())));
    holding.fetch_add(1, Ordering::SeqCst);
    let start = Instant::now();
    let may_end = || holding.fetch_update(Ordering::SeqCst, Ordering::SeqCst, |count| (count > 1).then(|| count - 1)).is_ok();
    while !may_end() {
        if start.elapsed() > GRACE {
            holding.fetch_sub(1, Ordering::SeqCst);
            break;
        }
        thread::sleep(Duration::from_millis(1));
    }
    take.abort().unwrap();
}

/// What becomes of a give, at most this long, while 15 threads take.
fn give_among_takes(store: &SharedStore, limit: Duration) -> Result<Reply, Error> {
    let (is_over, holding) = (AtomicBool::new(false), AtomicU64::new(0));
    thread::scope(|scope| {
        for _ in 0..15 {
            scope.spawn(|| {
                while !is_over.load(Ordering::SeqCst) {
                    take(store, &holding);
                }
            });
        }
        common::until(|| holding.load(Ordering::SeqCst) > 0);
        let given = store.begin().unwrap().call_within(0, "inc:1", limit);
        is_over.store(true, Ordering::SeqCst);
        given
    })
}

fn a_stream_of_takes_lets_a_give_through(make: Make) {
    let limit = Duration::from_secs(1);
    assert_eq!(give_among_takes(&filled(make, 1), limit).told(), Ok(Told::Operation(0.into())));
    // on a busy machine a give may find a gap in the stream
    assert!((0..5).any(|_| give_among_takes(&filled(make, 1).without_gate(), limit) == Err(Error::TimedOut)));
}

/// Two transactions that each count one object up and then the other down, in a circle at their first try.
fn a_victim_tries_again_behind_its_blocker(make: Make) {
    let store = filled(make, 2);
    let start = store.event_count().unwrap();
    let meet = Barrier::new(2);
    let cross = |object: u32| {
        let mut tries = 0;
        let told = store.retry(&Retry { tries: 3, ..Retry::default() }, |t| {
            tries += 1;
            t.expect_within(object, "inc:1", "ok", LONG)?;
            if tries == 1 {
                meet.wait();
            }
            t.expect_within(1 - object, "dec:1", "ok", LONG)
        });
        told.map(|_| tries)
    };
    let tries = thread::scope(|scope| {
        let (one, other) = (scope.spawn(|| cross(0)), scope.spawn(|| cross(1)));
        (one.join().unwrap(), other.join().unwrap())
    });
    assert!(tries == (Ok(1), Ok(2)) || tries == (Ok(2), Ok(1)), "{tries:?}");
    assert_eq!((store.kept(0), store.kept(1), store.stats().deadlocks), (Ok(500), Ok(500), 1));
    let told = lines(&store, start);
    let place = |what: &str| told.iter().position(|line| line.starts_with(what)).unwrap();
    let last_begin = told.iter().rposition(|line| line.starts_with("begin ")).unwrap();
    assert!(place("abort ") < place("commit ") && place("commit ") < last_begin, "{told:?}");
}

fn tries_end(make: Make) {
    let store = filled(make, 1);
    let blocker = holder(&store, 0);
    let retry = Retry { tries: 3, ..Retry::default() };
    let mut tries = 0;
    let told = store.retry(&retry, |t| {
        tries += 1;
        t.expect(0, "dec:1", "ok")
    });
    assert_eq!((told, tries), (Err(Error::Busy { blocker: blocker.begun().unwrap() }), 3));
    let told = store.retry(&retry, |t| {
        tries += 1;
        t.expect_within(0, "dec:1", "ok", Duration::from_millis(1))
    });
    assert_eq!((told, tries), (Err(Error::TimedOut), 6));
    assert_eq!((store.stats().aborts, store.open_count()), (6, Ok(1)));
    blocker.commit().unwrap();
}

/// A retry whose first try begins before another transaction, and its second one after it: in a circle of the two the
/// other one is the youngest.
fn a_retry_keeps_its_age(make: Make) {
    let store = filled(make, 2);
    let (mut other, mut blocker, mut tries) = (None, id("0.0"), 0);
    thread::scope(|scope| {
        let store: &SharedStore = &store;
        let mut victim = None;
        let told = store.retry(&Retry::default(), |t| {
            tries += 1;
            if tries == 1 {
                other = Some(holder(store, 1));
                return Err(Error::TimedOut);
            }
            t.expect(0, "inc:1", "ok")?;
            blocker = t.begun().unwrap();
            let younger = other.take().unwrap();
            victim = Some(scope.spawn(move || waiting(younger, 0)));
            until_asleep(store, 1);
            t.expect_within(1, "dec:1", "ok", LONG)
        });
        assert_eq!((told, tries), (Ok(1.into()), 2));
        assert_eq!(victim.unwrap().join().unwrap().0, Err(Error::Deadlock { waited_for: blocker }));
    });
    assert_eq!((store.kept(0), store.kept(1)), (Ok(501), Ok(499)));
}

/// A function that says nothing of it that its transaction was a victim.
fn a_swallowed_deadlock_is_no_commit(make: Make) {
    let store = filled(make, 2);
    let older = holder(&store, 0);
    let mut tries = 0;
    thread::scope(|scope| {
        let store: &SharedStore = &store;
        let mut older = Some(older);
        let told = store.retry(&Retry::default(), |t| {
            tries += 1;
            t.expect(1, "inc:1", "ok")?;
            if let Some(older) = older.take() {
                scope.spawn(move || waiting(older, 1));
                until_asleep(store, 1);
                assert!(matches!(t.call_within(0, "dec:1", LONG), Err(Error::Deadlock { .. })));
            }
            Ok::<(), Error>(())
        });
        assert_eq!((told, tries), (Ok(()), 2));
    });
    assert_eq!((store.kept(0), store.kept(1)), (Ok(501), Ok(500)));
}

fn stats_count(make: Make) {
    let store = filled(make, 2);
    let before = store.stats();
    assert_eq!((before.commits, before.aborts, &before.busy[..], before.waits, before.waited), (2, 0, &[0, 0][..], 0, Duration::ZERO));
    let blocker = holder(&store, 1);
    let mut t = store.begin().unwrap();
    assert_eq!(t.call(1, "dec:1").told(), Ok(Told::Busy { blocker: number(&blocker) }));
    assert_eq!(t.call_within(1, "dec:1", SHORT), Err(Error::TimedOut));
    blocker.commit().unwrap();
    t.abort().unwrap();
    let stats = store.stats();
    assert_eq!((stats.commits, stats.aborts, &stats.busy[..], stats.waits), (3, 1, &[0, 2][..], 1));
    assert_eq!((stats.timeouts, stats.deadlocks), (1, 0));
    // the limit is that of the whole call, of which the sleep is a part
    assert!((SHORT / 2..SHORT + AT_ONCE).contains(&stats.waited), "{:?}", stats.waited);
}

/// A store of counters up to 5 in escrow, each with this many pieces.
fn pieces(make: Make, objects: u32, count: u64) -> Fixture {
    let of = Type::counter(5, &[1], Kind::Escrow).unwrap();
    let store = make(&vec![&of; objects as usize]);
    for object in (0..objects).flat_map(|object| (0..count).map(move |_| object)) {
        store.transact(|turn| turn.expect(object, "inc:1", "ok")).unwrap();
    }
    store
}

/// A transaction that takes this many pieces.
fn taker(store: &SharedStore, object: u32, count: u64) -> SharedTransaction<'_> {
    let mut taker = store.begin().unwrap();
    assert!((0..count).all(|_| taker.call(object, "dec:1").told() == Ok(Told::Operation(1.into()))));
    taker
}

fn a_take_in_escrow_waits_for_a_take(make: Make) {
    let store = pieces(make, 1, 1);
    let (first, second) = (taker(&store, 0, 1), store.begin().unwrap());
    thread::scope(|scope| {
        let waiter = scope.spawn(|| waiting(second, 0));
        until_asleep(&store, 1);
        assert_eq!(store.kept(0), Ok(1)); // without what is open
        first.abort().unwrap();
        assert_eq!(waiter.join().unwrap().0.told(), Ok(Told::Operation(1.into())));
    });
    assert_eq!(store.kept(0), Ok(0));
}

fn the_gate_of_a_number_lets_gives_pass(make: Make) {
    let store = pieces(make, 1, 2);
    let (first, older, mut younger) = (taker(&store, 0, 2), store.begin().unwrap(), store.begin().unwrap());
    let name = number(&older);
    thread::scope(|scope| {
        let waiter = scope.spawn(|| waiting(older, 0));
        until_asleep(&store, 1);
        // a take goes after the one that waits; a give blocks no take
        assert_eq!((younger.call(0, "dec:1").told(), younger.would(0, "dec:1").told()), (Ok(Told::Busy { blocker: name }), Ok(Told::Busy { blocker: name })));
        assert_eq!(younger.call(0, "inc:1").told(), Ok(Told::Operation(0.into())));
        first.abort().unwrap();
        assert_eq!(waiter.join().unwrap().0.told(), Ok(Told::Operation(1.into())));
    });
    assert_eq!((younger.call(0, "dec:1").told(), store.kept(0)), (Ok(Told::Operation(1.into())), Ok(1)));
    younger.commit().unwrap();
    assert_eq!(store.kept(0), Ok(1));
}

fn takes_in_escrow_deadlock(make: Make) {
    let store = pieces(make, 2, 1);
    let (older, younger) = (taker(&store, 0, 1), taker(&store, 1, 1));
    let blocker = older.begun().unwrap();
    thread::scope(|scope| {
        let victim = scope.spawn(|| waiting(younger, 0));
        until_asleep(&store, 1);
        assert_eq!(waiting(older, 1).0.told(), Ok(Told::Operation(1.into())));
        assert_eq!(victim.join().unwrap().0, Err(Error::Deadlock { waited_for: blocker }));
    });
    assert_eq!((store.kept(0), store.kept(1), store.stats().deadlocks), (Ok(0), Ok(0), 1));
}

/// A store of counters up to 20 in escrow, each at 10.
fn tens(make: Make, objects: u32) -> Fixture {
    let of = Type::counter(20, &[3, 5, 8, 10], Kind::Escrow).unwrap();
    let store = make(&vec![&of; objects as usize]);
    for object in 0..objects {
        store.transact(|turn| turn.expect(object, "inc:10", "ok")).unwrap();
    }
    store
}

/// A transaction that has made a call at object 0.
fn caller<'s>(store: &'s SharedStore, name: &str) -> SharedTransaction<'s> {
    let mut caller = store.begin().unwrap();
    caller.call(0, name).unwrap().expected("ok").unwrap();
    caller
}

/// That a take of 5, which waits for the first of those that are open, is let go by what `end` does, while that one stays
/// open.
fn is_let_go(store: &SharedStore, first: &SharedTransaction<'_>, end: impl FnOnce()) {
    let name = number(first);
    thread::scope(|scope| {
        let waiter = scope.spawn(|| {
            let mut waiter = store.begin().unwrap();
            assert_eq!(waiter.would(0, "dec:5").told(), Ok(Told::Busy { blocker: name }));
            let reply = waiter.call_within(0, "dec:5", LONG);
            waiter.commit().unwrap();
            reply
        });
        until_asleep(store, 1);
        thread::sleep(SHORT);
        assert!(!waiter.is_finished());
        end();
        waiter.join().unwrap().unwrap().expected("ok").unwrap();
    });
    assert_eq!(store.stats().waits, 1);
}

fn a_give_that_commits_lets_a_take_go(make: Make) {
    for is_turn in [true, false] {
        let store = tens(make, 1);
        let first = caller(&store, "dec:8");
        is_let_go(&store, &first, || match is_turn {
            true => store.transact(|turn| turn.expect(0, "inc:10", "ok")).map(drop).unwrap(),
            false => caller(&store, "inc:10").commit().unwrap(),
        });
        first.commit().unwrap();
        assert_eq!(store.kept(0), Ok(7));
    }
}

/// Two that have taken 3 of 10 keep out together who takes 5, and neither does so alone. The first is named.
fn is_let_go_by_the_second(make: Make, end: impl FnOnce(&mut Option<SharedTransaction<'_>>)) {
    let store = tens(make, 1);
    let first = caller(&store, "dec:3");
    let mut second = Some(caller(&store, "dec:3"));
    is_let_go(&store, &first, || end(&mut second));
    drop(second);
    first.commit().unwrap();
    assert_eq!(store.kept(0), Ok(2));
}

fn an_abort_of_another_one_lets_a_take_go(make: Make) {
    is_let_go_by_the_second(make, |second| second.take().unwrap().abort().unwrap());
}

fn a_drop_of_another_one_lets_a_take_go(make: Make) {
    is_let_go_by_the_second(make, |second| drop(second.take()));
}

fn a_rollback_of_another_one_lets_a_take_go(make: Make) {
    is_let_go_by_the_second(make, |second| second.as_mut().unwrap().rollback(1).unwrap());
}

fn what_lets_go_elsewhere_wakes_nobody(make: Make) {
    let store = tens(make, 2);
    let first = caller(&store, "dec:8");
    is_let_go(&store, &first, || {
        store.transact(|turn| turn.expect(1, "inc:10", "ok")).unwrap();
        let mut other = store.begin().unwrap();
        other.call(1, "dec:3").unwrap().expected("ok").unwrap();
        other.rollback(1).unwrap();
        other.commit().unwrap();
        // at the object, but nothing is executed
        let mut busy = store.begin().unwrap();
        assert_eq!(busy.call(0, "dec:10").told(), Ok(Told::Busy { blocker: number(&first) + 1 }));
        busy.abort().unwrap();
        thread::sleep(SHORT);
        assert_eq!(store.stats().waits, 1);
        caller(&store, "inc:10").commit().unwrap();
    });
    first.commit().unwrap();
    assert_eq!((store.kept(0), store.kept(1)), (Ok(7), Ok(20)));
}

/// A take of 5 and a give of 5 at the same moment, again and again, while one who took 8 of 10 stays open. The give lets the
/// take go, whichever is asked for first.
fn a_give_at_any_moment_lets_a_take_go(make: Make) {
    let store = tens(make, 1);
    let first = caller(&store, "dec:8");
    for turn in 0..100 {
        let meet = Barrier::new(2);
        thread::scope(|scope| {
            let waiter = scope.spawn(|| {
                let mut waiter = store.begin().unwrap();
                meet.wait();
                let reply = waiter.call_within(0, "dec:5", LONG);
                waiter.abort().unwrap();
                reply
            });
            let give = caller(&store, "inc:5");
            meet.wait();
            thread::sleep(Duration::from_micros(turn * 10));
            give.commit().unwrap();
            waiter.join().unwrap().unwrap().expected("ok").unwrap();
        });
        caller(&store, "dec:5").commit().unwrap();
    }
    first.commit().unwrap();
    assert_eq!(store.kept(0), Ok(2));
}

//! Stores in memory that begin anew by themselves, or are told to, while transactions are open: at small limits, and beside stores
//! that never do.

mod common;

use colock::{Attempt, Decision, Ending, Error, Event, Kind, LeftOpen, Limits, Moment, Operation, Reply, SharedStore, Store, Type};
use common::{id, until_asleep, Drawn, Telling, Told, LONG};
use std::thread;

/// The limit of events of most of these stores.
const FEW: u64 = 40;

const KINDS: [Kind; 3] = [Kind::Undo, Kind::Intentions, Kind::Escrow];

/// A type whose yes is one-way in place: its checker says so.
const ONE_WAY: &str = "type oneway\nstates 5\ninitial 0\nop p ok\nop q ok\nop r ok\nstep 0 0 2\nstep 0 1 1\nstep 1 0 3\nstep 2 1 4\nstep 4 2 4\n\
    equi 1 0\nequi 3 0\nequi 3 1\nequi 3 2\nequi 3 4\nconflict undo 1 0\nconflict undo 2 1\nconflict intentions 0 0\n\
    conflict intentions 0 1\nconflict intentions 1 0\nconflict intentions 1 1\nend\n";

const PURSE: &str = "number purse\nmax 100\ninitial 20\ntake any\ngive 7\ngive any\natleast 5\nvalue\nend\n";

fn counter(kind: Kind) -> Type {
    Type::counter(1_000, &[1, 500], kind).unwrap()
}

fn one_way(kind: Kind) -> Type {
    Type::read(ONE_WAY, kind).unwrap()
}

/// A store that has no end.
fn endless(objects: &[&Type]) -> Store {
    let store = Store::new(objects, FEW).unwrap();
    store.forget_when_full();
    store
}

fn endless_shared(objects: &[&Type]) -> SharedStore {
    let store = SharedStore::new(objects, FEW).unwrap();
    store.forget_when_full().unwrap();
    store
}

/// What is called the next time, so that a counter is at 0 or 1.
fn up_or_down(number: u64) -> &'static str {
    ["inc:1", "dec:1"][(number % 2) as usize]
}

/// Whole transactions, which count an object up and down in turn: three events each.
fn count(store: &SharedStore, object: u32, times: u64) {
    for time in 0..times {
        let _done = store.attempt([(object, up_or_down(time))]).unwrap().executed().unwrap();
    }
}

fn replied(told: Result<Attempt, Error>) -> Vec<String> {
    told.unwrap().executed().unwrap().iter().map(Operation::to_string).collect()
}

// ---- no end

#[test]
fn a_transaction_stays_open_while_thousands_come_and_go() {
    for kind in KINDS {
        let of = counter(kind);
        let store = endless(&[&of, &of]);
        let mut long = store.begin_as(7).unwrap();
        long.expect(1, "inc:1", "ok").unwrap();
        for number in 1..=3_000 {
            let mut t = store.begin().unwrap();
            assert_eq!((t.number(), t.id()), (number, colock::TransactionId::new(0, number)));
            t.expect(0, up_or_down(number - 1), "ok").unwrap();
            t.commit().unwrap();
            assert_eq!((store.event_count(), store.moment()), (2 + 3 * number, Moment::new(0, number)));
        }
        assert_eq!((long.number(), store.open_count(), store.committed_states([0, 1]).unwrap().value), (0, 1, vec![0, 0]));
        // all but the last events are forgotten, and no event is there twice
        let last = store.event_count();
        let seen = store.events(last - 3).unwrap();
        assert_eq!(seen[2], Event::Commit { worker: 0, transaction: 3_000 });
        assert!(last - store.forgotten_count() <= FEW && store.events(store.forgotten_count() - 1) == Err(Error::Forgotten));
        long.expect(1, "inc:1", "ok").unwrap();
        long.commit().unwrap();
        assert_eq!((store.kept(0), store.kept(1), store.snapshot().unwrap().at), (Ok(0), Ok(2), Moment::new(0, 3_001)));
        assert_eq!(store.events(9_003).unwrap().last(), Some(&Event::Commit { worker: 7, transaction: 0 }));
    }
}

#[test]
fn what_is_prepared_stays_so() {
    for kind in KINDS {
        let of = counter(kind);
        let store = endless_shared(&[&of, &of, &of]);
        let (mut first, mut second) = (store.begin().unwrap(), store.begin().unwrap());
        first.expect(1, "inc:1", "ok").unwrap();
        second.expect(2, "inc:1", "ok").unwrap();
        second.prepare("a", 9).unwrap();
        count(&store, 0, 1_000);
        let prepared = store.prepared().unwrap();
        assert_eq!((prepared.len(), prepared[0].id, prepared[0].objects.clone(), second.id()), (1, id("0.1"), vec![2], Some(id("0.1"))));
        assert_eq!((second.call(2, "inc:1"), store.open_count()), (Err(Error::Prepared), Ok(2)));
        first.commit().unwrap();
        store.decide("a", Decision::Commit).unwrap();
        assert_eq!((store.kept(1), store.kept(2), store.committed(id("0.1")), second.commit()), (Ok(1), Ok(1), Ok(Some(true)), Err(Error::NotOpen)));
    }
}

#[test]
fn rollbacks_go_on() {
    for kind in KINDS {
        let of = counter(kind);
        let store = endless_shared(&[&of, &of, &of]);
        let mut long = store.begin().unwrap();
        for object in [1, 2, 1, 2] {
            long.expect(object, "inc:1", "ok").unwrap();
        }
        count(&store, 0, 100);
        assert_eq!(long.rollback(5), Err(Error::BadRollback));
        long.rollback(1).unwrap();
        count(&store, 0, 100);
        long.rollback(2).unwrap();
        count(&store, 0, 100);
        assert_eq!(long.rollback(2), Err(Error::BadRollback));
        long.commit().unwrap();
        assert_eq!((store.kept(0), store.kept(1), store.kept(2)), (Ok(0), Ok(1), Ok(0)));
    }
}

/// The history has room for the begins and the ends of as many as may be open, so a rollback may be what finds it full.
#[test]
fn each_call_that_needs_room_finds_some() {
    let of = counter(Kind::Undo);
    for calls in 0..40 {
        let store = endless(&[&of]);
        let mut long = store.begin().unwrap();
        for _ in 0..calls {
            assert!(long.would(0, "inc:1").unwrap().is("ok"));
            long.expect(0, "inc:1", "ok").unwrap();
            long.rollback(1).unwrap();
        }
        assert_eq!(store.begin().unwrap().number(), 1);
        assert_eq!(replied(store.attempt([(0, "inc:1")])), ["inc:1 ok"]);
        let up = store.call_number(0, "inc:1").unwrap();
        assert!(store.attempt_op(0, up).unwrap().is("ok"));
        assert!(long.call_op(0, up).unwrap().is("ok") && long.would_op(0, up).unwrap().is("ok"));
        long.commit().unwrap();
        assert_eq!((store.kept(0), store.begin().unwrap().number()), (Ok(3), 4));
    }
}

/// An attempt of as many calls as the history has room for.
#[test]
fn attempts_are_whole() {
    let of = counter(Kind::Escrow);
    let store = endless_shared(&[&of]);
    for times in 1..=50 {
        assert_eq!(replied(store.attempt([(0, up_or_down(times - 1)); 38])).len(), 38);
        assert_eq!((store.kept(0), store.attempt([(0, "inc:1"); 39])), (Ok(38 * (times % 2)), Err(Error::HistoryFull)));
    }
    let mut long = store.begin().unwrap();
    assert_eq!(replied(store.attempt([(0, "inc:1"); 36])).len(), 36);
    assert_eq!(store.attempt([(0, "inc:1"); 37]), Err(Error::HistoryFull));
    long.expect(0, "dec:1", "ok").unwrap();
    assert_eq!(store.attempt([(0, "inc:1"); 36]), Err(Error::HistoryFull));
    drop(long);
    // what is busy tells the number that its blocker has
    let seats = Type::seats(1, Kind::Undo).unwrap();
    let store = endless_shared(&[&of, &seats]);
    count(&store, 0, 50);
    let mut holder = store.begin().unwrap();
    holder.expect(1, "hold:1", "ok").unwrap();
    count(&store, 0, 50);
    let ended = store.attempt([(1, "hold:1")]).unwrap();
    assert_eq!(ended, Attempt::Ended { at: 0, how: Ending::Busy { blocker: id("0.50") } });
    assert_eq!((holder.id(), store.begin().unwrap().call(1, "hold:1")), (Some(id("0.50")), Ok(Reply::Busy { blocker: id("0.50") })));
}

#[test]
fn what_is_open_counts() {
    let of = counter(Kind::Undo);
    let store = Store::new([&of], 8).unwrap();
    store.forget_when_full();
    let mut long = store.begin().unwrap();
    for _ in 0..6 {
        long.expect(0, "inc:1", "ok").unwrap();
    }
    for _ in 0..3 {
        assert_eq!(
            (long.call(0, "inc:1"), long.rollback(1), store.begin().err()),
            (Err(Error::HistoryFull), Err(Error::HistoryFull), Some(Error::HistoryFull))
        );
        assert_eq!((store.event_count(), store.open_count()), (7, 1));
    }
    long.commit().unwrap();
    assert_eq!((store.kept(0), store.begin().unwrap().number()), (Ok(6), 1));
    // nobody was carried
    assert_eq!((store.events(7), store.events(8).map(|events| events.len())), (Err(Error::Forgotten), Ok(2)));
}

/// Who doesn't forget a history doesn't lose it; who forgets all of it now and then never finds it full.
#[test]
fn a_history_that_is_kept_isnt_lost() {
    let of = counter(Kind::Undo);
    let store = SharedStore::new([&of, &of], FEW).unwrap();
    count(&store, 0, 13);
    assert_eq!((store.attempt([(0, "inc:1")]), store.forgotten_count(), store.events(0).unwrap().len()), (Err(Error::HistoryFull), Ok(0), 39));
    store.forget(38).unwrap();
    assert_eq!((store.attempt([(0, "inc:1")]), store.begin().err()), (Err(Error::HistoryFull), Some(Error::HistoryFull)));
    assert_eq!(store.events(38).unwrap(), [Event::Commit { worker: 0, transaction: 12 }]);
    store.forget(1).unwrap();
    let mut long = store.begin().unwrap();
    long.expect(1, "inc:1", "ok").unwrap();
    for round in 1..=500 {
        count(&store, 0, 5);
        let (last, all) = (store.event_count().unwrap(), store.events(store.forgotten_count().unwrap()).unwrap());
        assert_eq!((last, all.len()), (41 + 15 * round, if round == 1 { 17 } else { 15 }));
        assert_eq!((store.take_events(), store.take_events()), (Ok(all), Ok(vec![])));
    }
    long.commit().unwrap();
    assert_eq!((store.kept(0), store.kept(1), store.begin().unwrap().id()), (Ok(501), Ok(1), Some(id("0.2514"))));
}

// ---- one-way types

#[test]
fn a_one_way_type_waits_until_nobody_is_open() {
    let (of, other) = (one_way(Kind::Undo), counter(Kind::Undo));
    let store = endless(&[&of, &other]);
    let mut long = store.begin().unwrap();
    let mut done = 0;
    while store.attempt([(1, "inc:1")]).is_ok() {
        done += 1;
    }
    assert_eq!((done, store.event_count(), store.forgotten_count()), (12, 37, 0)); // as where it keeps its history
    long.expect(0, "q", "ok").unwrap();
    assert_eq!((store.begin().err(), long.call(1, "inc:1").is_ok(), long.call(1, "inc:1")), (Some(Error::HistoryFull), true, Err(Error::HistoryFull)));
    long.commit().unwrap();
    for number in 13..1_000 {
        let mut t = store.begin().unwrap();
        assert_eq!(t.number(), number);
        t.expect(1, "inc:1", "ok").unwrap();
        t.commit().unwrap();
    }
    assert_eq!((store.kept(0), store.kept(1)), (Ok(1), Ok(1_000)));
    // deferred its yes is strong
    let (of, other) = (one_way(Kind::Intentions), counter(Kind::Intentions));
    let store = endless_shared(&[&of, &other]);
    let mut long = store.begin().unwrap();
    long.expect(0, "q", "ok").unwrap();
    count(&store, 1, 500);
    long.commit().unwrap();
    assert_eq!((store.kept(0), store.kept(1)), (Ok(1), Ok(0)));
}

// ---- told to

#[test]
fn a_store_that_is_told_to_goes_on_with_what_is_open() {
    let (of, other) = (counter(Kind::Undo), counter(Kind::Escrow));
    let mut store = Store::new([&of, &other], 100).unwrap();
    store.begin().unwrap().commit().unwrap();
    let mut t = store.begin_as(3).unwrap();
    t.expect(1, "inc:1", "ok").unwrap();
    let (ended, left) = (store.begin().unwrap().leave(), t.leave());
    store.resume(ended).unwrap().abort().unwrap();
    store.renew().unwrap();
    assert_eq!((store.event_count(), store.forgotten_count(), store.moment(), store.open_count()), (6, 6, Moment::new(0, 1), 1));
    assert_eq!((left.id(), store.resume(left).unwrap().leave().id(), store.resume(ended).unwrap().commit()), (id("0.1"), id("0.1"), Err(Error::NotOpen)));
    assert_eq!(store.begin().unwrap().leave().id(), id("0.3"));
    store.abort_all();
    assert_eq!(store.events(7).unwrap(), [Event::Abort { worker: 3, transaction: 1 }, Event::Abort { worker: 0, transaction: 3 }]);
    // a life ends where nobody is open
    store.renew().unwrap();
    assert_eq!((store.event_count(), store.moment(), store.resume(left).err()), (0, Moment::new(1, 0), Some(Error::NotOpen)));
    assert_eq!(store.begin().unwrap().id(), id("1.0"));
    let mut store = Store::new([&one_way(Kind::Undo)], 100).unwrap();
    let left = store.begin().unwrap().leave();
    assert_eq!((store.renew(), store.event_count(), store.forgotten_count()), (Err(Error::StillOpen), 1, 0));
    store.resume(left).unwrap().commit().unwrap();
    assert_eq!((store.renew(), store.event_count()), (Ok(()), 0));
}

#[test]
fn a_shared_store_that_is_told_to_goes_on_with_what_is_open() {
    let of = counter(Kind::Escrow);
    let store = SharedStore::new([&of], 100).unwrap();
    let mut first = store.begin().unwrap();
    first.expect(0, "inc:1", "ok").unwrap();
    count(&store, 0, 2);
    let mut second = store.begin().unwrap();
    second.expect(0, "inc:1", "ok").unwrap();
    second.prepare("a", 0).unwrap();
    for _ in 0..3 {
        store.renew().unwrap();
        assert_eq!((store.event_count(), store.forgotten_count(), store.moment()), (Ok(10), Ok(10), Ok(Moment::new(0, 2))));
    }
    assert_eq!((first.id(), store.prepared().unwrap()[0].id, store.begin().unwrap().id()), (Some(id("0.0")), id("0.3"), Some(id("0.4"))));
    first.rollback(1).unwrap();
    first.commit().unwrap();
    store.decide("a", Decision::Commit).unwrap();
    assert_eq!((store.kept(0), store.committed(id("0.0")), store.stats().aborts), (Ok(1), Ok(Some(true)), 1));
    store.renew().unwrap();
    assert_eq!((store.committed(id("0.0")), store.event_count(), store.begin().unwrap().id()), (Ok(None), Ok(0), Some(id("1.0"))));
    let store = SharedStore::new([&one_way(Kind::Undo)], 100).unwrap();
    let t = store.begin().unwrap();
    assert_eq!(store.renew(), Err(Error::StillOpen));
    drop(t);
    assert_eq!(store.renew(), Ok(()));
}

/// What isn't prepared is aborted, also where it was carried.
#[test]
fn all_that_is_carried_is_aborted() {
    let of = counter(Kind::Undo);
    let store = endless_shared(&[&of]);
    let (first, mut second, third) = (store.begin().unwrap(), store.begin().unwrap(), store.begin().unwrap());
    second.prepare("a", 0).unwrap();
    count(&store, 0, 100);
    let fourth = store.begin().unwrap();
    store.abort_all().unwrap();
    assert_eq!((store.open_count(), store.stats().aborts), (Ok(1), 3));
    assert_eq!((first.commit(), third.commit(), fourth.commit()), (Err(Error::NotOpen), Err(Error::NotOpen), Err(Error::NotOpen)));
    store.decide("a", Decision::Abort).unwrap();
    let (a, b) = (store.begin().unwrap(), store.begin().unwrap());
    store.abort_all().unwrap();
    assert_eq!((a.commit(), b.abort(), store.kept(0)), (Err(Error::NotOpen), Err(Error::NotOpen), Ok(0)));
}

// ---- those that wait

#[test]
fn a_wait_goes_on() {
    for kind in [Kind::Undo, Kind::Intentions] {
        let (seats, of) = (Type::seats(1, kind).unwrap(), counter(kind));
        let store = endless_shared(&[&seats, &of]);
        let mut holder = store.begin().unwrap();
        holder.expect(0, "hold:1", "ok").unwrap();
        thread::scope(|scope| {
            let waiter = scope.spawn(|| {
                let mut t = store.begin().unwrap();
                t.expect_within(0, "hold:1", "ok", LONG).and_then(|_| t.commit())
            });
            until_asleep(&store, 1);
            count(&store, 1, 500);
            store.renew().unwrap();
            assert!(!waiter.is_finished());
            holder.abort().unwrap();
            assert_eq!(waiter.join().unwrap(), Ok(()));
        });
        // nobody was woken in vain
        assert_eq!((store.stats().waits, store.open_count(), store.kept(1)), (1, Ok(0), Ok(0)));
    }
}

/// Two hold what the other one wants. Where a circle comes about, renewals lie between its parts.
#[test]
fn a_circle_is_found() {
    for kind in [Kind::Undo, Kind::Intentions] {
        let (seats, of) = (Type::seats(1, kind).unwrap(), counter(kind));
        let store = endless_shared(&[&seats, &seats, &of]);
        let (mut older, mut younger) = (store.begin().unwrap(), store.begin().unwrap());
        older.expect(0, "hold:1", "ok").unwrap();
        younger.expect(1, "hold:1", "ok").unwrap();
        count(&store, 2, 100);
        thread::scope(|scope| {
            let waiter = scope.spawn(move || older.expect_within(1, "hold:1", "ok", LONG).and_then(|_| older.commit()));
            until_asleep(&store, 1);
            count(&store, 2, 100);
            assert_eq!(younger.call_within(0, "hold:1", LONG), Err(Error::Deadlock { waited_for: id("0.0") }));
            assert_eq!(waiter.join().unwrap(), Ok(()));
        });
        assert_eq!((store.stats().deadlocks, store.stats().timeouts, store.open_count()), (1, 0, Ok(0)));
    }
}

#[test]
fn a_gift_lets_who_waits_go() {
    let (stock, of) = (Type::stock(20, &[2, 3, 5], Kind::Escrow).unwrap(), counter(Kind::Escrow));
    let store = endless_shared(&[&stock, &of]);
    assert_eq!(replied(store.attempt([(0, "give:3")])), ["give:3 ok"]);
    let mut giver = store.begin().unwrap();
    giver.expect(0, "give:2", "ok").unwrap();
    thread::scope(|scope| {
        let taker = scope.spawn(|| store.attempt_within([(0, "take:5")], LONG));
        let other = scope.spawn(|| {
            let mut t = store.begin().unwrap();
            t.expect_within(0, "take:5", "short", LONG).and_then(|_| t.commit())
        });
        until_asleep(&store, 2);
        count(&store, 1, 300);
        giver.commit().unwrap();
        // who wanted to find nothing gives it back where it came first
        let (taken, short) = (taker.join().unwrap().unwrap().executed().unwrap()[0].to_string(), other.join().unwrap());
        assert!(taken == "take:5 ok" && matches!(short, Ok(()) | Err(Error::Unexpected { .. })), "{taken}, {short:?}");
    });
    assert_eq!((store.kept(1), store.open_count(), store.stats().timeouts), (Ok(0), Ok(0), 0));
}

/// Eight threads at a few objects, each of which waits, for as long as thousands of events take.
#[test]
fn threads_go_on() {
    let of = counter(Kind::Undo);
    let limits = Limits { events: 100, open: 16, ..Limits::STANDARD };
    let store = SharedStore::with_limits([&of; 3], limits).unwrap();
    store.forget_when_full().unwrap();
    assert_eq!(replied(store.attempt([(0, "inc:500"), (1, "inc:500"), (2, "inc:500")])).len(), 3);
    thread::scope(|scope| {
        for thread in 0..8_u32 {
            let store = &store;
            scope.spawn(move || {
                for round in 0..150 {
                    let (first, second) = ((thread + round) % 3, (thread + 2 * round) % 3);
                    let retry = colock::Retry { tries: 1_000, ..Default::default() };
                    store
                        .retry(&retry, |t| {
                            t.expect_within(first, "inc:1", "ok", LONG)?;
                            t.expect_within(second, "dec:1", "ok", LONG)
                        })
                        .unwrap();
                }
            });
        }
    });
    let stats = store.stats();
    assert_eq!((stats.commits, store.moment().unwrap().commits, store.open_count(), stats.timeouts), (1_201, 1_201, Ok(0), 0));
    assert!(store.event_count().unwrap() > 4_800 && store.snapshot().unwrap().value.iter().sum::<u64>() == 1_500);
}

// ---- those that follow

/// A store that forgets what it made is followed by one that forgets too, and by one that keeps all.
#[test]
fn events_are_followed_over_renewals() {
    let (of, purse) = (counter(Kind::Undo), Type::read(PURSE, Kind::Escrow).unwrap());
    let store = Store::new([&of, &purse], FEW).unwrap();
    let (short, long) = (endless(&[&of, &purse]), Store::new([&of, &purse], 100_000).unwrap());
    let mut open = store.begin_as(5).unwrap();
    open.expect(0, "inc:1", "ok").unwrap();
    let mut place = 0;
    for number in 1..1_000 {
        let mut t = store.begin().unwrap();
        let replies = [t.call(0, "dec:1"), t.call(1, "value"), t.call(1, "take:1")].map(|told| told.told().unwrap());
        assert_eq!((replies[0], t.number()), (Told::Busy { blocker: 0 }, number));
        if number % 2 == 0 {
            t.rollback(1).unwrap();
        }
        t.abort().unwrap();
        let events = store.take_events().unwrap();
        place += events.len() as u64;
        assert_eq!((short.follow(&events), long.follow(&events)), (Ok(()), Ok(())));
    }
    open.commit().unwrap();
    let last = store.events(place).unwrap();
    assert_eq!((short.follow(&last), long.follow(&last)), (Ok(()), Ok(())));
    assert_eq!(
        [&store, &short, &long].map(|each| (each.kept(0).unwrap(), each.event_count(), each.moment(), each.open_count())),
        [(1, place + 1, Moment::new(0, 1), 0); 3]
    );
    // all at once
    let events = long.events(0).unwrap();
    assert_eq!((endless(&[&of, &purse]).follow(&events), events.len() as u64), (Ok(()), place + 1));
    // without a begin the next event is a stray
    let begin = 500 + events[500..].iter().position(|event| matches!(event, Event::Begin { .. })).unwrap();
    let stopped = endless(&[&of, &purse]).follow(&[&events[..begin], &events[begin + 1..]].concat()).unwrap_err();
    assert_eq!((stopped.made, stopped.error), (begin as u64, Error::NotMade));
}

// ---- beside a store that never begins anew

/// A store of few events that begins anew by itself, one that never does, and what is open in both.
struct Pair {
    few: Store,
    many: Store,
    objects: u64,
    open: Vec<[LeftOpen; 2]>,
    drawn: Drawn,
}

/// Accounts, counters, semiqueues and a purse, of each kind of recovery that takes them.
fn types() -> Vec<Type> {
    let elements = ["a", "b", "c"];
    let mut types = vec![Type::read(PURSE, Kind::Escrow).unwrap()];
    for kind in KINDS {
        types.push(Type::account(5, &[1, 2], kind).unwrap());
        types.push(Type::counter(4, &[1], kind).unwrap());
        if kind != Kind::Escrow {
            types.push(Type::semiqueue(&elements, 2, kind).unwrap());
        }
    }
    types
}

impl Pair {
    fn of(types: &[Type], seed: u64) -> Pair {
        let store = |events| Store::new(types, events).unwrap();
        let (few, many) = (store(70), store(1_000_000));
        few.forget_when_full();
        Pair { few, many, objects: types.len() as u64, open: Vec::new(), drawn: Drawn::new(seed) }
    }

    /// The same is asked of both, of one that is open, and they are answered the same.
    fn both<T: PartialEq + std::fmt::Debug>(&self, at: usize, ask: impl Fn(&mut colock::Transaction<'_>) -> T) -> T {
        let [mut first, mut second] = [(&self.few, 0), (&self.many, 1)].map(|(store, which)| store.resume(self.open[at][which]).unwrap());
        let told = [ask(&mut first), ask(&mut second)];
        first.leave();
        second.leave();
        assert_eq!(told[0], told[1]);
        let [told, _] = told;
        told
    }

    fn call(&mut self, at: usize) -> Option<bool> {
        let object = self.drawn.below(self.objects) as u32;
        let place = self.drawn.below(10) as u8;
        let call = match self.drawn.below(3) {
            0 => colock::OperationId::with(place % 8, self.drawn.below(9) as u32),
            _ => colock::OperationId::listed(place),
        };
        if self.drawn.below(4) == 0 {
            let _same = self.both(at, |t| t.would_op(object, call));
        }
        match self.both(at, |t| t.call_op(object, call)) {
            Ok(reply) => Some(matches!(reply, Reply::Busy { .. })),
            Err(error) => {
                assert_eq!(error, Error::NoCall);
                None
            }
        }
    }

    fn attempt(&mut self) {
        let (first, second) = (self.drawn.below(self.objects) as u32, self.drawn.below(self.objects) as u32);
        let names = ["inc:1", "dec:1", "deposit:2", "withdraw:1", "enq:a", "deq", "take:3", "give:7", "value", "balance"];
        let [a, b] = [first, second].map(|object| (object, names[self.drawn.below(10) as usize]));
        assert_eq!(self.few.attempt([a, b]), self.many.attempt([a, b]));
    }

    fn begin(&mut self) {
        let left = [&self.few, &self.many].map(|store| store.begin().unwrap().leave());
        assert_eq!(left[0].id(), left[1].id());
        self.open.push(left);
    }

    fn end(&mut self, at: usize, commits: bool) {
        let left = self.open.remove(at);
        for (store, left) in [(&self.few, left[0]), (&self.many, left[1])] {
            let t = store.resume(left).unwrap();
            if commits { t.commit() } else { t.abort() }.unwrap();
        }
    }

    fn are_alike(&self) {
        let seen = |store: &Store| (store.snapshot().unwrap(), store.moment(), store.open_count(), store.event_count());
        assert_eq!(seen(&self.few), seen(&self.many));
        let kept = |store: &Store| (0..self.objects as u32).map(|object| store.kept(object).unwrap()).collect::<Vec<_>>();
        assert_eq!(kept(&self.few), kept(&self.many));
        let from = self.few.forgotten_count();
        assert_eq!(self.few.events(from), self.many.events(from));
    }

    /// A step, and whether a call was busy.
    fn step(&mut self) -> bool {
        let at = if self.open.is_empty() { 0 } else { self.drawn.below(self.open.len() as u64) as usize };
        match self.drawn.below(24) {
            0..5 if self.open.len() < 6 => self.begin(),
            _ if self.open.is_empty() => self.begin(),
            what @ 5..9 => self.end(at, what < 8),
            9..11 => {
                let operations = 1 + self.drawn.below(3);
                let _same = self.both(at, |t| t.rollback(operations));
            }
            11..13 => self.attempt(),
            _ => return self.call(at) == Some(true),
        }
        false
    }
}

#[test]
fn nobody_can_tell() {
    let types = types();
    let (mut epochs, mut busy) = (0, 0);
    for seed in 0..100 {
        let mut pair = Pair::of(&types, seed);
        for _ in 0..600 {
            let forgotten = pair.few.forgotten_count();
            busy += u64::from(pair.step());
            epochs += u64::from(pair.few.forgotten_count() != forgotten);
            pair.are_alike();
        }
    }
    assert!(epochs > 500 && busy > 500, "{epochs} epochs, {busy} times busy");
}

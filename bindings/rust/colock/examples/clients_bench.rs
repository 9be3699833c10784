//! `clients_bench PART SECONDS [DATABASE]`, `clients_bench herd MOST [DATABASE]`: what waiting, turns and reads cost, beside a plain
//! mutex. It prints lines `NAME VALUE`, each value a number of commits a second.
//!
//! - `think`: sixteen threads count one counter up, and each transaction thinks for a millisecond.
//! - `mixed`: the same, where each thread counts down and up by turns, by calls that wait.
//! - `turns`: nobody thinks; one thread, and four, count a counter up and down by turns: in one turn of the lock, by an attempt
//!   in words and by one by the number of its call, and by a begin, a call that waits and a commit.
//! - `child`: sixteen threads count a wheel on at a store in a file, which is made where nothing is there.
//! - `peeks`: sixteen threads sell from sixteen stocks, each from one drawn at random, alone and beside a thread that looks at all
//!   stocks once a millisecond; in memory, or at a store in a file. Both take turns, each for SECONDS in all. `looks` are of the
//!   thread that looks.
//! - `herd`: 10 threads, 100, 400 and 800, but no more than MOST, wait for one object, and each commits as soon as it has it;
//!   in memory, or at a store in a file. With each of these numbers there are MOST hand-overs.
//!
//! The plain counter is held for the whole of a transaction; of its log each transaction has three entries.

use colock::{Attempt, Error, Event, Kind, OpenOptions, OperationId, Reply, SharedStore, Type};
use std::error::Error as AnyError;
use std::sync::atomic::{AtomicBool, AtomicU64, Ordering};
use std::sync::Mutex;
use std::thread;
use std::time::{Duration, Instant};

const THREADS: u64 = 16;
const THINKING: Duration = Duration::from_millis(1);
const LONG: Duration = Duration::from_secs(600);

/// How many threads wait in `herd`.
const HERDS: [u64; 4] = [10, 100, 400, 800];
/// The stack of one of many threads.
const SMALL: usize = 128 * 1024;
/// A type of one call, which each other one keeps out.
const TOKEN: &str = "type token\nstates 1\ninitial 0\nop pass ok\nstep 0 0 0\nconflict undo 0 0\nend\n";

/// A counter with a log, for a mutex round it. An entry of the log is an event as a store has them.
struct Plain {
    count: u64,
    begun: u64,
    log: Vec<Event>,
}

impl Plain {
    fn new() -> Mutex<Plain> {
        Mutex::new(Plain { count: 500, begun: 0, log: Vec::new() })
    }

    fn count(&mut self, is_up: bool) {
        let transaction = self.begun;
        self.begun += 1;
        self.log.push(Event::Begin { worker: 0, transaction });
        self.count = if is_up { self.count + 1 } else { self.count - 1 };
        self.log.push(Event::Operation { worker: 0, transaction, object: 0, operation: u8::from(!is_up).into() });
    }

    fn commit(&mut self) {
        self.log.push(Event::Commit { worker: 0, transaction: self.begun - 1 });
    }

    /// How many commits there are by the log, which is to be kept.
    fn commits(&self) -> usize {
        self.log.iter().filter(|event| matches!(event, Event::Commit { .. })).count()
    }
}

/// How often threads do something in a second, for this long. What they do gets the thread and the time.
fn per_second(threads: u64, limit: Duration, act: impl Fn(u64, u64) + Sync) -> f64 {
    let (is_over, count) = (AtomicBool::new(false), AtomicU64::new(0));
    let start = Instant::now();
    thread::scope(|scope| {
        for thread in 0..threads {
            let (act, is_over, count) = (&act, &is_over, &count);
            scope.spawn(move || {
                let mut done = 0;
                while !is_over.load(Ordering::Relaxed) {
                    act(thread, done);
                    done += 1;
                }
                count.fetch_add(done, Ordering::Relaxed);
            });
        }
        thread::sleep(limit);
        is_over.store(true, Ordering::Relaxed);
    });
    count.load(Ordering::Relaxed) as f64 / start.elapsed().as_secs_f64()
}

/// One transaction that thinks: by a turn of the plain counter.
fn think_plainly(plain: &Mutex<Plain>, is_up: bool) {
    let mut plain = plain.lock().unwrap();
    plain.count(is_up);
    thread::sleep(THINKING);
    plain.commit();
}

/// A wheel of two places, all of whose ticks commute.
fn wheel() -> Result<Type, Error> {
    Type::from_steps("wheel", false, &[("tick", "ok"), ("at", "0"), ("at", "1")], Kind::Undo, |is_at_one, operation| match operation {
        ("tick", _) => Some(!is_at_one),
        (_, place) => (*is_at_one == (place == "1")).then_some(*is_at_one),
    })
}

fn think(limit: Duration) -> Result<(), Error> {
    let store = SharedStore::new([&wheel()?], u32::MAX.into())?;
    let tick = store.call_number(0, "tick")?;
    let shared = per_second(THREADS, limit, |_, _| {
        let mut t = store.begin().unwrap();
        t.call_op(0, tick).unwrap().expected("ok").unwrap();
        thread::sleep(THINKING);
        t.commit().unwrap();
    });
    let plain = Plain::new();
    let mutex = per_second(THREADS, limit, |_, _| think_plainly(&plain, true));
    println!("think_store {shared:.0}\nthink_mutex {mutex:.0}");
    Ok(())
}

/// A store of a counter that is half full.
fn half_full() -> Result<SharedStore, Error> {
    let counter = Type::counter(1000, &[1, 500], Kind::Undo)?;
    let store = SharedStore::new([&counter], u32::MAX.into())?;
    store.transact(|turn| turn.expect(0, "inc:500", "ok"))?;
    Ok(store)
}

fn mixed(limit: Duration) -> Result<(), Error> {
    let store = half_full()?;
    let calls = [store.call_number(0, "dec:1")?, store.call_number(0, "inc:1")?];
    let shared = per_second(THREADS, limit, |_, done| {
        let mut t = store.begin().unwrap();
        t.call_op_within(0, calls[(done % 2) as usize], LONG).unwrap().expected("ok").unwrap();
        thread::sleep(THINKING);
        t.commit().unwrap();
    });
    let plain = Plain::new();
    let mutex = per_second(THREADS, limit, |_, done| think_plainly(&plain, done % 2 == 1));
    println!("mixed_store {shared:.0}\nmixed_mutex {mutex:.0}");
    Ok(())
}

/// The calls that are made by turns.
const DOWN_AND_UP: [&str; 2] = ["dec:1", "inc:1"];

/// How often threads count a counter in a second, by the one call and the other one in turn.
fn counted(threads: u64, limit: Duration, count: impl Fn(&SharedStore, usize) -> bool + Sync) -> Result<f64, Error> {
    let store = half_full()?;
    Ok(per_second(threads, limit, |_, done| assert!(count(&store, (done % 2) as usize))))
}

fn counted_plainly(threads: u64, limit: Duration) -> f64 {
    let plain = Plain::new();
    let mutex = per_second(threads, limit, |_, done| {
        let mut plain = plain.lock().unwrap();
        plain.count(done % 2 == 1);
        plain.commit();
    });
    assert!(plain.lock().unwrap().commits() > 0);
    mutex
}

fn turns(limit: Duration) -> Result<(), Error> {
    let store = half_full()?;
    let calls = [store.call_number(0, DOWN_AND_UP[0])?, store.call_number(0, DOWN_AND_UP[1])?];
    for threads in [1, 4] {
        let turns = counted(threads, limit, |store, at| store.transact(|turn| turn.expect_op(0, calls[at], "ok")).is_ok())?;
        let attempts = counted(threads, limit, |store, at| matches!(store.attempt([(0, DOWN_AND_UP[at])]), Ok(Attempt::Done(_))))?;
        let by_number = counted(threads, limit, |store, at| matches!(store.attempt_op(0, calls[at]), Ok(Reply::Operation(_))))?;
        let begun = counted(threads, limit, |store, at| {
            let mut t = store.begin().unwrap();
            t.call_op_within(0, calls[at], LONG).unwrap().expected("ok").unwrap();
            t.commit().is_ok()
        })?;
        let mutex = counted_plainly(threads, limit);
        println!("turns_store_{threads} {turns:.0}\nattempts_store_{threads} {attempts:.0}\nattempts_op_store_{threads} {by_number:.0}");
        println!("begun_store_{threads} {begun:.0}\nturns_mutex_{threads} {mutex:.0}");
    }
    Ok(())
}

/// Over a child, where each commit syncs twice, and where it is supposed that the disk tears no write apart.
fn child(limit: Duration, path: &str) -> Result<(), Error> {
    let wheel = wheel()?;
    for (name, is_fast) in [("child_store", false), ("child_fast_store", true)] {
        let store = OpenOptions::new().objects([&wheel]).create(true).fast(is_fast).open(path)?;
        let tick = store.call_number(0, "tick")?;
        let shared = per_second(THREADS, limit, |_, _| {
            let mut t = store.begin().unwrap();
            t.call_op(0, tick).unwrap().expected("ok").unwrap();
            t.commit().unwrap();
        });
        println!("{name} {shared:.0}");
        store.close()?;
    }
    Ok(())
}

/// How many stocks there are to sell from.
const STOCKS: u32 = 16;
/// A stock that isn't sold out in an hour, and what is sold of it and looked at.
const STOCK: &str = "number stock\nmax 4294967295\ninitial 4294967295\ntake 1\nvalue\nend\n";
const SELL: &str = "take:1";
const LOOK: &str = "value";
/// How many turns the sellers have alone, and as many beside who looks.
const ROUNDS: u32 = 8;
const BETWEEN_LOOKS: Duration = Duration::from_millis(1);

/// A stock that looks drawn at random, for the sale of a thread that has done so many.
fn drawn(thread: u64, done: u64) -> u32 {
    let mixed = (done * THREADS + thread).wrapping_mul(0x9e37_79b9_7f4a_7c15);
    ((mixed ^ (mixed >> 29)).wrapping_mul(0xbf58_476d_1ce4_e5b9) >> 32) as u32 % STOCKS
}

/// Looks once a millisecond until all is over: how often.
fn looked(is_over: &AtomicBool, look: impl Fn()) -> u64 {
    let (mut next, mut looks) = (Instant::now(), 0);
    while !is_over.load(Ordering::Relaxed) {
        look();
        looks += 1;
        // who is late doesn't make up for it
        next = Instant::now().max(next + BETWEEN_LOOKS);
        thread::sleep(next.saturating_duration_since(Instant::now()));
    }
    looks
}

/// How much is sold in a second, beside who looks if anybody does, and how often that one does in a second.
fn sold<S: Sync>(store: &S, limit: Duration, sell: fn(&S, u32), look: Option<fn(&S)>) -> (f64, f64) {
    let is_over = &AtomicBool::new(false);
    thread::scope(|scope| {
        let looks = look.map(|look| scope.spawn(move || looked(is_over, || look(store))));
        let sold = per_second(THREADS, limit, |thread, done| sell(store, drawn(thread, done)));
        is_over.store(true, Ordering::Relaxed);
        (sold, looks.map_or(0, |looks| looks.join().unwrap()) as f64 / limit.as_secs_f64())
    })
}

/// Sellers alone and beside who looks, by turns; each turn begins with what `make` makes.
fn peeks<S: Sync>(name: &str, limit: Duration, make: impl Fn() -> Result<S, Error>, sell: fn(&S, u32), look: fn(&S)) -> Result<(), Error> {
    let (mut alone, mut beside, mut looks) = (0.0, 0.0, 0.0);
    for _ in 0..ROUNDS {
        alone += sold(&make()?, limit / ROUNDS, sell, None).0;
        let (of_round, looks_of_round) = sold(&make()?, limit / ROUNDS, sell, Some(look));
        beside += of_round;
        looks += looks_of_round;
    }
    let mean = |sum: f64| sum / f64::from(ROUNDS);
    println!("sold_{name} {:.0}\nsold_{name}_beside {:.0}\nlooks_{name} {:.0}", mean(alone), mean(beside), mean(looks));
    Ok(())
}

/// A store of the stocks, and the number of the call that sells.
struct Shop {
    store: SharedStore,
    take: OperationId,
}

fn shop(store: SharedStore) -> Result<Shop, Error> {
    let take = store.call_number(0, SELL)?;
    Ok(Shop { store, take })
}

fn peeks_in_memory(limit: Duration) -> Result<(), Error> {
    let stock = Type::read(STOCK, Kind::Escrow)?;
    let make = || shop(SharedStore::new([&stock; STOCKS as usize], u32::MAX.into())?);
    let sell = |shop: &Shop, object| assert!(matches!(shop.store.attempt_op(object, shop.take), Ok(Reply::Operation(_))));
    let look = |shop: &Shop| assert!(shop.store.peek((0..STOCKS).map(|object| (object, LOOK))).is_ok());
    peeks("store", limit, make, sell, look)
}

/// Over a child, which goes on with one file: all of a look is one line.
fn peeks_over_child(limit: Duration, path: &str) -> Result<(), Error> {
    let stock = Type::read(STOCK, Kind::Escrow)?;
    let store = OpenOptions::new().objects([&stock; STOCKS as usize]).create(true).open(path)?;
    let sell = |store: &&SharedStore, object| assert!(matches!(store.attempt([(object, SELL)]), Ok(Attempt::Done(_))));
    let look = |store: &&SharedStore| assert!(store.peek((0..STOCKS).map(|object| (object, LOOK))).is_ok());
    peeks("child_store", limit, || Ok(&store), sell, look)?;
    store.close()
}

/// How long it takes until all that wait for an object have had it, one after another.
fn handed_over(store: &SharedStore, waiting: u64) -> Result<Duration, Error> {
    let (pass, slept) = (store.call_number(0, "pass")?, store.stats().waits);
    let mut holder = store.begin()?;
    holder.call_op(0, pass)?.expected("ok")?;
    thread::scope(|scope| {
        let waits = || {
            let mut t = store.begin().unwrap();
            t.call_op_within(0, pass, LONG).unwrap().expected("ok").unwrap();
            t.commit().unwrap();
            Instant::now()
        };
        let threads: Vec<_> = (0..waiting).map(|_| thread::Builder::new().stack_size(SMALL).spawn_scoped(scope, waits).unwrap()).collect();
        while store.stats().waits < slept + waiting {
            thread::sleep(THINKING);
        }
        let start = Instant::now();
        holder.commit()?;
        let ends = threads.into_iter().map(|thread| thread.join().unwrap());
        Ok(ends.max().unwrap_or(start) - start)
    })
}

fn herd(store: &SharedStore, name: &str, most: u64) -> Result<(), Error> {
    for waiting in HERDS.into_iter().filter(|&waiting| waiting <= most) {
        let rounds = most / waiting;
        let took = (0..rounds).map(|_| handed_over(store, waiting)).sum::<Result<Duration, Error>>()?;
        println!("{name}_{waiting} {:.0}", (rounds * waiting) as f64 / took.as_secs_f64());
    }
    Ok(())
}

fn herd_in_memory(most: u64) -> Result<(), Error> {
    herd(&SharedStore::new([&Type::read(TOKEN, Kind::Undo)?], u32::MAX.into())?, "herd_store", most)
}

fn herd_over_child(most: u64, path: &str) -> Result<(), Error> {
    let store = OpenOptions::new().objects([&Type::read(TOKEN, Kind::Undo)?]).create(true).open(path)?;
    herd(&store, "herd_child_store", most)?;
    store.close()
}

fn main() -> Result<(), Box<dyn AnyError>> {
    let words: Vec<String> = std::env::args().skip(1).collect();
    let limit = |seconds: &String| seconds.parse().map(Duration::from_secs_f64);
    match &words[..] {
        [part, seconds] if part == "think" => think(limit(seconds)?)?,
        [part, seconds] if part == "mixed" => mixed(limit(seconds)?)?,
        [part, seconds] if part == "turns" => turns(limit(seconds)?)?,
        [part, seconds] if part == "peeks" => peeks_in_memory(limit(seconds)?)?,
        [part, seconds, path] if part == "child" => child(limit(seconds)?, path)?,
        [part, seconds, path] if part == "peeks" => peeks_over_child(limit(seconds)?, path)?,
        [part, most] if part == "herd" => herd_in_memory(most.parse()?)?,
        [part, most, path] if part == "herd" => herd_over_child(most.parse()?, path)?,
        _ => return Err("clients_bench think|mixed|turns|peeks SECONDS, child|peeks SECONDS DATABASE, or herd MOST [DATABASE]".into()),
    }
    Ok(())
}

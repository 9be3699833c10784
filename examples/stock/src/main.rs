//! Sixteen threads take pieces of one stock and give them back, beside a mutex round the stock. Built after
//! `make library` in bindings/c:
//!
//! ```text
//! cargo run --release -- ROUNDS
//! ```
//!
//! A transaction takes a piece, packs it, which takes a millisecond, and commits. With a mutex round the object
//! one thread packs at a time. With locks for operations all who take may pack side by side, and so may all who
//! give; who gives waits for those who take, as a piece that is taken may come back by an abort.

use colock::{Error, Kind, OperationId, SharedStore, Type};
use std::sync::Mutex;
use std::thread;
use std::time::{Duration, Instant};

const THREADS: u8 = 16;
const PIECES: u64 = 100;
const PACKING: Duration = Duration::from_millis(1);
/// How long a transaction waits at most for those that are in its way.
const PATIENCE: Duration = Duration::from_secs(10);

/// A stock in a store that the threads share.
struct Shop {
    store: SharedStore,
    take: OperationId,
    give: OperationId,
}

impl Shop {
    fn new() -> Result<Shop, Error> {
        let counter = Type::counter(2 * PIECES, &[1, PIECES], Kind::Undo)?;
        let store = SharedStore::new([&counter], u32::MAX.into())?;
        store.transact(|turn| turn.expect(0, &format!("inc:{PIECES}"), "ok"))?;
        let (take, give) = (store.call_number(0, "dec:1")?, store.call_number(0, "inc:1")?);
        Ok(Shop { store, take, give })
    }

    /// One transaction of one operation, which waits until nobody is in its way.
    fn transact(&self, worker: u8, call: OperationId) -> Result<(), Error> {
        let mut transaction = self.store.begin_as(worker)?;
        transaction.call_op_within(0, call, PATIENCE)?.expected("ok")?;
        thread::sleep(PACKING);
        transaction.commit()
    }
}

/// How long the threads take for all their rounds.
fn timed(rounds: u64, take: impl Fn(u8) + Sync, give: impl Fn(u8) + Sync) -> Duration {
    let start = Instant::now();
    thread::scope(|scope| {
        for worker in 0..THREADS {
            let (take, give) = (&take, &give);
            scope.spawn(move || {
                for _ in 0..rounds {
                    take(worker);
                    give(worker);
                }
            });
        }
    });
    start.elapsed()
}

fn tell(what: &str, rounds: u64, time: Duration) {
    let transactions = 2 * rounds * u64::from(THREADS);
    println!("{what}: {transactions} transactions in {} ms, {:.0} a second", time.as_millis(), transactions as f64 / time.as_secs_f64());
}

fn main() -> Result<(), Box<dyn std::error::Error>> {
    let rounds = std::env::args().nth(1).map_or(Ok(50), |word| word.parse())?;

    let stock = Mutex::new(PIECES);
    let pack = |pieces: fn(u64) -> u64| {
        let mut held = stock.lock().expect("no thread panics with the lock");
        *held = pieces(*held);
        thread::sleep(PACKING);
    };
    let alone = timed(rounds, |_| pack(|pieces| pieces - 1), |_| pack(|pieces| pieces + 1));
    tell("a mutex round the object", rounds, alone);

    let shop = Shop::new()?;
    let transact = |worker, call| shop.transact(worker, call).expect("nobody waits so long");
    let beside = timed(rounds, |worker| transact(worker, shop.take), |worker| transact(worker, shop.give));
    tell("locks for operations", rounds, beside);
    println!("{} waits; {:.1} times as many transactions a second", shop.store.stats().waits, alone.as_secs_f64() / beside.as_secs_f64());

    let store = &shop.store;
    assert_eq!((store.kept(0)?, store.open_count()?), (PIECES, 0));
    println!("{} pieces are there again, {} events", store.kept(0)?, store.event_count()?);
    Ok(())
}

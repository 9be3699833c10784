//! The enemy of the scheduler: eight threads do random transactions of each kind over four objects of random types, and
//! wait for one another in each way. All have to end, and an audit of the history has to say yes.
//!
//! `SEEDS` and `TRANSACTIONS` in the environment name other numbers: how many stores there are, one for each seed from
//! 1 on, and how many transactions each has. A history that is audited has at most a million events.

mod common;

use colock::{Error, Kind, OpenOptions, Reply, Retry, SharedStore, SharedTransaction, Turn, Type};
use common::{program, text_of, Drawn, Folder};
use std::env;
use std::fs;
use std::process::{self, Command};
use std::sync::atomic::{AtomicBool, AtomicU64, Ordering};
use std::thread;
use std::time::Duration;

const THREADS: u64 = 8;
const OBJECTS: u64 = 4;

/// A scheduler in which nobody does anything for this long is stuck.
const STUCK: Duration = Duration::from_secs(5);

/// A wait that isn't to end by its limit: who isn't woken is stuck long before.
const LONG: Duration = Duration::from_secs(60);

fn number(name: &str) -> Option<u64> {
    env::var(name).ok().map(|text| text.parse().expect("a number"))
}

/// A type of random steps: five states, and four operations of three calls.
fn random_type(name: &str, kind: Kind, drawn: &mut Drawn) -> Type {
    let table: Vec<Option<u64>> = (0..20).map(|_| (drawn.below(3) > 0).then(|| drawn.below(5))).collect();
    let operations = [("a", "x"), ("a", "y"), ("b", "x"), ("c", "x")];
    let place = |operation: (&str, &str)| operations.iter().position(|other| *other == operation).unwrap() as u64;
    Type::from_steps(name, 0_u64, &operations, kind, |state, operation| table[(state * 4 + place(operation)) as usize]).unwrap()
}

/// A number of random operations, each of which is legal from a lowest to a highest state, and moves these as far.
fn random_number(drawn: &mut Drawn) -> Type {
    let top = 3 + drawn.below(4);
    let mut text = format!("type number\nstates {}\ninitial {}\nop a x\nop a y\nop b x\nop c x\n", top + 1, drawn.below(top + 1));
    let mut steps = Vec::new();
    for k in 0..4 {
        let (one, other) = (drawn.below(top + 1), drawn.below(top + 1));
        let (low, high) = (one.min(other), one.max(other));
        // it leads the lowest to any number from which the highest stays inside
        let first = drawn.below(top - (high - low) + 1);
        steps.extend((low..=high).map(|state| (state, k, first + state - low)));
    }
    steps.sort_unstable();
    text.extend(steps.iter().map(|(state, k, to)| format!("step {state} {k} {to}\n")));
    Type::read(text + "end\n", Kind::Escrow).unwrap()
}

/// The four types of a seed.
fn types_of(drawn: &mut Drawn) -> [Type; 4] {
    let one = random_type("one", Kind::Undo, drawn);
    let other = random_type("other", Kind::Intentions, drawn);
    let counter = Type::counter(4, &[1, 2], Kind::Undo).unwrap();
    match drawn.below(6) {
        0 => [one, other, counter, Type::account(3, &[1], Kind::Intentions).unwrap()],
        1 => [one, other, counter, Type::set(&["a", "b"], Kind::Intentions).unwrap()],
        2 => [one, other, counter, Type::semiqueue(&["a", "b"], 2, Kind::Undo).unwrap()],
        3 => [one, other, counter, Type::account(3, &[1], Kind::Escrow).unwrap()],
        4 => [one, other, Type::counter(4, &[1, 2], Kind::Escrow).unwrap(), random_number(drawn)],
        _ => [random_number(drawn), random_number(drawn), counter, random_number(drawn)],
    }
}

/// A store with its enemies.
struct Arena<'a> {
    store: &'a SharedStore,
    /// The names of the calls of each object.
    calls: Vec<Vec<String>>,
    /// How many transactions are still to be done.
    left: AtomicU64,
    /// How often something was done.
    moves: AtomicU64,
}

/// Why a transaction isn't committed.
type Done = Result<(), Error>;

impl<'a> Arena<'a> {
    fn new(store: &'a SharedStore, types: &[Type], transactions: u64) -> Arena<'a> {
        let names = |of: &Type| (0..of.operations()).map(|k| of.call_name(k).unwrap()).collect();
        Arena { store, calls: types.iter().map(names).collect(), left: AtomicU64::new(transactions), moves: AtomicU64::new(0) }
    }

    fn moved(&self) {
        self.moves.fetch_add(1, Ordering::Relaxed);
    }

    /// Lets others come between two calls.
    fn pause(&self, drawn: &mut Drawn) {
        self.moved();
        match drawn.below(64) {
            0 => thread::sleep(Duration::from_micros(50)),
            1..=8 => thread::yield_now(),
            _ => {}
        }
    }

    fn random_call(&self, drawn: &mut Drawn) -> (u32, &str) {
        let object = drawn.below(OBJECTS) as usize;
        let calls = &self.calls[object];
        (object as u32, &calls[drawn.below(calls.len() as u64) as usize])
    }

    /// Each transaction of a thread.
    fn fight(&self, seed: u64) {
        let mut drawn = Drawn::new(seed);
        let take_one = || self.left.fetch_update(Ordering::Relaxed, Ordering::Relaxed, |left| left.checked_sub(1)).is_ok();
        while take_one() {
            let done = match drawn.below(9) {
                0 => self.store.retry(&Retry { tries: 5, backoff: Duration::from_micros(50) }, |t| self.ask(t, &mut drawn)),
                1 => self.store.retry(&Retry::default(), |t| self.wait(t, &mut drawn, LONG)),
                2 => self.store.transact(|turn| self.turn(turn, &mut drawn)),
                3 => self.begun(|t| self.wait(t, &mut drawn, Duration::from_micros(300))),
                4 => self.begun(|t| self.wait(t, &mut drawn, LONG)),
                5 => self.begun(|t| self.mix(t, &mut drawn)),
                6 => self.attempt(&mut drawn),
                7 => self.peek(&mut drawn),
                _ => self.begun(|t| self.ask(t, &mut drawn)),
            };
            self.moved();
            match done {
                Ok(()) | Err(Error::Busy { .. } | Error::Illegal | Error::Deadlock { .. } | Error::TimedOut) => {}
                Err(error) => panic!("{error:?}"),
            }
        }
    }

    /// A transaction that isn't tried again.
    fn begun(&self, act: impl FnOnce(&mut SharedTransaction<'_>) -> Done) -> Done {
        let mut t = self.store.begin()?;
        act(&mut t)?;
        t.commit()
    }

    /// Calls that don't wait.
    fn ask(&self, t: &mut SharedTransaction<'_>, drawn: &mut Drawn) -> Done {
        for _ in 0..drawn.below(5) {
            let (object, name) = self.random_call(drawn);
            if drawn.below(4) == 0 {
                let _reply = t.would(object, name)?;
            }
            let reply = t.call(object, name)?;
            self.pause(drawn);
            if reply != Reply::Illegal {
                let _whatever = reply.executed()?;
            }
        }
        Ok(())
    }

    /// Calls that wait this long.
    fn wait(&self, t: &mut SharedTransaction<'_>, drawn: &mut Drawn, limit: Duration) -> Done {
        for _ in 0..1 + drawn.below(4) {
            let (object, name) = self.random_call(drawn);
            let reply = t.call_within(object, name, limit)?;
            assert!(!matches!(reply, Reply::Busy { .. }));
            self.pause(drawn);
        }
        Ok(())
    }

    /// Each way of calling in one transaction, rollbacks among them; and an abort now and then.
    fn mix(&self, t: &mut SharedTransaction<'_>, drawn: &mut Drawn) -> Done {
        let mut executed = 0;
        for _ in 0..drawn.below(8) {
            let (object, name) = self.random_call(drawn);
            let reply = match drawn.below(4) {
                0 => t.call(object, name)?,
                1 => t.call_within(object, name, LONG)?,
                2 => match t.call_within(object, name, Duration::from_micros(drawn.below(500))) {
                    Err(Error::TimedOut) => Reply::Illegal,
                    other => other?,
                },
                _ => {
                    let taken = drawn.below(executed + 1);
                    assert_eq!(t.rollback(taken), if taken == 0 { Err(Error::BadRollback) } else { Ok(()) });
                    executed -= taken;
                    Reply::Illegal
                }
            };
            executed += u64::from(matches!(reply, Reply::Operation(_)));
            self.pause(drawn);
        }
        if drawn.below(3) == 0 {
            return Err(Error::Illegal);
        }
        Ok(())
    }

    /// Calls in one turn.
    fn turn(&self, turn: &mut Turn<'_>, drawn: &mut Drawn) -> Done {
        for _ in 0..drawn.below(4) {
            let (object, name) = self.random_call(drawn);
            if let Reply::Operation(_) = turn.call(object, name)? {
                if drawn.below(8) == 0 {
                    turn.rollback(1)?;
                }
            }
            self.moved();
        }
        Ok(())
    }

    /// A whole transaction in one call, which waits or doesn't.
    fn attempt(&self, drawn: &mut Drawn) -> Done {
        let calls: Vec<(u32, &str)> = (0..drawn.below(4)).map(|_| self.random_call(drawn)).collect();
        if let ([(object, name)], 0..2) = (&calls[..], drawn.below(3)) {
            return self.store.attempt_op(*object, self.store.call_number(*object, name)?)?.executed().map(drop);
        }
        let attempt = match drawn.below(3) {
            0 => self.store.attempt(calls)?,
            1 => self.store.attempt_within(calls, LONG)?,
            _ => self.store.attempt_within(calls, Duration::from_micros(drawn.below(500)))?,
        };
        attempt.executed().map(drop)
    }

    /// Reads beside them, of which two see the same where they are of one moment.
    fn peek(&self, drawn: &mut Drawn) -> Done {
        let all = self.store.snapshot()?;
        match self.store.peek([self.random_call(drawn)]) {
            Ok(_) | Err(Error::Changes | Error::IllegalAt(0)) => {}
            Err(error) => return Err(error),
        }
        let again = self.store.committed_states(0..OBJECTS as u32)?;
        assert!(all.at < again.at || all == again, "{all:?} {again:?}");
        Ok(())
    }

    /// Ends the process where nobody moves.
    fn watch(&self, is_over: &AtomicBool) {
        let look = Duration::from_millis(20);
        let (mut seen, mut still) = (0, Duration::ZERO);
        while !is_over.load(Ordering::Relaxed) {
            thread::sleep(look);
            let moves = self.moves.load(Ordering::Relaxed);
            still = if moves == seen { still + look } else { Duration::ZERO };
            seen = moves;
            if still > STUCK {
                // a panic here would wait for those that are stuck
                eprintln!("nobody moved for {STUCK:?}: {:?}", self.store.stats());
                process::exit(101);
            }
        }
    }
}

/// Lets them fight, until this many transactions are done.
fn fight(store: &SharedStore, types: &[Type], transactions: u64, seed: u64) {
    let arena = Arena::new(store, types, transactions);
    let is_over = AtomicBool::new(false);
    thread::scope(|scope| {
        scope.spawn(|| arena.watch(&is_over));
        thread::scope(|fighters| {
            let arena = &arena;
            for thread in 0..THREADS {
                fighters.spawn(move || arena.fight(seed * THREADS + thread));
            }
        });
        is_over.store(true, Ordering::Relaxed);
    });
    assert_eq!(store.open_count(), Ok(0));
}

/// What an audit says of the history.
fn audited(store: &SharedStore, types: &[Type], folder: &Folder) -> String {
    let mut history: String = types.iter().enumerate().map(|(place, of)| format!("object {} {place}\n", of.kind())).collect();
    for event in store.events(0).unwrap() {
        history += &format!("{event}\n");
    }
    fs::write(folder.file("the.history"), history + "end\n").unwrap();
    let mut audit = Command::new(program());
    audit.arg("audit").arg(folder.file("the.history"));
    for (place, of) in types.iter().enumerate() {
        let path = folder.file(&format!("{place}.type"));
        fs::write(&path, text_of(of)).unwrap();
        audit.arg(path);
    }
    let told = audit.output().unwrap();
    String::from_utf8_lossy(&told.stdout).lines().next().unwrap_or_default().to_string() + &String::from_utf8_lossy(&told.stderr)
}

/// Fights of each seed, at a store that is made of the types of the seed.
fn fights(transactions: u64, open: impl Fn(&[Type], &Folder) -> SharedStore) {
    let seeds = number("SEEDS").unwrap_or(4);
    for seed in 1..=seeds {
        let types = types_of(&mut Drawn::new(seed));
        let folder = Folder::new();
        let store = open(&types, &folder);
        fight(&store, &types, transactions, seed);
        let stats = store.stats();
        assert_eq!(audited(&store, &types, &folder), "# audit yes", "seed {seed}");
        println!("seed {seed}: {transactions} transactions, {} events, {stats:?}", store.event_count().unwrap());
        assert!(stats.commits > 0 && stats.waits > 0 && stats.deadlocks + stats.timeouts > 0);
        store.close().unwrap();
    }
}

#[test]
fn enemies_of_a_store_in_memory() {
    let transactions = number("TRANSACTIONS").unwrap_or(20_000);
    fights(transactions, |types, _| SharedStore::new(types, u32::MAX.into()).unwrap());
}

#[test]
fn enemies_of_a_store_over_a_child() {
    let transactions = number("TRANSACTIONS_OVER_A_CHILD").unwrap_or(2_000);
    fights(transactions, |types, folder| {
        let objects: Vec<&Type> = types.iter().collect();
        OpenOptions::new().objects(&objects).create(true).fast(true).program(program()).open(folder.file("a.db")).unwrap()
    });
}

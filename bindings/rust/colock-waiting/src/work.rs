//! How much work a hand-over is, where few and where many wait.

use crate::{Age, Asker, Class, Decision, Number, ObjectIndex, Touched, Waiting};

/// A call of this class keeps out nobody, and nobody keeps it out.
const FREE: Class = Class(9);

/// What was done about some hand-overs.
#[derive(Debug, Default, PartialEq, Eq)]
struct Work {
    asks: u64,
    wakes: u64,
    visits: u64,
}

/// An object that one transaction at a time may have.
struct Lock {
    waiting: Waiting<fn(ObjectIndex, Class, Class) -> bool>,
    holder: Option<Number>,
    work: Work,
}

fn blocks(_: ObjectIndex, call: Class, other: Class) -> bool {
    call != FREE && other != FREE
}

fn at_object() -> Touched {
    Touched::from_iter([ObjectIndex(0)])
}

impl Lock {
    /// A transaction has it, and others wait, of these ages and classes.
    fn with(waiters: impl Iterator<Item = (u64, Class)>) -> Lock {
        let mut lock = Lock { waiting: Waiting::new(blocks), holder: Some(Number(0)), work: Work::default() };
        for (age, call) in waiters {
            lock.waiting.enter(Asker { number: Number(age), age: Age(age), object: ObjectIndex(0), call });
            lock.drain();
        }
        lock
    }

    /// Whoever has it ends, and another one gets it.
    fn hand_over(&mut self) {
        let holder = self.holder.take().expect("somebody has it");
        self.waiting.ended(holder, at_object());
        self.drain();
    }

    fn drain(&mut self) {
        while let Some(decision) = self.waiting.next_decision() {
            match (decision, self.holder) {
                (Decision::Ask(asker), None) => self.waiting.may_go(asker.number),
                (Decision::Ask(asker), Some(holder)) => self.waiting.busy(asker.number, holder),
                (Decision::Wake(number), None) => {
                    self.holder = Some(number);
                    self.waiting.leave(number);
                }
                other => panic!("{other:?}"),
            }
            self.work.asks += u64::from(matches!(decision, Decision::Ask(_)));
            self.work.wakes += u64::from(matches!(decision, Decision::Wake(_)));
        }
    }

    /// The work of this many hand-overs.
    fn work(&mut self, hand_overs: u64) -> Work {
        self.work = Work::default();
        self.waiting.graph.visits.set(0);
        (0..hand_overs).for_each(|_| self.hand_over());
        Work { visits: self.waiting.graph.visits.get(), ..std::mem::take(&mut self.work) }
    }
}

/// Ages from 1 on, in a drawn order.
fn shuffled(count: u64) -> Vec<u64> {
    let mut ages: Vec<u64> = (1..=count).collect();
    ages.sort_by_key(|age| age.wrapping_mul(0x9e37_79b9_7f4a_7c15).rotate_left(17));
    ages
}

#[test]
fn a_hand_over_asks_for_two_and_wakes_one() {
    let mut lock = Lock::with((1..=800).map(|age| (age, Class(0))));
    assert_eq!((lock.work.asks, lock.work.wakes), (1, 0)); // all but the first are kept by the gate
    for _ in 0..799 {
        let work = lock.work(1);
        assert_eq!((work.asks, work.wakes), (2, 1));
    }
    assert_eq!(lock.work(1).asks, 1); // nobody is left to be asked for after it
    assert!(lock.waiting.is_empty());
}

#[test]
fn a_hand_over_is_as_much_work_where_many_wait() {
    let few = Lock::with((1..=10).map(|age| (age, Class(0)))).work(8);
    let many = Lock::with((1..=800).map(|age| (age, Class(0)))).work(8);
    assert_eq!(few, many);
    assert!(many.visits <= 8 * 25, "{many:?}");
}

/// The most that a hand-over is, where this many wait, until nobody waits.
fn greatest(count: u64, class: fn(u64) -> u64) -> Work {
    let mut lock = Lock::with((1..=count).map(|age| (age, Class(class(age) as u8))));
    let works: Vec<Work> = (0..count).map(|_| lock.work(1)).collect();
    let most = |of: fn(&Work) -> u64| works.iter().map(of).max().unwrap_or_default();
    Work { asks: most(|work| work.asks), wakes: most(|work| work.wakes), visits: most(|work| work.visits) }
}

#[test]
fn no_hand_over_is_more_work_where_many_wait_with_different_calls() {
    let patterns: [fn(u64) -> u64; 5] =
        [|age| age % 2, |age| age % 8, |age| age.wrapping_mul(0x9e37_79b9_7f4a_7c15) >> 61, |age| age / 16 % 8, |age| u64::from(1 < age && age < 400)];
    for class in patterns {
        let many = greatest(800, class);
        assert_eq!((many.asks, many.wakes), (2, 1));
        // eight classes have eight heads
        assert!(many.visits <= 60, "{many:?}");
    }
}

#[test]
fn each_that_came_out_of_order_is_put_behind_once() {
    let mut lock = Lock::with(shuffled(800).into_iter().map(|age| (age, Class(0))));
    let first = lock.work(1);
    assert!(first.asks <= 2 && first.visits < 200, "{first:?}");
    let then = lock.work(700);
    assert_eq!((then.asks, then.wakes), (1_400, 700));
    assert!(then.visits <= 700 * 25, "{then:?}");
    // where each is older than those before it, all wait by the store, until the first hand-over
    let mut lock = Lock::with((1..=800).rev().map(|age| (age, Class(0))));
    assert_eq!((lock.work.asks, lock.work(1).asks), (800, 2));
    assert!(lock.work(700).visits <= 700 * 25);
}

#[test]
fn one_that_all_wait_for_may_call_again_at_no_cost() {
    let lock = Lock::with((1..=800).map(|age| (age, Class((age % 2) as u8))));
    lock.waiting.graph.visits.set(0);
    let again = Asker { number: Number(0), age: Age(900), object: ObjectIndex(0), call: Class(0) };
    assert_eq!(lock.waiting.gate(again), None);
    assert!(lock.waiting.graph.visits.get() < 40);
}

#[test]
fn who_is_kept_by_nobody_is_asked_for_with_no_regard_to_others() {
    let mut lock = Lock::with((1..=800).map(|age| (age, Class(0))));
    lock.waiting.graph.visits.set(0);
    lock.waiting.enter(Asker { number: Number(900), age: Age(900), object: ObjectIndex(0), call: FREE });
    lock.waiting.leave(Number(900));
    assert!(lock.waiting.graph.visits.get() < 20);
}

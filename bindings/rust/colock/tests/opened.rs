//! Which transactions of a store in memory are open, who began them, and what they may take back.

mod common;

use colock::{Error, Event, Kind, LeftOpen, OperationId, Store, Transaction, Type};
use common::{Telling, Told};

/// What a transaction does, which goes on after it.
fn with<T>(store: &Store, left: LeftOpen, act: impl FnOnce(&mut Transaction<'_>) -> T) -> T {
    let mut transaction = store.resume(left).unwrap();
    let told = act(&mut transaction);
    transaction.leave();
    told
}

/// Counts this object up by one.
fn up(store: &Store, left: LeftOpen, object: u32) {
    assert_eq!(with(store, left, |t| t.call(object, "inc:1").told()), Ok(Told::Operation(OperationId::listed(0))));
}

/// What the objects 2, 3 and 7 keep.
fn kept(store: &Store) -> [u64; 3] {
    [2, 3, 7].map(|object| store.kept(object).unwrap())
}

/// A number is never used again, and a transaction takes back the last of what it did at all objects.
#[test]
fn the_open_are_told() {
    let counter = Type::counter(100, &[1], Kind::Undo).unwrap();
    let mut store = Store::new([&counter; 8], 1000).unwrap();
    let [first, second, third] = [4, 5, 6].map(|worker| store.begin_as(worker).unwrap().leave());
    for object in [7, 2, 7] {
        up(&store, first, object);
    }
    assert_eq!((kept(&store), store.open_count()), ([1, 0, 2], 3));
    assert_eq!((with(&store, first, |t| t.rollback(4)), with(&store, second, |t| t.rollback(1))), (Err(Error::BadRollback), Err(Error::BadRollback)));
    assert_eq!((with(&store, first, |t| t.rollback(2)), kept(&store)), (Ok(()), [0, 0, 1]));
    assert_eq!(with(&store, first, |t| t.rollback(2)), Err(Error::BadRollback));
    store.resume(second).unwrap().abort().unwrap();
    assert_eq!((store.open_count(), store.resume(second).unwrap().commit()), (2, Err(Error::NotOpen)));
    let fourth = store.begin_as(9).unwrap().leave();
    assert_eq!((third.id().number, fourth.id().number, store.open_count()), (2, 3, 3));
    for _ in 0..50 {
        up(&store, fourth, 3);
    }
    assert_eq!((with(&store, fourth, |t| t.rollback(51)), kept(&store)), (Err(Error::BadRollback), [0, 50, 1]));
    assert_eq!((with(&store, fourth, |t| t.rollback(49)), kept(&store)), (Ok(()), [0, 1, 1]));
    let count = store.event_count();
    store.abort_all();
    let aborts = [(4, 0), (6, 2), (9, 3)].map(|(worker, transaction)| Event::Abort { worker, transaction });
    assert_eq!((store.events(count).unwrap(), kept(&store)), (aborts.to_vec(), [0, 0, 0]));
}

/// Begins as many transactions as can be open. This many of them end, in another order than that in which they began: of
/// 341 and each number the bits that only one of both has. Those that are left are aborted as who began them.
fn are_left(ended: u64) {
    let counter = Type::counter(1, &[1], Kind::Undo).unwrap();
    let mut store = Store::new([&counter], 3000).unwrap();
    let worker = |t: u64| (t % 256) as u8;
    let all: Vec<LeftOpen> = (0..1024).map(|t| store.begin_as(worker(t)).unwrap().leave()).collect();
    assert!(all.iter().map(|left| left.id().number).eq(0..1024));
    assert_eq!((store.open_count(), store.begin().err()), (1024, Some(Error::TooManyOpen)));
    for place in 0..ended {
        let left = all[(place ^ 341) as usize];
        store.resume(left).unwrap().commit().unwrap();
        assert_eq!(store.resume(left).unwrap().abort(), Err(Error::NotOpen));
    }
    assert_eq!(store.open_count(), 1024 - ended);
    let count = store.event_count();
    store.abort_all();
    let left = (0..1024).filter(|t| t ^ 341 >= ended).map(|t| Event::Abort { worker: worker(t), transaction: t });
    assert_eq!((store.events(count).unwrap(), store.open_count()), (left.collect(), 0));
}

#[test]
fn as_many_as_can_be_are_open() {
    for ended in [0, 1, 2, 3, 341, 512, 1000, 1023, 1024] {
        are_left(ended);
    }
}

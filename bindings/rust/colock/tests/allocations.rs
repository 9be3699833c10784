//! Which calls take heap memory in this crate. The library isn't asked here: `bindings/c/tests/refused.c` refuses it memory.

use colock::{Kind, Reply, SharedStore, Store, Type};
use std::alloc::{GlobalAlloc, Layout, System};
use std::cell::Cell;

thread_local! {
    /// How often this thread took memory.
    static TAKEN: Cell<u64> = const { Cell::new(0) };
}

struct Counting;

// SAFETY: the system's allocator does it all.
unsafe impl GlobalAlloc for Counting {
    unsafe fn alloc(&self, layout: Layout) -> *mut u8 {
        TAKEN.with(|taken| taken.set(taken.get() + 1));
        // SAFETY: as the caller says.
        unsafe { System.alloc(layout) }
    }

    unsafe fn dealloc(&self, at: *mut u8, layout: Layout) {
        // SAFETY: as the caller says.
        unsafe { System.dealloc(at, layout) }
    }
}

#[global_allocator]
static COUNTING: Counting = Counting;

/// How often memory is taken.
fn taken(act: impl FnOnce()) -> u64 {
    let before = TAKEN.with(Cell::get);
    act();
    TAKEN.with(Cell::get) - before
}

fn types() -> [Type; 2] {
    let purse = "number purse\nmax 10000\ninitial 500\ntake any\ngive any\nend\n";
    [Type::stock(9, &[1], Kind::Undo).unwrap(), Type::read(purse, Kind::Escrow).unwrap()]
}

const NAMES: [&str; 2] = ["stock", "purse"];

#[test]
fn an_attempt_by_a_number_takes_none() {
    let types = types();
    let (store, shared) =
        (Store::new(NAMES.iter().copied().zip(&types), 10_000).unwrap(), SharedStore::new(NAMES.iter().copied().zip(&types), 10_000).unwrap());
    for (name, call) in [("stock", "take:1"), ("stock", "give:1"), ("purse", "take:17"), ("purse", "give:17")] {
        let number = store.call_number(name, call).unwrap();
        for _ in 0..20 {
            assert_eq!(taken(|| assert!(matches!(store.attempt_op(name, number), Ok(Reply::Operation(_))))), 0);
            assert_eq!(taken(|| assert!(matches!(shared.attempt_op(name, number), Ok(Reply::Operation(_))))), 0);
        }
    }
    // nor where it aborts
    let mut holder = shared.begin().unwrap();
    holder.expect("stock", "take:1", "ok").unwrap();
    let give = shared.call_number("stock", "give:1").unwrap();
    assert_eq!(taken(|| assert!(matches!(shared.attempt_op("stock", give), Ok(Reply::Busy { .. })))), 0);
    assert_eq!(taken(|| assert!(shared.attempt_op("stock", 200).is_err() && store.attempt_op(9, 0).is_err())), 0);
}

/// By words it takes what its answer has.
#[test]
fn an_attempt_of_few_calls_takes_its_answer() {
    let types = types();
    let (store, shared) =
        (Store::new(NAMES.iter().copied().zip(&types), 10_000).unwrap(), SharedStore::new(NAMES.iter().copied().zip(&types), 10_000).unwrap());
    for count in [1, 4, 8] {
        let calls = [("stock", "give:1"), ("purse", "take:17"), ("purse", "give:17"), ("stock", "take:1")].into_iter().cycle().take(count);
        assert_eq!(taken(|| drop(store.attempt(calls.clone()).unwrap().executed().unwrap())), 1, "{count}");
        assert_eq!(taken(|| drop(shared.attempt(calls).unwrap().executed().unwrap())), 1, "{count}");
    }
    let none: [(u32, &str); 0] = [];
    assert_eq!(taken(|| drop(shared.attempt(none))), 0);
}

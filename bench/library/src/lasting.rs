//! A store that goes on: one object, whose first two calls take turns.

use crate::Told;
use colock::{Error, Store, Transaction, Type};
use std::time::Instant;

/// How many transactions are open.
const OPEN: usize = 16;
/// How many events are forgotten at once.
const FORGOTTEN: u64 = 65_536;
/// How many turns make a million events, and how many a turn makes.
const TURNS: u32 = 333_334;
const EACH: u64 = 3;
/// After how many turns the other call is made.
const CALLS: u32 = 512;

/// The operation by which the second call is named; the first where there is one call.
fn second_call(of: &Type) -> Result<u8, Error> {
    let first = of.call_name(0)?;
    for k in 1..of.operations() {
        if of.call_name(k)? != first {
            return Ok(k);
        }
    }
    Ok(0)
}

/// A million events: each turn commits a transaction, and begins another, which makes a call.
#[inline(never)]
fn make_million<'s>(
    store: &'s Store,
    open: &mut [Option<Transaction<'s>>; OPEN],
    second: u8,
) -> Result<(), Error> {
    let mut kept = 0;
    for turn in 0..TURNS {
        let slot = &mut open[turn as usize % OPEN];
        if let Some(transaction) = slot.take() {
            transaction.commit()?;
        }
        let mut begun = store.begin()?;
        let _reply = begun.call_op(
            0,
            if (turn / CALLS).is_multiple_of(2) {
                0
            } else {
                second
            },
        )?;
        *slot = Some(begun);
        kept += EACH;
        if kept >= FORGOTTEN {
            store.forget(FORGOTTEN);
            kept = 0;
        }
    }
    Ok(())
}

/// Prints the nanoseconds of the first and of the last of this many million events, and how many there were.
pub fn measure(of: &Type, millions: u32) -> Told {
    let store = Store::new([of], u32::MAX.into())?;
    let second = second_call(of)?;
    let mut open = [const { None }; OPEN];
    for slot in &mut open {
        *slot = Some(store.begin()?);
    }
    for million in 0..millions {
        let start = Instant::now();
        make_million(&store, &mut open, second)?;
        let time = start.elapsed().as_nanos();
        if million == 0 || million == millions - 1 {
            println!("nanoseconds {time}");
        }
    }
    println!("events {}", store.event_count());
    Ok(())
}

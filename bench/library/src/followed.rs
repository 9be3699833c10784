//! Stores that follow the histories of `bench/plain_follow`, and events of them that were changed. It stops where a store
//! and the plain program differ.

use crate::{Told, number, type_at};
use colock::{Error, Event, OperationId, Store, Type};
use std::error::Error as AnyError;

/// The most events of a history, as for the plain program.
const MOST_EVENTS: u64 = 48;

/// A history of the plain program, an event that is to follow those before a place, whether a command makes that one
/// there, and the states that are kept at the end.
struct Plain {
    events: Vec<Event>,
    place: usize,
    other: Event,
    is_made: bool,
    kept: Vec<u64>,
}

/// The event of a worker, a kind and four numbers.
fn event_of([w, kind, t, x, c, u]: [u32; 6]) -> Event {
    let (worker, call, transaction) = (w as u8, c as u8, u64::from(t));
    match kind {
        0 => Event::Begin {
            worker,
            transaction,
        },
        1 => Event::Operation {
            worker,
            transaction,
            object: x,
            operation: OperationId::listed(call),
        },
        2 => Event::Busy {
            worker,
            transaction,
            object: x,
            call,
            blocker: u.into(),
        },
        3 => Event::None {
            worker,
            transaction,
            object: x,
            call,
        },
        4 => Event::Commit {
            worker,
            transaction,
        },
        5 => Event::Abort {
            worker,
            transaction,
        },
        _ => Event::Rollback {
            worker,
            transaction,
            operations: x.into(),
        },
    }
}

/// The next history of these numbers, at this many objects; none at their end.
fn next_of(numbers: &mut impl Iterator<Item = u32>, objects: usize) -> Option<Plain> {
    let count = numbers.next()?;
    let mut one = || {
        numbers
            .next()
            .expect("the numbers end in the midst of a history")
    };
    let mut event = || event_of([0; 6].map(|_: u32| one()));
    let events = (0..count).map(|_| event()).collect();
    let place = one() as usize;
    let other = event_of([0; 6].map(|_: u32| one()));
    let is_made = one() == 1;
    let kept = (0..objects).map(|_| one().into()).collect();
    Some(Plain {
        events,
        place,
        other,
        is_made,
        kept,
    })
}

/// The states that the objects keep.
fn states_of(store: &Store, objects: usize) -> Vec<u64> {
    (0..objects as u32)
        .map(|x| store.kept(x).expect("an object"))
        .collect()
}

impl Plain {
    /// Whether a new store follows the history, to the same events and states.
    fn is_followed(&self, types: &[Type]) -> Result<bool, Error> {
        let store = Store::new(types, MOST_EVENTS)?;
        let follows = store.follow(&self.events).is_ok();
        Ok(follows
            && store.events(0)? == self.events
            && states_of(&store, types.len()) == self.kept)
    }

    /// Whether a new store makes the changed event where the plain program does. Where it doesn't, the store stays as it
    /// was, and follows the other events.
    fn is_told(&self, types: &[Type]) -> Result<bool, Error> {
        let store = Store::new(types, MOST_EVENTS)?;
        let (before, behind) = self.events.split_at(self.place);
        if store.follow(before).is_err() {
            return Ok(false);
        }
        let states = states_of(&store, types.len());
        let told = store.follow(std::slice::from_ref(&self.other));
        if self.is_made {
            let events = store.events(0)?;
            return Ok(told.is_ok() && events.split_last() == Some((&self.other, before)));
        }
        let is_left = told.is_err_and(|told| (told.made, told.error) == (0, Error::NotMade))
            && store.events(0)? == before
            && states_of(&store, types.len()) == states;
        Ok(is_left && store.follow(behind).is_ok() && states_of(&store, types.len()) == self.kept)
    }
}

/// Follows the histories of the numbers at a path, and prints how many they were, and how many changed events were made.
pub fn measure(kind: &str, numbers: &str, paths: &[&str]) -> Told {
    let types = paths
        .iter()
        .map(|path| type_at(kind, path))
        .collect::<Result<Vec<_>, Box<dyn AnyError>>>()?;
    let text = std::fs::read_to_string(numbers)?;
    let mut numbers = text.split_ascii_whitespace().map(number);
    let (mut histories, mut made) = (0, 0);
    while let Some(plain) = next_of(&mut numbers, types.len()) {
        if !plain.is_followed(&types)? || !plain.is_told(&types)? {
            return Err(format!(
                "history {histories}: a store doesn't follow it as the plain program says"
            )
            .into());
        }
        histories += 1;
        made += u32::from(plain.is_made);
    }
    println!("histories {histories}\nchanged {histories} made {made}");
    Ok(())
}

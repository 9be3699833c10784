//! Events as numbers, events that are changed, and whether a command makes them.

use crate::commands::{Command, give};
use crate::random::Random;
use crate::recovery::Recovery;
use crate::store::{Event, EventKind, Store};
use crate::types::Type;
use std::sync::Arc;

/// An event: its worker, which kind it is of, and its numbers.
pub type Words = [u32; 6];

/// How many numbers the events of each kind have.
const NUMBERS: [u32; 7] = [1, 3, 4, 3, 1, 1, 2];
/// The kinds of a call's events.
const OF_CALLS: std::ops::Range<u32> = 1..4;

/// The numbers of an event.
pub fn words_of(event: &Event) -> Words {
    let w = u32::from(event.worker);
    match event.kind {
        EventKind::Begin { t } => [w, 0, t, 0, 0, 0],
        EventKind::Op { t, x, k } => [w, 1, t, x, u32::from(k), 0],
        EventKind::Busy { t, x, c, u } => [w, 2, t, x, u32::from(c), u],
        EventKind::None { t, x, c } => [w, 3, t, x, u32::from(c), 0],
        EventKind::Commit { t } => [w, 4, t, 0, 0, 0],
        EventKind::Abort { t } => [w, 5, t, 0, 0, 0],
        EventKind::Rollback { t, n } => [w, 6, t, n, 0, 0],
    }
}

/// The event with a number near the old one in one of its fields. After the least number comes the
/// greatest.
fn with_another_number(random: &mut Random, event: Words) -> Words {
    let mut words = event;
    let field = match random.below(NUMBERS[event[1] as usize] + 1) {
        0 => 0,
        number => number as usize + 1,
    };
    let by = 1 + random.below(3);
    let near = if random.one_of(2) {
        words[field].wrapping_add(by)
    } else {
        words[field].wrapping_sub(by)
    };
    // workers, operations and calls are bytes
    let is_byte = field == 0 || field == 4;
    words[field] = if is_byte { near % 256 } else { near };
    words
}

/// An event of another kind, of the same transaction and object where it has them.
fn of_another_kind(random: &mut Random, event: Words, objects: u32) -> Words {
    let kind = (event[1] + 1 + random.below(6)) % 7;
    let x = if OF_CALLS.contains(&event[1]) {
        event[3]
    } else {
        random.below(objects)
    };
    let (small, other) = (random.below(4), random.below(event[2].saturating_add(2)));
    let [w, t] = [event[0], event[2]];
    match kind {
        1 | 3 => [w, kind, t, x, small, 0],
        2 => [w, kind, t, x, small, other],
        6 => [w, kind, t, small, 0, 0],
        _ => [w, kind, t, 0, 0, 0],
    }
}

/// Another event than this one.
pub fn changed(random: &mut Random, event: Words, objects: u32) -> Words {
    if random.one_of(3) {
        of_another_kind(random, event, objects)
    } else {
        with_another_number(random, event)
    }
}

/// The call of operation k at object x, where they are there.
fn call_of(types: &[Arc<Type>], x: u32, k: u32) -> Option<u8> {
    let has = |operations: u64| operations.checked_shr(k).unwrap_or(0) & 1 == 1;
    let table = types.get(x as usize)?;
    let call = table.calls.iter().find(|call| has(call.operations))?;
    Some(call.first)
}

/// The command that an event names.
fn command_of(types: &[Arc<Type>], [_, kind, t, x, c, _]: Words) -> Option<Command> {
    Some(match kind {
        0 => Command::Begin,
        1 => Command::Call {
            t,
            x,
            c: call_of(types, x, c)?,
        },
        2 | 3 => Command::Call { t, x, c: c as u8 },
        4 => Command::Commit { t },
        5 => Command::Abort { t },
        _ => Command::Rollback { t, n: x },
    })
}

/// Whether the command that an event names makes it now.
pub fn is_made<R: Recovery>(mut store: Store<R>, types: &[Arc<Type>], event: Words) -> bool {
    let before = store.history().len();
    if let Some(command) = command_of(types, event) {
        give(&mut store, (event[0] as u8, command));
    }
    let made: Vec<Words> = store.history()[before..].iter().map(words_of).collect();
    made == [event]
}

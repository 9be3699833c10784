//! The events of a history.

use crate::lines::{Entries, FaultKind, Key, eight, number, number_before};
use crate::store::{Event, EventKind};

/// The greatest number of a transaction, and of operations rolled back.
const MOST: u32 = 999_999;

/// The words with which an event's line begins.
#[derive(Clone, Copy)]
enum Word {
    Begin,
    Op,
    Busy,
    None,
    Commit,
    Abort,
    Rollback,
}

impl Word {
    /// How many numbers come after it.
    #[inline]
    fn count(self) -> usize {
        match self {
            Word::Begin | Word::Commit | Word::Abort => 2,
            Word::Rollback => 3,
            Word::Op | Word::None => 4,
            Word::Busy => 5,
        }
    }

    /// The event with these numbers, where each is in its range.
    #[inline(always)]
    fn event(self, [w, t, a, b, u]: [u32; 5]) -> Option<Event> {
        let fits = match self {
            Word::Begin | Word::Commit | Word::Abort => true,
            Word::Rollback => (1..=MOST).contains(&a),
            Word::Op | Word::None => a <= 255 && b <= 63,
            Word::Busy => a <= 255 && b <= 63 && u <= MOST,
        };
        let (x, k) = (a, b as u8);
        let kind = match self {
            Word::Begin => EventKind::Begin { t },
            Word::Op => EventKind::Op { t, x, k },
            Word::Busy => EventKind::Busy { t, x, c: k, u },
            Word::None => EventKind::None { t, x, c: k },
            Word::Commit => EventKind::Commit { t },
            Word::Abort => EventKind::Abort { t },
            Word::Rollback => EventKind::Rollback { t, n: a },
        };
        (fits && w <= 255 && t <= MOST).then_some(Event {
            worker: w as u8,
            kind,
        })
    }
}

const OP: Key = Key::new(b"op ");
const BEGIN: Key = Key::new(b"begin ");
const COMMIT: Key = Key::new(b"commit ");
const BUSY: Key = Key::new(b"busy ");
const NONE: Key = Key::new(b"none ");
const ABORT: Key = Key::new(b"abort ");
const ROLLBACK: Key = Key::new(b"rollback");

/// This many numbers, the last with a LF after it, and the place after that.
#[inline(always)]
fn numbers<const N: usize>(text: &[u8], mut at: usize) -> Option<([u32; 5], usize)> {
    let mut numbers = [0; 5];
    for (place, number) in numbers[..N].iter_mut().enumerate() {
        let behind = if place + 1 == N { b'\n' } else { b' ' };
        (*number, at) = number_before(text, at, behind)?;
    }
    Some((numbers, at))
}

/// Reads events.
pub struct Events;

impl Entries for Events {
    type Entry = Event;

    const HAS_MAX: bool = false;

    #[inline(always)]
    fn quick(&mut self, text: &[u8], at: usize) -> Option<(Event, usize)> {
        let first = eight(text, at);
        let (word, (numbers, behind)) = if OP.begins(first) {
            (Word::Op, numbers::<4>(text, at + 3)?)
        } else if BEGIN.begins(first) {
            (Word::Begin, numbers::<2>(text, at + 6)?)
        } else if COMMIT.begins(first) {
            (Word::Commit, numbers::<2>(text, at + 7)?)
        } else if BUSY.begins(first) {
            (Word::Busy, numbers::<5>(text, at + 5)?)
        } else if NONE.begins(first) {
            (Word::None, numbers::<4>(text, at + 5)?)
        } else if ABORT.begins(first) {
            (Word::Abort, numbers::<2>(text, at + 6)?)
        } else if ROLLBACK.begins(first) && text[at + 8] == b' ' {
            (Word::Rollback, numbers::<3>(text, at + 9)?)
        } else {
            return None;
        };
        Some((word.event(numbers)?, behind))
    }

    fn entry(&mut self, words: &[&[u8]]) -> Result<Option<Event>, FaultKind> {
        let (word, rest) = match words {
            [b"begin", rest @ ..] => (Word::Begin, rest),
            [b"op", rest @ ..] => (Word::Op, rest),
            [b"busy", rest @ ..] => (Word::Busy, rest),
            [b"none", rest @ ..] => (Word::None, rest),
            [b"commit", rest @ ..] => (Word::Commit, rest),
            [b"abort", rest @ ..] => (Word::Abort, rest),
            [b"rollback", rest @ ..] => (Word::Rollback, rest),
            _ => return Err(FaultKind::UnknownWord),
        };
        if rest.len() != word.count() {
            return Err(FaultKind::UnknownWord);
        }
        let mut numbers = [0; 5];
        for (place, word) in numbers.iter_mut().zip(rest) {
            *place = number(word)?;
        }
        Ok(word.event(numbers))
    }
}

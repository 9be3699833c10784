//! The commands of a script.

use crate::lines::{Entries, FaultKind, Key, eight, is_name, number, number_before};
use std::collections::HashMap;

/// How many short names the cache holds.
const CACHED: usize = 64;

/// A command. A call is named by the place of its name among the names of the script.
#[derive(Clone, Copy)]
pub enum Command {
    Begin,
    Call { t: u32, x: u32, name: u32 },
    Commit { t: u32 },
    Abort { t: u32 },
    Rollback { t: u32, n: u32 },
}

/// The names of a script, each once.
pub struct Commands {
    pub names: Vec<Box<[u8]>>,
    places: HashMap<Box<[u8]>, u32>,
    /// Names of at most fifteen bytes that were seen, by their bytes, with their places.
    cache: [([u64; 2], u32); CACHED],
}

impl Commands {
    pub fn new() -> Commands {
        Commands {
            names: Vec::new(),
            places: HashMap::new(),
            cache: [([u64::MAX; 2], 0); CACHED],
        }
    }

    /// The place of a name.
    fn place(&mut self, name: &[u8]) -> u32 {
        if let Some(&place) = self.places.get(name) {
            return place;
        }
        let place = self.names.len() as u32;
        self.names.push(name.into());
        self.places.insert(name.into(), place);
        place
    }

    /// The place of the name from here on with a LF after it, and the place after the LF.
    #[inline(always)]
    fn name_before_lf(&mut self, text: &[u8], at: usize) -> Option<(u32, usize)> {
        let Some((key, count)) = short_name(text, at) else {
            return self.long_name(text, at);
        };
        let mixed = (key[0] ^ key[1].rotate_left(32)).wrapping_mul(0x9e37_79b9_7f4a_7c15);
        let slot = mixed as usize >> 58;
        let (cached, place) = self.cache[slot];
        if cached == key {
            return Some((place, at + count + 1));
        }
        let (place, behind) = self.long_name(text, at)?;
        self.cache[slot] = (key, place);
        Some((place, behind))
    }

    #[cold]
    fn long_name(&mut self, text: &[u8], at: usize) -> Option<(u32, usize)> {
        let count = text[at..].iter().take(33).position(|&byte| byte == b'\n')?;
        let name = &text[at..at + count];
        (count > 0 && is_name(name)).then(|| (self.place(name), at + count + 1))
    }
}

/// The bytes of a name of one to fifteen with a LF after it, and how many they are.
#[inline(always)]
fn short_name(text: &[u8], at: usize) -> Option<([u64; 2], usize)> {
    let low = eight(text, at);
    match length_before_lf(low) {
        0 => None,
        8 => {
            let high = u64::from_le_bytes(*text[at + 8..].first_chunk()?);
            let more = length_before_lf(high);
            (more < 8).then_some(([low, first_of(high, more)], 8 + more))
        }
        count => Some(([first_of(low, count), 0], count)),
    }
}

/// So many bytes of these eight, fewer than eight.
#[inline]
fn first_of(word: u64, count: usize) -> u64 {
    word & !(u64::MAX << (8 * count))
}

/// How many bytes of these eight come before the first LF; 8 where none is a LF.
#[inline]
fn length_before_lf(word: u64) -> usize {
    let others = word ^ 0x0a0a_0a0a_0a0a_0a0a;
    let is_lf = others.wrapping_sub(0x0101_0101_0101_0101) & !others & 0x8080_8080_8080_8080;
    is_lf.trailing_zeros() as usize / 8
}

const BEGIN: Key = Key::new(b"begin\n");
const CALL: Key = Key::new(b"call ");
const COMMIT: Key = Key::new(b"commit ");
const ABORT: Key = Key::new(b"abort ");
const ROLLBACK: Key = Key::new(b"rollback");

impl Entries for Commands {
    type Entry = Command;

    const HAS_MAX: bool = true;

    #[inline(always)]
    fn quick(&mut self, text: &[u8], at: usize) -> Option<(Command, usize)> {
        let first = eight(text, at);
        if CALL.begins(first) {
            let (t, at) = number_before(text, at + 5, b' ')?;
            let (x, at) = number_before(text, at, b' ')?;
            let (name, at) = self.name_before_lf(text, at)?;
            Some((Command::Call { t, x, name }, at))
        } else if BEGIN.begins(first) {
            Some((Command::Begin, at + 6))
        } else if COMMIT.begins(first) {
            let (t, at) = number_before(text, at + 7, b'\n')?;
            Some((Command::Commit { t }, at))
        } else if ABORT.begins(first) {
            let (t, at) = number_before(text, at + 6, b'\n')?;
            Some((Command::Abort { t }, at))
        } else if ROLLBACK.begins(first) && text[at + 8] == b' ' {
            let (t, at) = number_before(text, at + 9, b' ')?;
            let (n, at) = number_before(text, at, b'\n')?;
            Some((Command::Rollback { t, n }, at))
        } else {
            None
        }
    }

    fn entry(&mut self, words: &[&[u8]]) -> Result<Option<Command>, FaultKind> {
        let command = match words {
            [b"begin"] => Command::Begin,
            [b"call", t, x, name] if is_name(name) => {
                let (t, x) = (number(t)?, number(x)?);
                Command::Call {
                    t,
                    x,
                    name: self.place(name),
                }
            }
            [b"commit", t] => Command::Commit { t: number(t)? },
            [b"abort", t] => Command::Abort { t: number(t)? },
            [b"rollback", t, n] => Command::Rollback {
                t: number(t)?,
                n: number(n)?,
            },
            _ => return Err(FaultKind::UnknownWord),
        };
        Ok(Some(command))
    }
}

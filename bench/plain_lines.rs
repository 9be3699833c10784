//! A plain Rust reader of type files and scripts, to compare with: the same tests of a line in the
//! same order, the same refusals and the same values, with no proofs.
//!
//! `plain_lines type|script FILE ROUNDS` prints the number of lines, the outcome, and the least
//! nanoseconds of a reading.

use std::collections::HashSet;
use std::hint::black_box;
use std::time::Instant;

#[derive(Clone, Copy, Debug, PartialEq, Eq)]
enum Kind {
    NotAscii = 1,
    LineTooLong,
    Unterminated,
    UnknownWord,
    BadNumber,
    OutOfRange,
    OutOfOrder,
    Missing,
    AfterEnd,
    TwiceOp,
}

use Kind::*;

/// A name of 1 to 32 bytes.
#[derive(Clone, Copy, PartialEq, Eq, Hash)]
struct Name {
    bytes: [u8; 32],
    len: u8,
}

fn name(word: &[u8]) -> Result<Name, Kind> {
    let is_name = (1..=32).contains(&word.len())
        && word.iter().all(|b| matches!(b, b'a'..=b'z' | b'0'..=b'9' | b'_' | b':' | b'-'));
    if !is_name {
        return Err(UnknownWord);
    }
    let mut bytes = [0; 32];
    bytes[..word.len()].copy_from_slice(word);
    Ok(Name { bytes, len: word.len() as u8 })
}

/// `0`, or one to seven digits without a leading zero.
fn number(word: &[u8]) -> Result<u32, Kind> {
    if word.is_empty() || word.len() > 7 || (word.len() > 1 && word[0] == b'0') {
        return Err(BadNumber);
    }
    word.iter().try_fold(0, |n, b| match b {
        b'0'..=b'9' => Ok(10 * n + u32::from(b - b'0')),
        _ => Err(BadNumber),
    })
}

fn is_undo(word: &[u8]) -> Result<bool, Kind> {
    match word {
        b"undo" => Ok(true),
        b"intentions" => Ok(false),
        _ => Err(UnknownWord),
    }
}

/// What a grammar has of its own: it takes the words of a line, or says why not.
trait Reader {
    fn has_ended(&self) -> bool;
    fn line(&mut self, words: &[&[u8]]) -> Result<(), Kind>;
}

/// Reads each line; a fault is that of the first line that is refused, by its first test.
fn read_lines<R: Reader>(text: &[u8], reader: &mut R) -> Result<(), (usize, Kind)> {
    let mut words = Vec::new();
    let mut number = 0;
    for line in text.split_inclusive(|b| *b == b'\n') {
        number += 1;
        read_line(line, &mut words, reader).map_err(|kind| (number, kind))?;
    }
    if reader.has_ended() { Ok(()) } else { Err((number + 1, Missing)) }
}

fn read_line<'a, R: Reader>(
    line: &'a [u8],
    words: &mut Vec<&'a [u8]>,
    reader: &mut R,
) -> Result<(), Kind> {
    let bytes = line.strip_suffix(b"\n").unwrap_or(line);
    if !bytes.iter().all(|b| (b' '..=b'~').contains(b)) {
        return Err(NotAscii);
    }
    if bytes.len() > 200 {
        return Err(LineTooLong);
    }
    if bytes.len() == line.len() {
        return Err(Unterminated);
    }
    if bytes.first() == Some(&b'#') {
        return Ok(());
    }
    words.clear();
    words.extend(bytes.split(|b| *b == b' ').filter(|word| !word.is_empty()));
    if words.is_empty() {
        return Ok(());
    }
    if reader.has_ended() {
        return Err(AfterEnd);
    }
    reader.line(words)
}

/// How many lines of each rank there are, and the last line's rank and key.
struct Sections<const N: usize> {
    /// A second line is out of order; a line must be there before one of a higher rank; the most.
    rules: [(bool, bool, usize); N],
    counts: [usize; N],
    last_rank: usize,
    last_key: Option<(u32, u32)>,
}

impl<const N: usize> Sections<N> {
    fn new(rules: [(bool, bool, usize); N]) -> Sections<N> {
        Sections { rules, counts: [0; N], last_rank: 0, last_key: None }
    }

    /// The tests of order and of missing sections.
    fn enter(&self, rank: usize) -> Result<(), Kind> {
        if rank < self.last_rank || (self.rules[rank].0 && self.counts[rank] > 0) {
            return Err(OutOfOrder);
        }
        if rank > self.last_rank && (0..rank).any(|r| self.rules[r].1 && self.counts[r] == 0) {
            return Err(Missing);
        }
        Ok(())
    }

    /// The tests of range, of the section's room and of ascending keys.
    fn pass(&mut self, rank: usize, in_range: bool, key: Option<(u32, u32)>) -> Result<(), Kind> {
        if !in_range || self.counts[rank] >= self.rules[rank].2 {
            return Err(OutOfRange);
        }
        if rank == self.last_rank && self.counts[rank] > 0 {
            if let (Some(last), Some(key)) = (self.last_key, key) {
                if key <= last {
                    return Err(OutOfOrder);
                }
            }
        }
        self.counts[rank] += 1;
        (self.last_rank, self.last_key) = (rank, key);
        Ok(())
    }
}

const ONE: (bool, bool, usize) = (true, true, usize::MAX);
const ANY: (bool, bool, usize) = (false, false, usize::MAX);

/// A type file, as it is read.
struct TypeReader {
    sections: Sections<10>,
    name: Option<Name>,
    states: u32,
    initial: u32,
    ops: Vec<(Name, Name)>,
    seen: HashSet<(Name, Name)>,
    steps: Vec<Option<u16>>,
    members: [u64; 16],
    pairs: Vec<u64>,
    conflicts: [[u64; 64]; 2],
}

fn new_type_reader() -> TypeReader {
    TypeReader {
        sections: Sections::new([ONE, ONE, ONE, (false, true, 64), ANY, ANY, ANY, ANY, ANY, ONE]),
        name: None,
        states: 0,
        initial: 0,
        ops: Vec::new(),
        seen: HashSet::new(),
        steps: Vec::new(),
        members: [0; 16],
        pairs: Vec::new(),
        conflicts: [[0; 64]; 2],
    }
}

fn exactly(words: &[&[u8]], count: usize) -> Result<(), Kind> {
    if words.len() == count { Ok(()) } else { Err(UnknownWord) }
}

impl TypeReader {
    fn head(&mut self, words: &[&[u8]], rank: usize, in_range: fn(u32, u32) -> bool) -> Result<u32, Kind> {
        exactly(words, 2)?;
        let n = number(words[1])?;
        self.sections.enter(rank)?;
        self.sections.pass(rank, in_range(n, self.states), None)?;
        Ok(n)
    }

    fn op(&mut self, words: &[&[u8]]) -> Result<(), Kind> {
        exactly(words, 3)?;
        let op = (name(words[1])?, name(words[2])?);
        self.sections.enter(3)?;
        self.sections.pass(3, true, None)?;
        if !self.seen.insert(op) {
            return Err(TwiceOp);
        }
        self.ops.push(op);
        Ok(())
    }

    fn step(&mut self, words: &[&[u8]]) -> Result<(), Kind> {
        exactly(words, 4)?;
        let (s, k, t) = (number(words[1])?, number(words[2])?, number(words[3])?);
        self.sections.enter(4)?;
        let in_range = s < self.states && (k as usize) < self.ops.len() && t < self.states;
        self.sections.pass(4, in_range, Some((s, k)))?;
        if self.steps.is_empty() {
            self.steps = vec![None; self.states as usize * self.ops.len()];
        }
        self.steps[s as usize * self.ops.len() + k as usize] = Some(t as u16);
        Ok(())
    }

    fn reach(&mut self, words: &[&[u8]]) -> Result<(), Kind> {
        exactly(words, 2)?;
        let s = number(words[1])?;
        self.sections.enter(5)?;
        self.sections.pass(5, s < self.states, Some((s, 0)))?;
        self.members[s as usize / 64] |= 1 << (s % 64);
        Ok(())
    }

    fn equi(&mut self, words: &[&[u8]]) -> Result<(), Kind> {
        exactly(words, 3)?;
        let (s, t) = (number(words[1])?, number(words[2])?);
        self.sections.enter(6)?;
        let in_range = s < self.states && t < self.states && s != t;
        self.sections.pass(6, in_range, Some((s, t)))?;
        let row = (self.states as usize).div_ceil(64);
        if self.pairs.is_empty() {
            self.pairs = vec![0; self.states as usize * row];
        }
        self.pairs[s as usize * row + t as usize / 64] |= 1 << (t % 64);
        Ok(())
    }

    fn conflict(&mut self, words: &[&[u8]]) -> Result<(), Kind> {
        exactly(words, 4)?;
        let is_undo = is_undo(words[1])?;
        let (p, q) = (number(words[2])?, number(words[3])?);
        let rank = if is_undo { 7 } else { 8 };
        self.sections.enter(rank)?;
        let in_range = (p as usize) < self.ops.len() && (q as usize) < self.ops.len();
        self.sections.pass(rank, in_range, Some((p, q)))?;
        self.conflicts[rank - 7][p as usize] |= 1 << q;
        Ok(())
    }

    fn end(&mut self, words: &[&[u8]]) -> Result<(), Kind> {
        exactly(words, 1)?;
        self.sections.enter(9)?;
        self.sections.pass(9, true, None)
    }
}

impl Reader for TypeReader {
    fn has_ended(&self) -> bool {
        self.sections.counts[9] > 0
    }

    fn line(&mut self, words: &[&[u8]]) -> Result<(), Kind> {
        match words[0] {
            b"type" => {
                exactly(words, 2)?;
                let name = name(words[1])?;
                self.sections.enter(0)?;
                self.sections.pass(0, true, None)?;
                self.name = Some(name);
                Ok(())
            }
            b"states" => self.head(words, 1, |n, _| (1..=1024).contains(&n)).map(|n| self.states = n),
            b"initial" => self.head(words, 2, |n, states| n < states).map(|n| self.initial = n),
            b"op" => self.op(words),
            b"step" => self.step(words),
            b"reach" => self.reach(words),
            b"equi" => self.equi(words),
            b"conflict" => self.conflict(words),
            b"end" => self.end(words),
            _ => Err(UnknownWord),
        }
    }
}

#[derive(Clone, Copy)]
#[allow(dead_code)]
enum Command {
    Begin,
    Call { t: u32, x: u32, call: Name },
    Commit { t: u32 },
    Abort { t: u32 },
    Rollback { t: u32, n: u32 },
}

/// A script, as it is read.
struct ScriptReader {
    sections: Sections<4>,
    max: u32,
    objects: Vec<(bool, u8)>,
    commands: Vec<Command>,
}

fn new_script_reader() -> ScriptReader {
    ScriptReader {
        sections: Sections::new([ONE, (false, true, 256), (false, false, 1_000_000), ONE]),
        max: 0,
        objects: Vec::new(),
        commands: Vec::new(),
    }
}

fn command(words: &[&[u8]]) -> Result<Command, Kind> {
    match words[0] {
        b"begin" => exactly(words, 1).map(|()| Command::Begin),
        b"call" => {
            exactly(words, 4)?;
            let call = name(words[3])?;
            let (t, x) = (number(words[1])?, number(words[2])?);
            Ok(Command::Call { t, x, call })
        }
        b"commit" => {
            exactly(words, 2)?;
            Ok(Command::Commit { t: number(words[1])? })
        }
        b"abort" => {
            exactly(words, 2)?;
            Ok(Command::Abort { t: number(words[1])? })
        }
        b"rollback" => {
            exactly(words, 3)?;
            Ok(Command::Rollback { t: number(words[1])?, n: number(words[2])? })
        }
        _ => Err(UnknownWord),
    }
}

impl Reader for ScriptReader {
    fn has_ended(&self) -> bool {
        self.sections.counts[3] > 0
    }

    fn line(&mut self, words: &[&[u8]]) -> Result<(), Kind> {
        match words[0] {
            b"max" => {
                exactly(words, 2)?;
                let max = number(words[1])?;
                self.sections.enter(0)?;
                self.sections.pass(0, (2..=1_000_000).contains(&max), None)?;
                self.max = max;
            }
            b"object" => {
                exactly(words, 3)?;
                let (is_undo, file) = (is_undo(words[1])?, number(words[2])?);
                self.sections.enter(1)?;
                self.sections.pass(1, file <= 255, None)?;
                self.objects.push((is_undo, file as u8));
            }
            b"end" => {
                exactly(words, 1)?;
                self.sections.enter(3)?;
                self.sections.pass(3, true, None)?;
            }
            _ => {
                let command = command(words)?;
                self.sections.enter(2)?;
                self.sections.pass(2, true, None)?;
                self.commands.push(command);
            }
        }
        Ok(())
    }
}

fn read<R: Reader>(text: &[u8], mut reader: R) -> Result<R, (usize, Kind)> {
    read_lines(text, &mut reader).map(|()| reader)
}

fn best<T>(rounds: usize, mut work: impl FnMut() -> T) -> u128 {
    let time = |_| {
        let start = Instant::now();
        let value = black_box(work());
        let time = start.elapsed().as_nanos();
        drop(value);
        time
    };
    (0..rounds).map(time).min().expect("a round")
}

fn main() {
    let words: Vec<String> = std::env::args().skip(1).collect();
    let [form, path, rounds] = words.as_slice() else { panic!("type|script FILE ROUNDS") };
    let rounds = rounds.parse().expect("a number of rounds");
    let text = std::fs::read(path).expect("a file");
    println!("lines {}", text.iter().filter(|b| **b == b'\n').count());
    let (fault, time) = match form.as_str() {
        "type" => {
            let fault = read(&text, new_type_reader()).err();
            (fault, best(rounds, || read(&text, new_type_reader())))
        }
        "script" => {
            let fault = read(&text, new_script_reader()).err();
            (fault, best(rounds, || read(&text, new_script_reader())))
        }
        _ => panic!("type or script"),
    };
    match fault {
        Some((line, kind)) => println!("outcome line {line}: {kind:?}"),
        None => println!("outcome read"),
    }
    println!("read {time}");
}

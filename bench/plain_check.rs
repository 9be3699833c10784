//! A plain sequential reader and checker of type files, to compare with: no proofs, no tests of
//! the text's form beyond what a careful line reader has.
//!
//! `plain_check KIND FILE ROUNDS` prints the least nanoseconds of a reading and of a scan, where there is a round.

use std::collections::HashSet;
use std::hint::black_box;
use std::time::Instant;

struct TypeFile {
    states: usize,
    ops: usize,
    next: Vec<Option<u16>>,
    reach: Vec<bool>,
    related: Vec<bool>,
    undo: Vec<bool>,
    intentions: Vec<bool>,
}

fn number(word: Option<&str>) -> usize {
    word.expect("a word").parse().expect("a number")
}

/// Reads a type file line by line.
fn read(text: &str) -> TypeFile {
    let (mut states, mut seen) = (0, HashSet::new());
    let (mut steps, mut members, mut pairs) = (Vec::new(), Vec::new(), Vec::new());
    let (mut undo, mut intentions) = (Vec::new(), Vec::new());
    for line in text.lines() {
        let mut words = line.split_whitespace();
        match words.next() {
            Some("states") => states = number(words.next()),
            Some("op") => assert!(seen.insert((words.next(), words.next()))),
            Some("step") => {
                let (s, k, t) = (number(words.next()), number(words.next()), number(words.next()));
                assert!(s < states && k < seen.len() && t < states);
                steps.push((s, k, t as u16));
            }
            Some("reach") => {
                let s = number(words.next());
                assert!(s < states);
                members.push(s);
            }
            Some("equi") => {
                let (s, t) = (number(words.next()), number(words.next()));
                assert!(s < states && t < states && s != t);
                pairs.push((s, t));
            }
            Some("conflict") => {
                let table = match words.next() {
                    Some("undo") => &mut undo,
                    _ => &mut intentions,
                };
                let (p, q) = (number(words.next()), number(words.next()));
                assert!(p < seen.len() && q < seen.len());
                table.push((p, q));
            }
            _ => {}
        }
    }
    let ops = seen.len();
    let mut file = TypeFile {
        states,
        ops,
        next: vec![None; states * ops],
        reach: vec![members.is_empty(); states],
        related: vec![false; states * states],
        undo: vec![false; ops * ops],
        intentions: vec![false; ops * ops],
    };
    steps.iter().for_each(|&(s, k, t)| file.next[s * ops + k] = Some(t));
    members.iter().for_each(|&s| file.reach[s] = true);
    (0..states).for_each(|s| file.related[s * states + s] = true);
    pairs.iter().for_each(|&(s, t)| file.related[s * states + t] = true);
    undo.iter().for_each(|&(p, q)| file.undo[p * ops + q] = true);
    intentions.iter().for_each(|&(p, q)| file.intentions[p * ops + q] = true);
    file
}

impl TypeFile {
    fn next(&self, s: u16, k: usize) -> Option<u16> {
        self.next[s as usize * self.ops + k]
    }

    fn end(&self, s: u16, first: usize, second: usize) -> Option<u16> {
        self.next(self.next(s, first)?, second)
    }

    fn relates(&self, a: u16, b: u16) -> bool {
        self.related[a as usize * self.states + b as usize]
    }

    fn passes(&self, is_undo: bool, p: usize, q: usize, s: u16) -> bool {
        if is_undo {
            let Some(held_first) = self.end(s, q, p) else { return true };
            return self.end(s, p, q).is_some_and(|other| self.relates(held_first, other));
        }
        if self.next(s, p).is_none() || self.next(s, q).is_none() {
            return true;
        }
        match (self.end(s, p, q), self.end(s, q, p)) {
            (Some(a), Some(b)) => self.relates(a, b) && self.relates(b, a),
            _ => false,
        }
    }

    /// The certificate and all pairs of operations that don't conflict, at all states of the set.
    fn is_accepted(&self, is_undo: bool) -> bool {
        let conflicts = if is_undo { &self.undo } else { &self.intentions };
        let closed = (0..self.states).all(|s| {
            !self.reach[s]
                || (0..self.ops).all(|k| self.next(s as u16, k).is_none_or(|t| self.reach[t as usize]))
        });
        let simulation = (0..self.states).all(|s| {
            (0..self.states).all(|t| {
                s == t
                    || !self.relates(s as u16, t as u16)
                    || (0..self.ops).all(|k| match (self.next(s as u16, k), self.next(t as u16, k)) {
                        (None, _) => true,
                        (Some(_), None) => false,
                        (Some(a), Some(b)) => self.relates(a, b),
                    })
            })
        });
        closed
            && simulation
            && (0..self.ops).all(|p| {
                (0..self.ops).all(|q| {
                    conflicts[p * self.ops + q]
                        || (0..self.states)
                            .all(|s| !self.reach[s] || self.passes(is_undo, p, q, s as u16))
                })
            })
    }
}

fn best<T>(rounds: usize, mut work: impl FnMut() -> T) -> u128 {
    let time = |_| {
        let start = Instant::now();
        black_box(work());
        start.elapsed().as_nanos()
    };
    (0..rounds).map(time).min().expect("a round")
}

fn main() {
    let words: Vec<String> = std::env::args().skip(1).collect();
    let [kind, path, rounds] = words.as_slice() else { panic!("KIND FILE ROUNDS") };
    let rounds = rounds.parse().expect("a number of rounds");
    let text = std::fs::read_to_string(path).expect("a file");
    let file = read(&text);
    let is_undo = kind == "undo";
    println!("accepted {}", file.is_accepted(is_undo));
    if rounds == 0 {
        return;
    }
    println!("read {}", best(rounds, || read(&text)));
    println!("check {}", best(rounds, || black_box(&file).is_accepted(is_undo)));
}

//! The check of a type file, which is taken to be right as a text.

use crate::lines::Kind;

/// A type file: the table, its set of states, its relation and its conflict tables.
pub struct TypeFile {
    initial: usize,
    states: usize,
    ops: usize,
    next: Vec<Option<u16>>,
    set: Vec<bool>,
    /// Pairs of different states, sorted.
    related: Vec<(u16, u16)>,
    undo: [u64; 64],
    intentions: [u64; 64],
}

fn number(word: &str) -> usize {
    word.parse().expect("a number")
}

impl TypeFile {
    pub fn read(text: &str) -> TypeFile {
        let (next, set, related) = (Vec::new(), Vec::new(), Vec::new());
        let (undo, intentions) = ([0; 64], [0; 64]);
        let mut file = TypeFile {
            initial: 0,
            states: 0,
            ops: 0,
            next,
            set,
            related,
            undo,
            intentions,
        };
        for line in text.lines().filter(|line| !line.starts_with('#')) {
            file.line(&mut line.split_whitespace());
        }
        if file.set.is_empty() {
            file.set = vec![true; file.states];
        }
        file.next.resize(file.states * file.ops, None);
        file
    }

    fn line<'a>(&mut self, words: &mut impl Iterator<Item = &'a str>) {
        let keyword = words.next();
        let mut word = || words.next().expect("a word");
        match keyword {
            Some("states") => self.states = number(word()),
            Some("initial") => self.initial = number(word()),
            Some("op") => self.ops += 1,
            Some("step") => {
                let (s, k, t) = (number(word()), number(word()), number(word()));
                self.next.resize(self.states * self.ops, None);
                self.next[s * self.ops + k] = Some(t as u16);
            }
            Some("reach") => {
                self.set.resize(self.states, false);
                self.set[number(word())] = true;
            }
            Some("equi") => self
                .related
                .push((number(word()) as u16, number(word()) as u16)),
            Some("conflict") => {
                let rows = match word() {
                    "undo" => &mut self.undo,
                    _ => &mut self.intentions,
                };
                let (p, q) = (number(word()), number(word()));
                rows[p] |= 1 << q;
            }
            _ => {}
        }
    }

    fn next(&self, s: usize, k: usize) -> Option<usize> {
        self.next[s * self.ops + k].map(usize::from)
    }

    fn end(&self, s: usize, first: usize, second: usize) -> Option<usize> {
        self.next(self.next(s, first)?, second)
    }

    fn relates(&self, s: usize, t: usize) -> bool {
        s == t || self.related.binary_search(&(s as u16, t as u16)).is_ok()
    }

    fn members(&self) -> impl Iterator<Item = usize> {
        (0..self.states).filter(|&s| self.set[s])
    }

    fn passes(&self, kind: Kind, p: usize, q: usize, s: usize) -> bool {
        let (requested_first, held_first) = (self.end(s, p, q), self.end(s, q, p));
        match kind {
            Kind::Undo => match (held_first, requested_first) {
                (None, _) => true,
                (Some(a), Some(b)) => self.relates(a, b),
                (Some(_), None) => false,
            },
            Kind::Intentions => match (requested_first, held_first) {
                (Some(a), Some(b)) => self.relates(a, b) && self.relates(b, a),
                _ => self.next(s, p).is_none() || self.next(s, q).is_none(),
            },
            Kind::Escrow => true,
        }
    }

    fn not_closed(&self) -> Option<String> {
        let leaves = |s: usize, k| self.next(s, k).is_some_and(|t| !self.set[t]);
        self.members().find_map(|s| {
            let k = (0..self.ops).find(|&k| leaves(s, k))?;
            Some(format!("NotClosed {s} {k}"))
        })
    }

    fn not_simulation(&self) -> Option<String> {
        self.related.iter().find_map(|&(s, t)| {
            let differs = |&k: &usize| match (self.next(s.into(), k), self.next(t.into(), k)) {
                (None, _) => false,
                (Some(a), Some(b)) => !self.relates(a, b),
                (Some(_), None) => true,
            };
            let k = (0..self.ops).find(differs)?;
            Some(format!("NotSimulation {s} {t} {k}"))
        })
    }

    fn not_commuting(&self, kind: Kind) -> Option<String> {
        let rows = match kind {
            Kind::Undo => &self.undo,
            Kind::Intentions => &self.intentions,
            Kind::Escrow => return None,
        };
        let pairs = (0..self.ops).flat_map(|p| (0..self.ops).map(move |q| (p, q)));
        let mut outside = pairs.filter(|&(p, q)| rows[p] >> q & 1 == 0);
        outside.find_map(|(p, q)| {
            let s = self.members().find(|&s| !self.passes(kind, p, q, s))?;
            Some(format!("NotCommuting {p} {q} {s}"))
        })
    }

    /// Why the file isn't accepted for a kind, if it isn't.
    pub fn fault(&self, kind: Kind) -> Option<String> {
        if !self.set[self.initial] {
            return Some("InitialOutside".to_string());
        }
        self.not_closed()
            .or_else(|| self.not_simulation())
            .or_else(|| self.not_commuting(kind))
    }
}

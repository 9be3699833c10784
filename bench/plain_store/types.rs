//! Types, as their files have them.

/// In place of a next state: the operation isn't legal.
pub const ILLEGAL: u16 = u16::MAX;

/// A call: its least operation, and the bit of each of its operations.
pub struct Call {
    pub name: String,
    pub first: u8,
    pub operations: u64,
}

/// A type, with the conflict table of one kind as a word for each requested operation.
pub struct Type {
    pub initial: u16,
    pub calls: Vec<Call>,
    ops: usize,
    next: Vec<u16>,
    rows: [u64; 64],
}

impl Type {
    #[inline]
    pub fn next(&self, state: u16, k: u8) -> u16 {
        // SAFETY: states come from the table, and operations from its calls.
        unsafe {
            *self
                .next
                .get_unchecked(state as usize * self.ops + k as usize)
        }
    }

    #[inline]
    pub fn row(&self, k: u8) -> u64 {
        self.rows[k as usize & 63]
    }

    pub fn states(&self) -> usize {
        self.next.len() / self.ops
    }

    #[inline]
    pub fn op_count(&self) -> usize {
        self.ops
    }

    /// The call with this number, if there is one.
    #[inline]
    pub fn call(&self, c: u8) -> Option<&Call> {
        self.calls.iter().find(|call| call.first == c)
    }

    /// Reads a type file, which is taken to be right.
    pub fn read(text: &str, kind: &str) -> Type {
        let (mut states, mut initial, mut names) = (0, 0, Vec::new());
        let (mut next, mut rows) = (Vec::new(), [0; 64]);
        for line in text.lines() {
            let words: Vec<&str> = line.split_whitespace().collect();
            match words.as_slice() {
                ["states", n] => states = number(n),
                ["initial", s] => initial = number(s) as u16,
                ["op", call, _] => names.push(*call),
                ["step", s, k, t] => {
                    next.resize(states * names.len(), ILLEGAL);
                    next[number(s) * names.len() + number(k)] = number(t) as u16;
                }
                ["conflict", of, p, q] if *of == kind => rows[number(p)] |= 1 << number(q),
                _ => {}
            }
        }
        Type {
            initial,
            calls: calls_of(&names),
            ops: names.len(),
            next,
            rows,
        }
    }
}

fn number(word: &str) -> usize {
    word.parse().expect("a number")
}

/// The calls of operations with these names.
fn calls_of(names: &[&str]) -> Vec<Call> {
    let mut calls: Vec<Call> = Vec::new();
    for (k, name) in names.iter().enumerate() {
        match calls.iter_mut().find(|call| call.name == *name) {
            Some(call) => call.operations |= 1 << k,
            None => calls.push(Call {
                name: name.to_string(),
                first: k as u8,
                operations: 1 << k,
            }),
        }
    }
    calls
}

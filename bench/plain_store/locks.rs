//! What open transactions hold at an object.

#[derive(Clone, Copy)]
struct Held {
    by: u32,
    op: u8,
}

/// The operations that are held, and a word with the bit of each of them.
pub struct Locks {
    held: Vec<Held>,
    word: u64,
}

impl Locks {
    pub fn new() -> Locks {
        Locks {
            held: Vec::new(),
            word: 0,
        }
    }

    /// Who keeps t from an operation with this row of conflicts.
    #[inline]
    pub fn blocker(&self, row: u64, t: u32) -> Option<u32> {
        if row & self.word == 0 {
            return None;
        }
        let blocks = |held: &&Held| held.by != t && row >> held.op & 1 == 1;
        self.held.iter().find(blocks).map(|held| held.by)
    }

    #[inline]
    pub fn hold(&mut self, t: u32, k: u8) {
        self.held.push(Held { by: t, op: k });
        self.word |= 1 << k;
    }

    /// Gives up all that t holds.
    #[inline]
    pub fn release(&mut self, t: u32) {
        self.release_from(0, t);
    }

    /// Gives up the last m operations that t holds.
    pub fn release_last(&mut self, t: u32, m: usize) {
        let mut left = m;
        let last = self.held.iter().rposition(|held| {
            left -= usize::from(held.by == t);
            left == 0
        });
        self.release_from(last.expect("as many operations"), t);
    }

    /// Gives up what t holds from this place on, without a branch.
    #[inline]
    fn release_from(&mut self, from: usize, t: u32) {
        let held = self.held.as_mut_slice();
        let mut word = held[..from]
            .iter()
            .fold(0, |word, held| word | 1 << held.op);
        let mut kept = from;
        for read in from..held.len() {
            let entry = held[read];
            let stays = entry.by != t;
            // SAFETY: no more are kept than were read.
            unsafe { *held.get_unchecked_mut(kept) = entry };
            kept += usize::from(stays);
            word |= u64::from(stays) << entry.op;
        }
        self.held.truncate(kept);
        // `tools/instructions --self-test` has to find this.
        if cfg!(slower) {
            word |= self.held.iter().fold(0, |word, held| word | 1 << held.op);
        }
        self.word = word;
    }
}

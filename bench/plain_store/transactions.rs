//! The open transactions, in slots without gaps.

use crate::store::Refusal;

/// In place of a slot: the transaction ended.
const ENDED: u16 = u16::MAX;

/// How many places stay inline.
const INLINE: usize = 16;

/// The objects of a transaction's operations that survive, in order; the first few of them inline.
pub struct Places {
    count: u8,
    inline: [u8; INLINE],
    spilled: Vec<u8>,
}

impl Places {
    fn new() -> Places {
        Places {
            count: 0,
            inline: [0; INLINE],
            spilled: Vec::new(),
        }
    }

    #[inline]
    pub fn as_slice(&self) -> &[u8] {
        if self.spilled.is_empty() {
            &self.inline[..self.count as usize]
        } else {
            &self.spilled
        }
    }

    #[inline]
    pub fn push(&mut self, x: u8) {
        if self.spilled.is_empty() && (self.count as usize) < INLINE {
            self.inline[self.count as usize] = x;
            self.count += 1;
        } else {
            self.spill(x);
        }
    }

    #[cold]
    fn spill(&mut self, x: u8) {
        self.spilled
            .extend_from_slice(&self.inline[..self.count as usize]);
        self.count = 0;
        self.spilled.push(x);
    }

    #[inline]
    pub fn truncate(&mut self, n: usize) {
        self.count = self.count.min(n.min(INLINE) as u8);
        self.spilled.truncate(n);
    }
}

pub struct OpenTransaction {
    number: u32,
    pub worker: u8,
    pub places: Places,
}

/// For each transaction that began its slot, and the open ones.
pub struct Transactions {
    slot_of: Vec<u16>,
    pub slots: Vec<OpenTransaction>,
}

impl Transactions {
    pub fn new() -> Transactions {
        Transactions {
            slot_of: Vec::new(),
            slots: Vec::new(),
        }
    }

    pub fn begun(&self) -> u32 {
        self.slot_of.len() as u32
    }

    #[inline]
    pub fn slot(&self, t: u32) -> Result<usize, Refusal> {
        match self.slot_of.get(t as usize) {
            Some(&slot) if slot != ENDED => Ok(slot as usize),
            _ => Err(Refusal::NotOpen),
        }
    }

    #[inline]
    pub fn begin(&mut self, worker: u8) -> u32 {
        let number = self.slot_of.len() as u32;
        self.slot_of.push(self.slots.len() as u16);
        self.slots.push(OpenTransaction {
            number,
            worker,
            places: Places::new(),
        });
        number
    }

    /// Takes a transaction out. The last one goes to its slot.
    #[inline]
    pub fn end(&mut self, slot: usize) -> OpenTransaction {
        let ended = self.slots.swap_remove(slot);
        if let Some(moved) = self.slots.get(slot) {
            self.slot_of[moved.number as usize] = slot as u16;
        }
        self.slot_of[ended.number as usize] = ENDED;
        ended
    }
}

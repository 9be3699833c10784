//! When what many threads ask goes to a child: in one write, where they ask at the same moment.
//!
//! The child takes what is there, and syncs for it. Threads that were answered at once ask again one after another, and a
//! first line that went by itself would have a sync by itself, for which all others wait. So who writes waits for those who
//! were just answered, for moments; and where they don't ask again at once, nobody waits for the next writes.

/// Whom a thread that writes may wait for.
#[derive(Debug, Default)]
pub(crate) struct Gather {
    /// How many threads were answered, and haven't asked again.
    outside: u64,
    /// How many writes go without a wait after one that waited for nothing, and how many of them are left.
    skips: u32,
    left: u32,
}

/// The most writes that go without a wait.
const MOST_SKIPS: u32 = 255;

impl Gather {
    /// This many threads are answered.
    pub(crate) fn answers(&mut self, threads: u64) {
        self.outside += threads;
    }

    /// A thread asks.
    pub(crate) fn asks(&mut self) {
        self.outside = self.outside.saturating_sub(1);
    }

    /// Whether everybody has asked who is waited for.
    pub(crate) fn is_whole(&self) -> bool {
        self.outside == 0 || self.left > 0
    }

    /// It is written now.
    pub(crate) fn writes(&mut self) {
        if self.left > 0 {
            self.left -= 1;
        } else if self.outside == 0 {
            self.skips /= 2;
        } else {
            self.skips = (4 * self.skips + 1).min(MOST_SKIPS);
            self.left = self.skips;
        }
        self.outside = 0;
    }
}

#[cfg(test)]
mod tests {
    use super::{Gather, MOST_SKIPS};

    #[test]
    fn who_was_answered_is_waited_for() {
        let mut gather = Gather::default();
        assert!(gather.is_whole());
        gather.answers(3);
        gather.asks();
        assert!(!gather.is_whole());
        (0..3).for_each(|_| gather.asks());
        assert!(gather.is_whole());
        gather.writes();
        gather.answers(1);
        assert!(!gather.is_whole());
    }

    #[test]
    fn who_doesnt_ask_again_is_waited_for_less_and_less() {
        let mut gather = Gather::default();
        let mut waits = 0;
        for _ in 0..10_000 {
            gather.answers(2);
            gather.asks();
            waits += u32::from(!gather.is_whole());
            gather.writes();
        }
        assert!((5..=5 + 10_000 / MOST_SKIPS).contains(&waits), "{waits}");
        // and at once again where they do
        for _ in 0..=MOST_SKIPS {
            gather.answers(1);
            gather.asks();
            gather.writes();
        }
        gather.answers(1);
        assert!(!gather.is_whole());
    }
}

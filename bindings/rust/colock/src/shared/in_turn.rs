//! Which thread is in a turn of a store, so that what it asks there beside the turn is refused, where it would wait for
//! itself.

use crate::locks::locked;
use crate::shared::transaction::Unended;
use std::cell::Cell;
use std::mem;
use std::ptr;
use std::sync::atomic::{AtomicBool, AtomicUsize, Ordering};
use std::sync::Mutex;

/// Of no thread.
const NOBODY: usize = 0;

/// The thread that is in a turn of a store, and the transactions that it dropped there.
///
/// A thread looks for its own mark only, which nobody else writes. So no order with other threads is needed.
#[derive(Debug, Default)]
pub(crate) struct InTurn {
    thread: AtomicUsize,
    has_dropped: AtomicBool,
    dropped: Mutex<Vec<Unended>>,
    left: Mutex<Left>,
}

/// What other threads drop while the lock is kept by turns over a child, which may wait there for the disk.
#[derive(Debug, Default)]
struct Left {
    /// How many such turns there are.
    turns: u64,
    unended: Vec<Unended>,
}

/// What no other thread has that runs: the address of something of its own.
#[inline]
fn mark() -> usize {
    thread_local! {
        static MARK: Cell<u8> = const { Cell::new(0) };
    }
    MARK.with(|mark| ptr::from_ref(mark).addr())
}

impl InTurn {
    /// Whether this thread is in a turn.
    #[inline]
    pub(crate) fn is_here(&self) -> bool {
        self.thread.load(Ordering::Relaxed) == mark()
    }

    /// This thread, which has the lock, is in a turn.
    #[inline]
    pub(crate) fn begins(&self) {
        self.thread.store(mark(), Ordering::Relaxed);
    }

    /// The turn of this thread is over. The lock is to be given up after that.
    #[inline]
    pub(crate) fn ends(&self) {
        self.thread.store(NOBODY, Ordering::Relaxed);
    }

    /// A transaction is dropped in the turn of this thread.
    pub(crate) fn drops(&self, unended: Unended) {
        let mut dropped = locked(&self.dropped);
        dropped.push(unended);
        self.has_dropped.store(true, Ordering::Relaxed);
    }

    /// Whether something was dropped in a turn of this thread.
    #[inline]
    pub(crate) fn has_dropped(&self) -> bool {
        self.has_dropped.load(Ordering::Relaxed)
    }

    /// A turn over a child begins, and keeps the lock.
    pub(crate) fn keeps(&self) {
        locked(&self.left).turns += 1;
    }

    /// A turn over a child is about to give the lock back; what was left to it.
    pub(crate) fn keeps_no_more(&self) -> Vec<Unended> {
        let mut left = locked(&self.left);
        left.turns -= 1;
        mem::take(&mut left.unended)
    }

    /// Leaves a transaction to a turn that keeps the lock. It comes back where none does.
    pub(crate) fn leave(&self, unended: Unended) -> Option<Unended> {
        let mut left = locked(&self.left);
        if left.turns == 0 {
            return Some(unended);
        }
        left.unended.push(unended);
        None
    }

    /// What was dropped in a turn that is over.
    pub(crate) fn dropped(&self) -> Vec<Unended> {
        let mut dropped = locked(&self.dropped);
        self.has_dropped.store(false, Ordering::Relaxed);
        mem::take(&mut dropped)
    }
}

#[cfg(test)]
mod tests {
    use super::InTurn;
    use std::thread;

    #[test]
    fn a_turn_is_one_threads() {
        let in_turn = InTurn::default();
        assert!(!in_turn.is_here());
        in_turn.begins();
        let is_elsewhere = thread::scope(|scope| scope.spawn(|| in_turn.is_here()).join().unwrap());
        assert!(in_turn.is_here() && !is_elsewhere);
        in_turn.ends();
        assert!(!in_turn.is_here() && !in_turn.has_dropped());
    }
}

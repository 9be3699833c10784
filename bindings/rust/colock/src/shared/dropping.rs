//! What becomes of transactions that are dropped. Who drops one waits neither for an answer of a child nor for the disk.

use crate::locks::tried;
use crate::shared::commits::abort_at_once;
use crate::shared::state::State;
use crate::shared::transaction::{Holder, SharedTransaction, Unended};
use crate::shared::SharedStore;
use std::thread;

impl SharedStore {
    /// Aborts a transaction that was dropped; where it is dropped in a turn, or while a turn over a child keeps the lock, at
    /// the end of that turn.
    pub(crate) fn abort_unended(&self, mut unended: Unended) {
        if self.in_turn.is_here() {
            return self.in_turn.drops(unended);
        }
        if self.may_enter().is_err() {
            return;
        }
        loop {
            let guard = if self.remote().is_some() { tried(self.mutex()) } else { Some(self.lock()) };
            if let Some(mut guard) = guard {
                self.abort_with(&mut guard, &unended);
                return self.leave(guard);
            }
            match self.in_turn.leave(unended) {
                None => return,
                Some(back) => unended = back,
            }
            // whoever has the lock, but in a turn, has it for a moment
            thread::yield_now();
        }
    }

    fn abort_with(&self, state: &mut State, unended: &Unended) {
        if self.is_closed() {
            return;
        }
        match unended.ticket() {
            Ok(ticket) => abort_at_once(state, ticket),
            Err(age) => self.drop_unbegun(state, age),
        }
    }

    /// Aborts what was left to a turn over a child, which is about to give the lock back.
    #[inline]
    pub(crate) fn abort_left(&self, state: &mut State) {
        if self.remote().is_some() {
            self.in_turn.keeps_no_more().iter().for_each(|unended| self.abort_with(state, unended));
        }
    }

    /// Aborts what was left to a turn over a child that couldn't begin.
    pub(crate) fn abort_left_to_none(&self) {
        self.in_turn.keeps_no_more().into_iter().for_each(|unended| self.abort_unended(unended));
    }

    /// Aborts what was dropped in a turn that is over.
    #[cold]
    pub(crate) fn abort_dropped(&self) {
        for unended in self.in_turn.dropped() {
            drop(SharedTransaction::unended(Holder::Borrows(self), unended));
        }
    }
}

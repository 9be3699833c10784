//! Transactions that are prepared over a child.
//!
//! The child holds the gate. What the client knows of it is for those that wait: whose end a decision is. It knows the transactions
//! that it prepared itself, from where that was asked on. One of an earlier opening may hold anything, as far as it knows, so that a
//! decision about one has everybody look again.

use crate::error::Error;
use crate::key::Key;
use crate::memory::keys::Preparation;
use crate::prepared::{Decision, Prepared};
use crate::shared::commits::counts_as_ended;
use crate::shared::state::{State, Ticket};
use crate::shared::{Guard, Lock, SharedStore};
use crate::transaction_id::TransactionId;
use crate::wire::child::ok;
use crate::wire::remote::Remote;
use crate::wire::request::{prepared, Request};
use std::collections::BTreeMap;
use std::sync::atomic::Ordering;

/// A transaction that is prepared under a key, or is asked to be.
#[derive(Debug)]
struct Preparing {
    ticket: Ticket,
    /// Whether it was looked at what was answered.
    is_answered: bool,
    /// How it was decided, where that was seen before.
    decided: Option<Decision>,
}

/// The transactions of this client that are prepared, or are asked to be, by their keys.
#[derive(Debug, Default)]
pub(crate) struct PreparedHere(BTreeMap<Box<str>, Preparing>);

impl SharedStore {
    /// Has a child prepare a transaction. It is known as prepared from here on, unless that is refused: a decision may be answered
    /// before the client comes to look at the answer to this.
    pub(crate) fn prepare_by_child(&self, mut guard: Guard<'_>, key: Key<'_>, preparation: &Preparation) -> Result<(), Error> {
        let Preparation { ticket, until, .. } = *preparation;
        guard.can_be_open(ticket)?;
        let is_first = guard.remote_state()?.prepared.asks(key, ticket);
        let (mut guard, told) = self.ask(guard, Request::Prepare(ticket.id, key, until), Lock::GivenUp);
        let told = told.and_then(|text| self.done(&text));
        let decided = guard.remote_state().ok().filter(|_| is_first).and_then(|remote_state| remote_state.prepared.is_answered(key, told.is_ok()));
        if let Some(decision) = decided {
            self.counts_decision(&mut guard, ticket, decision);
        }
        guard.sees_answer(ticket, &told);
        told
    }

    /// Has a child decide how the transaction of a key ends.
    pub(crate) fn decide_by_child(&self, remote: &Remote, mut guard: Guard<'_>, key: Key<'_>, decision: Decision) -> Result<(), Error> {
        // what this client prepares later under the key isn't meant
        let meant = guard.remote_state()?.prepared.under(key.as_str());
        let (mut guard, told) = self.ask(guard, Request::Decide(key, decision), Lock::GivenUp);
        ok(&remote.link, &told?)?;
        match guard.remote_state().ok().and_then(|remote_state| remote_state.prepared.is_decided(key, meant, decision)) {
            Some(ticket) => self.counts_decision(&mut guard, ticket, decision),
            None => guard.all_let_go(),
        }
        Ok(())
    }

    /// A decision ended a transaction of this client.
    fn counts_decision(&self, state: &mut State, ticket: Ticket, decision: Decision) {
        if let (Some(remote), Decision::Commit) = (self.remote(), decision) {
            remote.commits.fetch_add(1, Ordering::Relaxed);
        }
        counts_as_ended(state, ticket, decision == Decision::Abort);
    }

    /// What is prepared over a child.
    pub(crate) fn prepared_over_child(&self, remote: &Remote) -> Result<Vec<Prepared>, Error> {
        let text = self.asked(remote, Request::Prepared)?;
        text.lines().map(|line| prepared(line).ok_or_else(|| remote.link.broken(line))).collect()
    }
}

impl PreparedHere {
    /// Which transaction is prepared under a key, or is asked to be.
    pub(crate) fn under(&self, key: &str) -> Option<TransactionId> {
        self.0.get(key).map(|preparing| preparing.ticket.id)
    }

    /// It is asked that a transaction is prepared under a key. Whether no other one was.
    fn asks(&mut self, key: Key<'_>, ticket: Ticket) -> bool {
        let is_first = !self.0.contains_key(key.as_str());
        if is_first {
            self.0.insert(Box::from(key.as_str()), Preparing { ticket, is_answered: false, decided: None });
        }
        is_first
    }

    /// It was answered whether it is prepared. How it was decided, where another thread looked at that answer before.
    fn is_answered(&mut self, key: Key<'_>, is_prepared: bool) -> Option<Decision> {
        let preparing = self.0.get_mut(key.as_str())?;
        preparing.is_answered = true;
        let decided = preparing.decided;
        if !is_prepared || decided.is_some() {
            self.0.remove(key.as_str());
        }
        decided.filter(|_| is_prepared)
    }

    /// A decision was answered: the transaction that it ended, where that was the one that was meant. Where nobody looked yet whether it
    /// is prepared, the decision may be of another one, and is kept till then.
    fn is_decided(&mut self, key: Key<'_>, meant: Option<TransactionId>, decision: Decision) -> Option<Ticket> {
        let preparing = self.0.get_mut(key.as_str()).filter(|preparing| Some(preparing.ticket.id) == meant)?;
        if !preparing.is_answered {
            preparing.decided = Some(decision);
            return None;
        }
        self.0.remove(key.as_str()).map(|preparing| preparing.ticket)
    }
}

#[cfg(test)]
mod tests {
    use super::PreparedHere;
    use crate::key::Key;
    use crate::prepared::Decision;
    use crate::shared::state::Ticket;
    use crate::transaction_id::TransactionId;

    #[test]
    fn a_decision_that_is_seen_first_ends_what_is_prepared() {
        let (key, ticket) = (Key::of("a").unwrap(), Ticket::new(TransactionId::new(1, 2), 3, 0));
        for (is_prepared, decision) in [(true, Decision::Commit), (true, Decision::Abort), (false, Decision::Abort)] {
            let mut here = PreparedHere::default();
            assert!(here.asks(key, ticket) && !here.asks(key, ticket));
            let meant = here.under("a");
            assert_eq!(meant, Some(ticket.id));
            assert!(here.is_decided(key, meant, decision).is_none() && here.under("a") == meant);
            // one that wasn't prepared is open as before, and nobody's decision ended it
            assert_eq!(here.is_answered(key, is_prepared), is_prepared.then_some(decision));
            assert_eq!(here.under("a"), None);
        }
    }

    #[test]
    fn a_decision_ends_the_one_that_was_meant() {
        let (key, ticket) = (Key::of("a").unwrap(), Ticket::new(TransactionId::new(1, 2), 3, 0));
        let mut here = PreparedHere::default();
        assert!(here.asks(key, ticket) && here.is_answered(key, true).is_none());
        assert!(here.is_decided(key, None, Decision::Commit).is_none() && here.under("a") == Some(ticket.id));
        let ended = here.is_decided(key, Some(ticket.id), Decision::Commit);
        assert_eq!((ended.map(|ticket| ticket.id), here.under("a")), (Some(ticket.id), None));
    }
}

//! Transactions that are dropped over a child before they are known to have begun. Who drops one waits for nothing: the abort
//! goes with the begin, or where that was written before, with what is asked when it is answered.

use crate::error::Error;
use crate::shared::commits::{abort_at_once, counts_as_ended};
use crate::shared::state::{State, Ticket};
use crate::shared::SharedStore;
use crate::transaction_id::TransactionId;
use crate::wire::beginning::{Both, Sent};
use crate::wire::remote::Remote;
use crate::wire::remote::RemoteState;
use crate::wire::request::Request;
use std::mem;

/// A begin whose transaction was dropped.
#[derive(Debug)]
pub(crate) struct Dropped {
    age: u64,
    begin: Sent,
    /// The name by which its abort was written.
    aborted: Option<TransactionId>,
}

impl Dropped {
    /// One that is to be aborted when its name is known.
    fn unnamed(age: u64, begin: Sent) -> Dropped {
        Dropped { age, begin, aborted: None }
    }

    fn ticket(&self, id: TransactionId) -> Ticket {
        Ticket::new(id, self.age, 0)
    }
}

impl RemoteState {
    /// Writes the abort of a transaction that isn't known to have begun. Where its begin was refused there is none.
    fn send_dropped(&mut self, age: u64) -> Result<Option<Dropped>, Error> {
        if let Some(begin) = self.begins.taken(age) {
            return Ok(Some(Dropped::unnamed(age, begin)));
        }
        if !self.begins.let_go(age) {
            return Ok(None);
        }
        Ok(Some(match self.send_both(age, Request::Abort)? {
            Some(Both { begin, foretold, .. }) => Dropped { age, begin, aborted: Some(foretold) },
            None => Dropped::unnamed(age, self.send_begin()?),
        }))
    }

    /// Takes out those whose begin is answered, each with that.
    fn answered(&mut self) -> Vec<(Dropped, Result<String, Error>)> {
        if self.dropped.is_empty() {
            return Vec::new();
        }
        let mut answered = Vec::new();
        for dropped in mem::take(&mut self.dropped) {
            match dropped.begin.slot.answer_now() {
                Some(told) => answered.push((dropped, told)),
                None => self.dropped.push(dropped),
            }
        }
        answered
    }
}

impl SharedStore {
    /// Aborts a transaction that is dropped before it is known to have begun.
    pub(crate) fn drop_unbegun(&self, guard: &mut State, age: u64) {
        let dropped = guard.remote_state().and_then(|remote_state| remote_state.send_dropped(age));
        if let Ok(Some(dropped)) = dropped {
            if let Some(foretold) = dropped.aborted {
                counts_as_ended(guard, dropped.ticket(foretold), true);
            }
            if let Ok(remote_state) = guard.remote_state() {
                remote_state.dropped.push(dropped);
            }
        }
        self.settle_dropped(guard);
    }

    /// Aborts those that were dropped and are known to have begun by now.
    #[inline]
    pub(crate) fn settle_dropped(&self, guard: &mut State) {
        let Some(remote) = self.remote() else { return };
        let answered = guard.remote_state().map(RemoteState::answered).unwrap_or_default();
        answered.into_iter().for_each(|(dropped, told)| begun_in_vain(remote, guard, &dropped, told));
    }
}

/// The begin of a transaction that was dropped is answered.
fn begun_in_vain(remote: &Remote, state: &mut State, dropped: &Dropped, told: Result<String, Error>) {
    let begun = told.and_then(|text| state.sees_begin(remote, dropped.begin.place, &text));
    let id = begun.ok().flatten();
    // the abort by a foretold name was nobody's where it began by another one, or not at all
    state.stats.aborts -= u64::from(dropped.aborted.is_some() && dropped.aborted != id);
    match (id, state.remote_state()) {
        (Some(id), Ok(remote_state)) if dropped.aborted == Some(id) => remote_state.ends(dropped.ticket(id)),
        (Some(id), _) => abort_at_once(state, dropped.ticket(id)),
        (None, _) => {}
    }
}

//! How the transactions of a shared store take operations back, commit and abort.

use crate::error::Error;
use crate::shared::calling::of_open;
use crate::shared::state::{resumed, Held, State, Ticket};
use crate::shared::{Guard, Guarded, Lock, SharedStore};
use crate::wire::child::ok;
use crate::wire::remote::Remote;
use crate::wire::request::{Commits, Request};
use colock_waiting::Touched;
use std::mem::ManuallyDrop;
use std::sync::atomic::Ordering;

/// When a child gets the end of a transaction.
#[derive(Clone, Copy, Debug, PartialEq, Eq)]
pub(crate) enum When {
    /// Before what is asked later.
    InOrder,
    /// What others ask meanwhile may come before it.
    OthersFirst,
}

/// What a child answers to the end of a transaction.
pub(crate) struct EndTold {
    pub(crate) text: String,
    /// Whether it is known that another transaction was done under its key.
    pub(crate) was_done: bool,
}

impl SharedStore {
    /// Takes back the last operations of a transaction, and wakes who waits for it or where it executed something.
    pub(crate) fn take_back<'s>(&'s self, mut guard: Guard<'s>, ticket: Ticket, operations: u64, lock: Lock) -> Guarded<'s, ()> {
        if let Err(error) = guard.can_be_open(ticket) {
            return (guard, Err(error));
        }
        if let Held::Memory(store) = &guard.held {
            let done = resumed(store, ticket.worker, ticket.id.number).rollback(operations);
            guard.took_back(ticket);
            return (guard, done);
        }
        let Ok(count) = u32::try_from(operations) else {
            return (guard, Err(Error::BadRollback));
        };
        if let Ok(remote_state) = guard.remote_state() {
            remote_state.takes_back(ticket);
        }
        // what they ask next comes after this request
        guard.took_back(ticket);
        let (mut guard, text) = self.ask(guard, Request::Rollback(ticket.id, count), lock);
        let told = text.and_then(|text| self.done(&text));
        guard.sees_answer(ticket, &told);
        (guard, told)
    }

    /// Whether something was done.
    pub(crate) fn done(&self, text: &str) -> Result<(), Error> {
        match self.remote() {
            Some(remote) => ok(&remote.link, text).map(drop).map_err(of_open),
            None => Ok(()),
        }
    }

    /// Commits a transaction. Over a child that is awaited outside the lock.
    #[inline]
    pub(crate) fn commit(&self, mut guard: Guard<'_>, ticket: Ticket, when: When) -> Result<(), Error> {
        match self.remote() {
            None => commit_in_memory(&mut guard, ticket),
            Some(remote) => self.end_remote(remote, guard, ticket, Request::Commit(ticket.id), when),
        }
    }

    /// Aborts a transaction.
    pub(crate) fn abort(&self, mut guard: Guard<'_>, ticket: Ticket) -> Result<(), Error> {
        match self.remote() {
            None => abort_in_memory(&mut guard, ticket),
            Some(remote) => self.end_remote(remote, guard, ticket, Request::Abort(ticket.id), When::InOrder),
        }
    }

    /// Has a child end a transaction.
    fn end_remote(&self, remote: &Remote, guard: Guard<'_>, ticket: Ticket, request: Request<'_>, when: When) -> Result<(), Error> {
        guard.can_be_open(ticket)?;
        let told = self.end_by_child(remote, guard, ticket, request, when)?;
        let (is_commit, done) = (request.commits() != Commits::Nothing, self.done(&told.text));
        if let Err(Error::EpochEnded) = done {
            self.lock().epoch_ended(is_commit); // an abort was counted when it was asked for
        }
        done?;
        remote.commits.fetch_add(u64::from(is_commit), Ordering::Relaxed);
        Ok(())
    }

    /// Asks a child for the end of a transaction. As soon as it is asked for it counts as ended: the child takes the
    /// lines in their order, and who was let go first and is kept out looks again. One that an epoch aborted has ended before.
    pub(crate) fn end_by_child(&self, remote: &Remote, mut guard: Guard<'_>, ticket: Ticket, request: Request<'_>, when: When) -> Result<EndTold, Error> {
        let is_abort = request.commits() == Commits::Nothing;
        // who waits is woken now, and is to find that it has ended
        let goes_last = when == When::OthersFirst && guard.waiters.is_empty();
        let slot = if goes_last { guard.remote_state()?.send_last(request)? } else { guard.send(request)? };
        let underway = if goes_last { ticket.touched } else { Touched::default() };
        remote.underway.starts(underway);
        if guard.can_be_open(ticket).is_ok() {
            counts_as_ended(&mut guard, ticket, is_abort);
        }
        drop(guard);
        let told = remote.link.answered(&slot);
        remote.underway.is_answered(underway);
        if told.is_err() {
            self.lock().lost();
        }
        Ok(EndTold { text: told?, was_done: slot.was_done() })
    }
}

/// Aborts a transaction, where nobody asks whether that succeeds: it fails only where it has ended, or the child is lost.
pub(crate) fn abort_at_once(state: &mut State, ticket: Ticket) {
    if state.can_be_open(ticket).is_err() {
        return;
    }
    match &mut state.held {
        Held::Memory(_) => {
            let _ = abort_in_memory(state, ticket);
        }
        Held::Remote(remote_state) => {
            if remote_state.send(Request::Abort(ticket.id)).is_ok() {
                counts_as_ended(state, ticket, true);
            }
        }
    }
}

/// The end of a transaction was asked of a child.
pub(crate) fn counts_as_ended(state: &mut State, ticket: Ticket, is_abort: bool) {
    if let Ok(remote_state) = state.remote_state() {
        remote_state.ends(ticket);
    }
    state.stats.aborts += u64::from(is_abort);
    state.ended(ticket);
}

/// Commits a transaction in memory.
#[inline]
pub(crate) fn commit_in_memory(state: &mut State, ticket: Ticket) -> Result<(), Error> {
    state.can_be_open(ticket)?;
    ManuallyDrop::into_inner(resumed(state.memory()?, ticket.worker, ticket.id.number)).commit()?;
    state.stats.commits += 1;
    state.ended(ticket);
    Ok(())
}

pub(crate) fn abort_in_memory(state: &mut State, ticket: Ticket) -> Result<(), Error> {
    state.can_be_open(ticket)?;
    ManuallyDrop::into_inner(resumed(state.memory()?, ticket.worker, ticket.id.number)).abort()?;
    state.stats.aborts += 1;
    state.ended(ticket);
    Ok(())
}

//! A store behind a child: what is beside the lock of its store, and what is under it.

use crate::error::Error;
use crate::shared::state::Ticket;
use crate::shared::{Guard, Guarded, Lock, SharedStore};
use crate::transaction_id::TransactionId;
use crate::wait::touched::{LetGo, Underway};
use crate::wire::beginning::Begins;
use crate::wire::child::{listed, ok, Conversation, Link};
use crate::wire::dropped::Dropped;
use crate::wire::ending::FileId;
use crate::wire::extending::Extending;
use crate::wire::past::Past;
use crate::wire::prepared::PreparedHere;
use crate::wire::request::Request;
use crate::wire::slot::Slot;
use std::collections::BTreeMap;
use std::sync::atomic::AtomicU64;
use std::sync::Arc;

/// A store behind a child: what isn't under its lock.
pub(crate) struct Remote {
    pub(crate) link: Arc<Link>,
    pub(crate) past: Past,
    /// Its file, where that is known.
    pub(crate) file: Option<FileId>,
    pub(crate) commits: AtomicU64,
    /// The commits that may come after what is asked later.
    pub(crate) underway: Underway,
    /// How it gets more objects.
    pub(crate) extending: Extending,
}

impl Remote {
    pub(crate) fn new(link: Arc<Link>, past: Past, file: Option<FileId>, extending: Extending) -> Remote {
        Remote { link, past, file, commits: AtomicU64::new(0), underway: Underway::new(), extending }
    }

    /// Since when what others let go may be missing in an answer about an object that is asked for now: from this moment
    /// on, or from the first one where a commit is underway there.
    pub(crate) fn since(&self, remote_state: &RemoteState, object: u32) -> u64 {
        if self.underway.is_at(object) {
            0
        } else {
            remote_state.let_go.moment()
        }
    }
}

/// What is under the lock of a store behind a child: what the client knows of it.
#[derive(Debug)]
pub(crate) struct RemoteState {
    pub(crate) conversation: Conversation,
    pub(crate) begins: Begins,
    pub(crate) dropped: Vec<Dropped>,
    /// The life with which it greeted.
    first_life: u64,
    /// Who is open, of whatever life, as far as is known, and the last moment at which operations were taken back.
    pub(crate) open: BTreeMap<TransactionId, u64>,
    /// When transactions let go.
    pub(crate) let_go: LetGo,
    pub(crate) prepared: PreparedHere,
}

impl RemoteState {
    pub(crate) fn new(conversation: Conversation, first_life: u64) -> RemoteState {
        let (open, prepared) = (BTreeMap::new(), PreparedHere::default());
        RemoteState { conversation, begins: Begins::default(), dropped: Vec::new(), first_life, open, let_go: LetGo::new(), prepared }
    }

    /// How many are open.
    pub(crate) fn open_count(&self) -> usize {
        self.open.len()
    }

    /// Whether a blocker in an answer about an object may have let go since a moment, or another one that touched it. One of
    /// an earlier opening is prepared, and a decision lets go at all that it holds.
    pub(crate) fn has_let_go(&self, blocker: TransactionId, object: u32, since: u64) -> bool {
        let is_own = blocker.life >= self.first_life;
        let has_ended = || is_own && self.open.get(&blocker).is_none_or(|moment| *moment > since);
        self.let_go.is_after(object, since) || has_ended()
    }

    /// A transaction takes operations back.
    pub(crate) fn takes_back(&mut self, ticket: Ticket) {
        self.let_go.lets_go(ticket.touched);
        if let Some(moment) = self.open.get_mut(&ticket.id) {
            *moment = self.let_go.moment();
        }
    }

    /// The end of a transaction was asked for.
    pub(crate) fn ends(&mut self, ticket: Ticket) {
        self.let_go.lets_go(ticket.touched);
        self.open.remove(&ticket.id);
    }
}

/// What a child counts: events of the present epoch, and transactions that are open.
pub(crate) struct Counts {
    pub(crate) events: u64,
    pub(crate) open: u64,
}

impl SharedStore {
    /// Asks a child, and has the lock again after the answer.
    pub(crate) fn ask<'s>(&'s self, mut guard: Guard<'s>, request: Request<'_>, lock: Lock) -> Guarded<'s, String> {
        self.settle_dropped(&mut guard);
        match guard.send(request) {
            Ok(slot) => self.awaited(guard, &slot, lock),
            Err(error) => (guard, Err(error)),
        }
    }

    /// Waits for an answer of a child, and has the lock again after it.
    pub(crate) fn awaited<'s>(&'s self, guard: Guard<'s>, slot: &Slot, lock: Lock) -> Guarded<'s, String> {
        let Some(remote) = self.remote() else {
            return (guard, Err(Error::NotOpen));
        };
        if lock == Lock::Kept {
            let told = remote.link.answered(slot);
            return (guard, told);
        }
        drop(guard);
        let told = remote.link.answered(slot);
        let mut guard = self.lock();
        if told.is_err() {
            guard.lost();
        }
        (guard, told)
    }

    /// The answer to a question that isn't one of a transaction.
    pub(crate) fn asked(&self, remote: &Remote, request: Request<'_>) -> Result<String, Error> {
        let (guard, told) = self.ask(self.enter()?, request, Lock::GivenUp);
        drop(guard);
        let text = told?;
        if request.is_list() {
            return listed(&remote.link, &text).map(str::to_string);
        }
        ok(&remote.link, &text).map(str::to_string)
    }

    /// What a child counts.
    pub(crate) fn counts(&self, remote: &Remote) -> Result<Counts, Error> {
        let text = self.asked(remote, Request::Stats)?;
        let words: Vec<&str> = text.split(' ').collect();
        let number = |word: &str| word.parse::<u64>().map_err(|_| remote.link.broken(&text));
        match words[..] {
            ["events", events, "begun", _, "open", open] | ["events", events, "begun", _, "open", open, "prepared", _] => {
                Ok(Counts { events: number(events)?, open: number(open)? })
            }
            _ => Err(remote.link.broken(&text)),
        }
    }
}

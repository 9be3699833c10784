//! What is done once, under keys, and what became of them.

use crate::asked::Asked;
use crate::attempt::{Attempt, Came};
use crate::error::Error;
use crate::key::{Doer, Key, KeyOutcome};
use crate::object::ObjectRef;
use crate::shared::commits::{abort_at_once, commit_in_memory, When};
use crate::shared::state::Ticket;
use crate::shared::{Guard, Lock, SharedStore};
use crate::wire::claims::Claim;
use crate::wire::remote::Remote;
use crate::wire::request::{answer, outcome, Answer, Request};
use std::sync::atomic::Ordering;
use std::sync::Arc;

impl SharedStore {
    /// As [`SharedStore::attempt`], and done once: where a transaction committed before under this key, nothing is done, and the
    /// operations are these calls with the replies of the first time. So it is asked again where its answer was lost, as by
    /// [`Error::AttemptUnknown`], with the file open again.
    ///
    /// A key is 1 to 64 bytes of `a-z`, `A-Z`, `0-9`, `_`, `:`, `-` and `.`, which the caller chose for this work. Where a call ends it
    /// nothing is done, and the key is free. An attempt of no calls is a transaction that does nothing, which commits under the key.
    ///
    /// It is asked again while fewer outcomes came since than [stay at least](crate::OpenOptions::outcomes). Later the key may be unknown,
    /// and the work is done again.
    ///
    /// ```
    /// use colock::{Attempt, Error, Kind, SharedStore, Type};
    ///
    /// let store = SharedStore::new([("purse", &Type::account(9, &[1, 5], Kind::Undo)?)], 1_000)?;
    /// let pay = || store.attempt_under("order:4711", [("purse", "deposit:5"), ("purse", "balance")]);
    /// let paid = pay()?.executed()?;
    /// assert_eq!((pay()?, paid[1].to_string(), store.kept("purse")?), (Attempt::Done(paid), "balance 5".into(), 5));
    /// let other = store.attempt_under("order:4711", [("purse", "withdraw:1")]);
    /// assert_eq!((other, store.kept("purse")?), (Err(Error::OtherCalls), 5));
    /// # Ok::<(), Error>(())
    /// ```
    ///
    /// # Errors
    ///
    /// [`Error::BadKey`], by which nothing is asked. [`Error::OtherCalls`] where what committed under the key has another number of
    /// replies, or one that the call at its place hasn't: a commit has none. [`Error::KeyPrepared`], [`Error::KeyAborted`] or
    /// [`Error::KeyTaken`]. Else as of [`SharedStore::attempt`].
    pub fn attempt_under(&self, key: impl AsRef<str>, calls: impl IntoIterator<Item = (impl ObjectRef, impl AsRef<str>)>) -> Result<Attempt, Error> {
        let key = Key::of(key.as_ref())?;
        let asked = Asked::of(calls, |object| self.number_of(object));
        Came::of(asked, self.objects(), |asked| self.tried_under(key, asked))
    }

    fn tried_under(&self, key: Key<'_>, asked: &Asked) -> Result<Came, Error> {
        match self.remote() {
            None => self.tried_in_memory_under(key, asked),
            Some(remote) => Ok(self.tried_by_child(remote, asked, Some(key))?.came_alone()),
        }
    }

    fn tried_in_memory_under(&self, key: Key<'_>, asked: &Asked) -> Result<Came, Error> {
        let mut guard = self.enter()?;
        if let Some(known) = guard.keys.replies(key).transpose() {
            return self.done_before(asked, known);
        }
        let came = guard.memory()?.attempt_in_numbers(0, asked)?;
        if let Came::Done(operations) = &came {
            // what has no words is an error of whoever asks for them
            let replies = asked.replies(operations, self.objects()).unwrap_or_default();
            guard.keys.keep(key, replies);
        }
        guard.has_tried(asked, &came);
        Ok(came)
    }

    /// What came of an attempt of these calls under a key whose transaction had these replies, or by which nothing is done.
    fn done_before(&self, asked: &Asked, known: Result<&str, Error>) -> Result<Came, Error> {
        match asked.numbers(self.objects()) {
            Ok(calls) => Came::of_replies(asked, &calls, known?, self.objects()).ok_or(Error::OtherCalls),
            Err(unasked) => unasked.ended(),
        }
    }

    /// Commits a transaction that did nothing under a key, in the place of an attempt of no calls.
    pub(crate) fn commit_nothing_under(&self, key: Key<'_>) -> Result<(), Error> {
        self.begin()?.committed_under(key)?;
        // the answer is the same where the key is of calls
        match self.outcome_of(key)? {
            KeyOutcome::Committed { replies } if !replies.is_empty() => Err(Error::OtherCalls),
            _ => Ok(()),
        }
    }

    /// What became of the transaction of this key, of whatever life or epoch. In a file what it says is durable. At least the last
    /// 1,000,000 outcomes stay, or as many as [`OpenOptions::outcomes`](crate::OpenOptions::outcomes) or [`Limits`](crate::Limits) say, and
    /// what is prepared. An older key may be [`KeyOutcome::Unknown`].
    ///
    /// It doesn't wait for what is asked under the key at the same moment.
    ///
    /// ```
    /// use colock::{Error, Kind, KeyOutcome, SharedStore, Type};
    ///
    /// let store = SharedStore::new([&Type::counter(5, &[1], Kind::Undo)?], 100)?;
    /// assert_eq!(store.outcome("order:1")?, KeyOutcome::Unknown);
    /// let _done = store.attempt_under("order:1", [(0, "inc:1")])?.executed()?;
    /// assert_eq!(store.outcome("order:1")?, KeyOutcome::Committed { replies: vec!["ok".into()] });
    /// assert_eq!(store.outcome("order/1"), Err(Error::BadKey("order/1".into())));
    /// # Ok::<(), Error>(())
    /// ```
    ///
    /// # Errors
    ///
    /// [`Error::BadKey`], and over a child [`Error::ConnectionLost`].
    pub fn outcome(&self, key: impl AsRef<str>) -> Result<KeyOutcome, Error> {
        self.outcome_of(Key::of(key.as_ref())?)
    }

    pub(crate) fn outcome_of(&self, key: Key<'_>) -> Result<KeyOutcome, Error> {
        let guard = self.enter()?;
        let Some(remote) = self.remote() else {
            return Ok(guard.keys.outcome(key));
        };
        let (guard, told) = self.ask(guard, Request::Outcome(key), Lock::GivenUp);
        drop(guard);
        let text = told?;
        match (outcome(&text), answer(&text)) {
            (Some(outcome), _) => Ok(outcome),
            (None, Some(Answer::Refused(error))) => Err(error),
            (None, _) => Err(remote.link.broken(&text)),
        }
    }

    /// The replies of the key's transaction, where it committed.
    pub(crate) fn replies_under(&self, key: Key<'_>) -> Result<Option<Vec<String>>, Error> {
        match self.outcome_of(key)? {
            KeyOutcome::Unknown => Ok(None),
            KeyOutcome::Committed { replies } => Ok(Some(replies)),
            KeyOutcome::Aborted => Err(Error::KeyAborted),
            KeyOutcome::Prepared => Err(Error::KeyPrepared),
        }
    }

    /// What who asks for a key's outcome has from before that on, so that it is known then whose commit is the first.
    pub(crate) fn claim(&self, key: Key<'_>) -> Result<Option<Arc<Claim>>, Error> {
        let mut guard = self.enter()?;
        match self.remote() {
            None => Ok(None),
            Some(_) => Ok(Some(guard.remote_state()?.conversation.claim(key))),
        }
    }

    /// Commits a transaction under a key. Over a child that is awaited outside the lock.
    pub(crate) fn commit_under(&self, guard: Guard<'_>, ticket: Ticket, key: Key<'_>) -> Result<Doer, Error> {
        match self.remote() {
            None => commit_in_memory_under(guard, ticket, key),
            Some(remote) => self.commit_by_child_under(remote, guard, ticket, key),
        }
    }

    /// One that the end of an epoch aborted is asked for too: the key may be known.
    fn commit_by_child_under(&self, remote: &Remote, guard: Guard<'_>, ticket: Ticket, key: Key<'_>) -> Result<Doer, Error> {
        let is_over = guard.can_be_open(ticket).is_err();
        let told = self.end_by_child(remote, guard, ticket, Request::CommitUnder(ticket.id, key), When::OthersFirst)?;
        if let Err(error) = self.done(&told.text) {
            if !is_over {
                self.refused_under(ticket, &error);
            }
            return Err(error);
        }
        if is_over || told.was_done {
            // it was counted before, or was aborted by this answer
            self.lock().stats.aborts += u64::from(!is_over);
            return Ok(Doer::Another);
        }
        remote.commits.fetch_add(1, Ordering::Relaxed);
        Ok(Doer::This)
    }

    /// A child refused the commit of a transaction under a key, which counts as ended here. Where it is open there, it is aborted.
    fn refused_under(&self, ticket: Ticket, error: &Error) {
        let mut guard = self.lock();
        match error {
            Error::EpochEnded => guard.epoch_ended(true),
            Error::ConnectionLost(_) => {}
            _ => {
                guard.began(ticket.id); // it is open again
                abort_at_once(&mut guard, ticket);
                self.leave(guard);
            }
        }
    }
}

fn commit_in_memory_under(mut guard: Guard<'_>, ticket: Ticket, key: Key<'_>) -> Result<Doer, Error> {
    match guard.keys.replies(key) {
        Ok(None) => {}
        known => {
            let told = known.map(|_| Doer::Another);
            abort_at_once(&mut guard, ticket);
            return told;
        }
    }
    commit_in_memory(&mut guard, ticket)?;
    guard.keys.keep(key, String::new());
    Ok(Doer::This)
}

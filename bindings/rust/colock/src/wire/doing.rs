//! Whole transactions over a child, each in one line.

use crate::asked::Asked;
use crate::attempt::{Came, Ending};
use crate::error::Error;
use crate::few::Few;
use crate::key::Key;
use crate::operation_id::OperationId;
use crate::shared::attempts::Tried;
use crate::shared::{Guard, Lock, SharedStore};
use crate::wire::beginning::WHILE_FULL;
use crate::wire::reads::MOST_IN_LINE;
use crate::wire::remote::Remote;
use crate::wire::request::{answer, Answer, Request};
use std::thread;
use std::time::Instant;

impl SharedStore {
    /// One try of an attempt over a child, which may be under a key, where the epoch isn't full, or the next one has begun within
    /// the limit.
    pub(crate) fn tried_by_child(&self, remote: &Remote, asked: &Asked, key: Option<Key<'_>>) -> Result<Tried<'_>, Error> {
        if asked.objects().len() > MOST_IN_LINE {
            return Err(Error::TooManyCalls);
        }
        let calls = match asked.numbers(self.objects()) {
            Ok(calls) if calls.is_empty() => return self.tried_without_calls(key),
            Ok(calls) => calls,
            Err(unasked) => return Ok(Tried { guard: self.enter()?, came: unasked.ended()?, since: 0 }),
        };
        let (start, words) = (Instant::now(), asked.lines(MOST_IN_LINE).concat());
        let request = key.map_or(Request::Do(&words), |key| Request::DoUnder(key, &words));
        loop {
            let (mut guard, since, text) = self.asked_to_do(remote, asked, request)?;
            if let Some(came) = self.came_of(remote, request, &text, asked, &calls)? {
                guard.has_tried(asked, &came);
                return Ok(Tried { guard, came, since });
            }
            drop(guard);
            if start.elapsed() >= remote.link.limit() {
                return Err(Error::TimedOut);
            }
            thread::sleep(WHILE_FULL);
        }
    }

    /// A transaction that does nothing, for which there is no line.
    fn tried_without_calls(&self, key: Option<Key<'_>>) -> Result<Tried<'_>, Error> {
        match key {
            None => self.begin()?.commit()?,
            Some(key) => self.commit_nothing_under(key)?,
        }
        Ok(Tried { guard: self.enter()?, came: Came::Done(Few::default()), since: 0 })
    }

    /// What a child answers to these calls, and since when others may have let go.
    fn asked_to_do(&self, remote: &Remote, asked: &Asked, request: Request<'_>) -> Result<(Guard<'_>, u64, String), Error> {
        let mut guard = self.enter()?;
        self.settle_dropped(&mut guard);
        let remote_state = guard.remote_state()?;
        let since = asked.objects().iter().map(|object| remote.since(remote_state, *object)).min().unwrap_or(0);
        let slot = remote_state.send_attempt(request)?;
        let (mut guard, told) = self.awaited(guard, &slot, Lock::GivenUp);
        let text = told?;
        if let Some(Answer::BusyAt(_, blocker)) = answer(&text) {
            guard.told_life(blocker.life);
        }
        Ok((guard, since, text))
    }

    /// What an answer says that came of an attempt; nothing where the epoch is full.
    fn came_of(&self, remote: &Remote, request: Request<'_>, text: &str, asked: &Asked, calls: &[OperationId]) -> Result<Option<Came>, Error> {
        let ended = |at: usize, how: Ending| (at < calls.len()).then_some(Came::Ended { at, how });
        let came = match answer(text) {
            Some(Answer::Drain) => return Ok(None),
            Some(Answer::Refused(error)) => return Err(error),
            Some(Answer::Done(replies)) => match Came::of_replies(asked, calls, replies, self.objects()) {
                None if request.key().is_some() => return Err(Error::OtherCalls), // they are those of what was done before
                came => came,
            },
            Some(Answer::BusyAt(at, blocker)) => ended(at, Ending::Busy { blocker }),
            Some(Answer::NoneAt(at)) => ended(at, Ending::Illegal),
            Some(Answer::RefusedAt(at, error)) => ended(at, Ending::Refused(error)),
            _ => None,
        };
        came.map(Some).ok_or_else(|| remote.link.broken(text))
    }
}

//! What is read of a store behind a child at one moment. A request has up to 64 calls or objects. A longer read is several
//! lines, which are asked one after the other. A commit may come between two of them, or another epoch: then they are
//! asked again, and nobody else asks meanwhile.

use crate::asked::Asked;
use crate::error::Error;
use crate::moment::{Moment, Seen};
use crate::shared::state::State;
use crate::shared::{Guard, SharedStore};
use crate::wire::remote::Remote;
use crate::wire::request::{answer, Answer, Request};
use crate::wire::slot::Slot;
use std::sync::Arc;

/// The most calls or objects of a request.
pub(crate) const MOST_IN_LINE: usize = 64;

/// How often the lines of a read are asked while nobody else asks.
const TRIES: u32 = 4;

impl SharedStore {
    /// The present moment, by a state that isn't looked at.
    pub(crate) fn moment_over_child(&self, remote: &Remote) -> Result<Moment, Error> {
        Ok(self.states_over_child(remote, &[0])?.at)
    }

    /// What calls are answered to a transaction that only reads, in numbers as the library has them.
    pub(crate) fn peek_over_child(&self, remote: &Remote, asked: &Asked) -> Result<Seen<Vec<u64>>, Error> {
        let calls = asked.numbers(self.objects()).map_err(|unasked| unasked.error)?;
        self.read(remote, &asked.lines(MOST_IN_LINE), |words| Request::Peek(words), |replies| asked.operations(&calls, replies, self.objects()))
    }

    /// The committed states of objects.
    pub(crate) fn states_over_child(&self, remote: &Remote, objects: &[u32]) -> Result<Seen<Vec<u64>>, Error> {
        let line = |objects: &[u32]| objects.iter().map(u32::to_string).collect::<Vec<String>>().join(" ");
        let lines: Vec<String> = objects.chunks(MOST_IN_LINE).map(line).collect();
        let states_of = |words: &str| {
            let states = words.split(' ').map(|state| state.parse().ok()).collect::<Option<Vec<u64>>>();
            states.filter(|states| states.len() == objects.len())
        };
        self.read(remote, &lines, |words| Request::Committed(words), states_of)
    }

    /// The numbers of what is answered to requests of these lines, in one text and of one moment.
    fn read(
        &self,
        remote: &Remote,
        lines: &[String],
        request: impl Fn(&str) -> Request<'_>,
        numbers_of: impl Fn(&str) -> Option<Vec<u64>>,
    ) -> Result<Seen<Vec<u64>>, Error> {
        if lines.is_empty() {
            return Ok(Seen { at: self.moment_over_child(remote)?, value: Vec::new() });
        }
        let seen = match of_one_moment(self.asked_beside_others(remote, lines, &request)?) {
            Some(seen) => seen,
            None => self.asked_alone(remote, lines, &request)?,
        };
        let value = numbers_of(&seen.value).ok_or_else(|| remote.link.broken(&seen.value))?;
        Ok(seen.with(value))
    }

    /// The answers to requests that are asked one right after the other, each with its moment.
    fn asked_beside_others(&self, remote: &Remote, lines: &[String], request: &impl Fn(&str) -> Request<'_>) -> Result<Vec<Seen<String>>, Error> {
        let mut guard = self.enter()?;
        let slots = self.put_together(&mut guard, lines, request)?;
        drop(guard);
        let told = seen_in_all(remote, &slots);
        note(&mut self.lock(), remote, &told);
        told
    }

    /// The same, of one moment. Nobody else asks meanwhile, so that only commits come between which were asked before.
    fn asked_alone(&self, remote: &Remote, lines: &[String], request: &impl Fn(&str) -> Request<'_>) -> Result<Seen<String>, Error> {
        let mut guard = self.enter()?;
        self.in_turn.keeps();
        let mut ask = || {
            let told = self.put_together(&mut guard, lines, request).and_then(|slots| seen_in_all(remote, &slots));
            note(&mut guard, remote, &told);
            told.map(of_one_moment).transpose()
        };
        let seen = (0..TRIES).find_map(|_| ask());
        self.abort_left(&mut guard);
        self.leave(guard);
        seen.unwrap_or(Err(Error::NoMoment))
    }

    fn put_together(&self, guard: &mut Guard<'_>, lines: &[String], request: &impl Fn(&str) -> Request<'_>) -> Result<Vec<Arc<Slot>>, Error> {
        self.settle_dropped(guard);
        guard.remote_state()?.send_together(lines.iter().map(|words| request(words)))
    }
}

/// What was seen, where all of it is of one moment.
fn of_one_moment(told: Vec<Seen<String>>) -> Option<Seen<String>> {
    let at = told.first()?.at;
    let is_one = told.iter().all(|seen| seen.at == at);
    let words: Vec<String> = told.into_iter().map(|seen| seen.value).collect();
    is_one.then(|| Seen { at, value: words.join(" ") })
}

/// What the answers say was seen, all of which are waited for.
fn seen_in_all(remote: &Remote, slots: &[Arc<Slot>]) -> Result<Vec<Seen<String>>, Error> {
    let told: Vec<Result<String, Error>> = slots.iter().map(|slot| remote.link.answered(slot)).collect();
    told.into_iter().enumerate().map(|(part, text)| seen_in(remote, part * MOST_IN_LINE, &text?)).collect()
}

/// A life was answered, or the child is lost.
fn note(state: &mut State, remote: &Remote, told: &Result<Vec<Seen<String>>, Error>) {
    match told {
        Ok(told) => told.iter().for_each(|seen| state.told_life(seen.at.epoch)),
        Err(_) if remote.link.lost().is_some() => state.lost(),
        Err(_) => {}
    }
}

/// What an answer says was seen. Its first call is at this place.
fn seen_in(remote: &Remote, first: usize, text: &str) -> Result<Seen<String>, Error> {
    match answer(text) {
        Some(Answer::Seen(at, words)) => Ok(Seen { at, value: words.to_string() }),
        Some(Answer::NoneAt(at)) => Err(Error::IllegalAt(first + at)),
        Some(Answer::Refused(error)) => Err(error),
        _ => Err(remote.link.broken(text)),
    }
}

//! How transactions begin over a child. A begin is put off until its transaction asks for something, and is written
//! together with that call, so that both are answered at once.
//!
//! The call needs the name of the transaction, which is foretold: it is the name in the last answer, and one more for
//! each begin that was written since. Begins are written in one order, nobody else begins, and one that is refused takes
//! no number. So within a life a foretold number is never below the one that the begin gets, and above all that were
//! given before. Right after its begin such a name means this transaction, or none: a call by it is done for this one,
//! or refused. Nothing else is asked by a name that wasn't answered.
//!
//! What else a thread asks, and what is asked of the whole store, comes after the begins that it put off.
//!
//! An attempt, which is a whole transaction in one line, takes a number too, where it isn't refused and wasn't done before under
//! its key. So for what is foretold it counts as a begin, whose name nobody is told.

use crate::error::Error;
use crate::reply::Outcome;
use crate::shared::calling::Call;
use crate::shared::state::{State, Ticket};
use crate::shared::transaction::SharedTransaction;
use crate::shared::{Begun, Guard, Lock, SharedStore};
use crate::transaction_id::TransactionId;
use crate::wire::remote::Remote;
use crate::wire::remote::RemoteState;
use crate::wire::request::{answer, Answer, Request};
use crate::wire::slot::Slot;
use std::collections::BTreeMap;
use std::mem;
use std::sync::Arc;
use std::thread::{self, ThreadId};
use std::time::{Duration, Instant};

/// With this many transactions none is put off any more: 1,024 may be open, and the begin of one more is refused at once.
const MOST_PUT_OFF: usize = 512;

/// The greatest number in a request.
const GREATEST_NUMBER: u64 = u32::MAX as u64;

/// How long it is waited before a full epoch is asked again for a begin.
pub(crate) const WHILE_FULL: Duration = Duration::from_millis(5);

/// The begins of a client over a child.
#[derive(Debug, Default)]
pub(crate) struct Begins {
    names: Names,
    put_off: Vec<PutOff>,
    /// Those that were put off and written since, by the ages of their transactions.
    sent: BTreeMap<u64, Sent>,
}

/// By how much the names of begins can be foretold.
#[derive(Debug, Default)]
struct Names {
    /// How many begins were written.
    written: u64,
    /// The last of them whose answer was seen, counted from 1; and its name, where it has one.
    seen: u64,
    last: Option<TransactionId>,
}

/// A begin that isn't written yet.
#[derive(Debug)]
struct PutOff {
    thread: ThreadId,
    age: u64,
}

/// A begin that was written, and how many were up to it.
#[derive(Debug)]
pub(crate) struct Sent {
    pub(crate) slot: Arc<Slot>,
    pub(crate) place: u64,
}

/// A begin that was written with a request after it.
pub(crate) struct Both {
    pub(crate) begin: Sent,
    pub(crate) foretold: TransactionId,
    next: Arc<Slot>,
}

/// What came of the first call of a transaction.
pub(crate) struct First {
    pub(crate) id: TransactionId,
    /// None where the call is to be made by the name that the transaction has.
    pub(crate) told: Option<FirstTold>,
}

/// The answer to a first call.
pub(crate) struct FirstTold {
    pub(crate) reply: Result<Outcome, Error>,
    /// As of [`Remote::since`] when it was asked.
    pub(crate) since: u64,
}

impl Names {
    /// One more begin is written; its place.
    fn write(&mut self) -> u64 {
        self.written += 1;
        self.written
    }

    /// The name of a begin that is written next. It isn't known where the last one was refused, nor where so many attempts were
    /// written since that no number is left: they may have been those of many epochs.
    fn next(&self) -> Option<TransactionId> {
        let ahead = self.written - self.seen + 1;
        let named = self.last.map(|id| TransactionId { life: id.life, number: id.number.saturating_add(ahead) });
        named.filter(|id| id.number <= GREATEST_NUMBER)
    }

    /// A begin was answered, maybe after one that was written later.
    fn see(&mut self, place: u64, name: Option<TransactionId>) {
        if place > self.seen {
            self.seen = place;
            self.last = name;
        }
    }
}

impl Begins {
    /// How many transactions aren't known to have begun.
    fn count(&self) -> usize {
        self.put_off.len() + self.sent.len()
    }

    /// It isn't put off any more. Whether it was.
    pub(crate) fn let_go(&mut self, age: u64) -> bool {
        let count = self.put_off.len();
        self.put_off.retain(|other| other.age != age);
        self.put_off.len() < count
    }

    /// A begin that was put off and written since, of which nobody else is told then.
    pub(crate) fn taken(&mut self, age: u64) -> Option<Sent> {
        self.sent.remove(&age)
    }

    /// Takes out what a thread put off, or all of it, in the order of the ages.
    fn due(&mut self, of: Option<ThreadId>) -> Vec<PutOff> {
        let is_due = |begin: &PutOff| of.is_none_or(|thread| begin.thread == thread);
        if !self.put_off.iter().any(is_due) {
            return Vec::new();
        }
        let (mut due, later): (Vec<PutOff>, Vec<PutOff>) = mem::take(&mut self.put_off).into_iter().partition(is_due);
        self.put_off = later;
        due.sort_by_key(|begin| begin.age);
        due
    }
}

// ---- what is written

impl RemoteState {
    /// Asks for something, which `Link::write` is to write. The answer comes into the slot.
    pub(crate) fn send(&mut self, request: Request<'_>) -> Result<Arc<Slot>, Error> {
        self.put_due(if request.is_of_store() { None } else { Some(thread::current().id()) });
        let slot = self.conversation.put(request);
        self.conversation.ask_all()?;
        Ok(slot)
    }

    /// Asks for the commit of a transaction, and what others ask meanwhile may go first.
    pub(crate) fn send_last(&mut self, commit: Request<'_>) -> Result<Arc<Slot>, Error> {
        self.put_due(Some(thread::current().id()));
        let slot = self.conversation.put_last(commit);
        self.conversation.ask_all()?;
        Ok(slot)
    }

    /// Asks for a whole transaction, which takes a number where it begins.
    pub(crate) fn send_attempt(&mut self, attempt: Request<'_>) -> Result<Arc<Slot>, Error> {
        self.put_due(Some(thread::current().id()));
        self.begins.names.write();
        let slot = self.conversation.put(attempt);
        self.conversation.ask_all()?;
        Ok(slot)
    }

    /// Asks for what a thread asks in several requests, one right after the other.
    pub(crate) fn send_together<'a>(&mut self, requests: impl ExactSizeIterator<Item = Request<'a>>) -> Result<Vec<Arc<Slot>>, Error> {
        self.put_due(Some(thread::current().id()));
        let last = requests.len() - 1;
        let slots = requests.enumerate().map(|(at, request)| match at == last {
            true => self.conversation.put(request),
            false => self.conversation.put_part(request),
        });
        let slots = slots.collect();
        self.conversation.ask_all()?;
        Ok(slots)
    }

    /// Asks for something that may be answered late, with a question after it: the answer to that says that it was read.
    pub(crate) fn send_late(&mut self, request: Request<'_>) -> Result<Arc<Slot>, Error> {
        self.put_due(Some(thread::current().id()));
        let slot = self.conversation.put(request);
        self.conversation.put(Request::Stats);
        self.conversation.ask_all()?;
        Ok(slot)
    }

    /// Puts the begins that a thread put off, or all of them, before what comes next.
    fn put_due(&mut self, of: Option<ThreadId>) {
        for PutOff { age, .. } in self.begins.due(of) {
            let sent = self.put_begin();
            self.begins.sent.insert(age, sent);
        }
    }

    fn put_begin(&mut self) -> Sent {
        Sent { place: self.begins.names.write(), slot: self.conversation.put(Request::Begin) }
    }

    /// Writes a begin, after those that were put off.
    pub(crate) fn send_begin(&mut self) -> Result<Sent, Error> {
        self.put_due(None);
        let sent = self.put_begin();
        self.conversation.ask_all()?;
        Ok(sent)
    }

    /// Puts a begin off, where it can be foretold that it goes well. Whether it did.
    fn puts_off(&mut self, age: u64) -> Result<bool, Error> {
        self.conversation.check()?;
        let thread = thread::current().id();
        self.put_due(Some(thread));
        self.conversation.ask_all()?;
        let is_put_off = self.begins.names.next().is_some() && self.open_count() + self.begins.count() < MOST_PUT_OFF;
        if is_put_off {
            self.begins.put_off.push(PutOff { thread, age });
        }
        Ok(is_put_off)
    }

    /// Writes a begin that was put off together with what is asked by its name. Nothing is written where the begin was written
    /// before, or its name can't be foretold.
    pub(crate) fn send_both<'a>(&mut self, age: u64, asked: impl FnOnce(TransactionId) -> Request<'a>) -> Result<Option<Both>, Error> {
        if self.begins.sent.contains_key(&age) || self.begins.names.next().is_none() {
            return Ok(None);
        }
        self.begins.let_go(age);
        self.put_due(Some(thread::current().id()));
        // after those that were just put
        let Some(foretold) = self.begins.names.next() else { return Ok(None) };
        let begin = self.put_begin();
        let next = self.conversation.put(asked(foretold));
        self.conversation.ask_all()?;
        Ok(Some(Both { begin, foretold, next }))
    }
}

impl State {
    /// What a begin was answered: a name, or nothing where the epoch is full.
    pub(crate) fn sees_begin(&mut self, remote: &Remote, place: u64, text: &str) -> Result<Option<TransactionId>, Error> {
        let told = match answer(text) {
            Some(Answer::Ok(id)) => Ok(Some(id.parse::<TransactionId>().map_err(|_| remote.link.broken(text))?)),
            Some(Answer::Drain) => Ok(None),
            Some(Answer::Refused(error)) => Err(error),
            _ => return Err(remote.link.broken(text)),
        };
        let id = told.as_ref().ok().copied().flatten();
        self.remote_state()?.begins.names.see(place, id);
        if let Some(id) = id {
            self.began(id);
        }
        told
    }
}

// ---- transactions

impl SharedStore {
    /// Begins a transaction over a child, or puts that off.
    pub(crate) fn begin_over_child(&self, remote: &Remote, age: Option<u64>) -> Result<SharedTransaction<'_>, Error> {
        let mut guard = self.enter()?;
        self.settle_dropped(&mut guard);
        let age = age.unwrap_or_else(|| guard.waiters.next_age());
        if guard.remote_state()?.puts_off(age)? {
            self.leave(guard); // what was put off before is written
            return Ok(SharedTransaction::put_off(self, age));
        }
        let id = self.begin_remote(remote, guard, Lock::GivenUp)?.id;
        Ok(SharedTransaction::of(self, Ticket::new(id, age, 0)))
    }

    /// Begins a transaction now, where the epoch isn't full, or the next one has begun within the limit.
    pub(crate) fn begin_remote<'s>(&'s self, remote: &Remote, mut guard: Guard<'s>, lock: Lock) -> Result<Begun<'s>, Error> {
        let sent = guard.remote_state()?.send_begin()?;
        self.await_begin(remote, guard, sent, lock)
    }

    /// Begins a transaction whose begin was put off.
    pub(crate) fn begin_at_last(&self, age: u64) -> Result<TransactionId, Error> {
        let remote = self.remote().ok_or(Error::NotOpen)?;
        let mut guard = self.enter()?;
        let remote_state = guard.remote_state()?;
        remote_state.begins.let_go(age);
        let sent = match remote_state.begins.taken(age) {
            Some(sent) => sent,
            None => remote_state.send_begin()?,
        };
        Ok(self.await_begin(remote, guard, sent, Lock::GivenUp)?.id)
    }

    /// Waits for the answer of a begin, which is asked again while the epoch is full.
    fn await_begin<'s>(&'s self, remote: &Remote, mut guard: Guard<'s>, mut sent: Sent, lock: Lock) -> Result<Begun<'s>, Error> {
        let start = Instant::now();
        loop {
            let (woken, told) = self.awaited(guard, &sent.slot, lock);
            guard = woken;
            if let Some(id) = guard.sees_begin(remote, sent.place, &told?)? {
                return Ok(Begun { guard, id });
            }
            if start.elapsed() >= remote.link.limit() {
                return Err(Error::TimedOut);
            }
            drop(guard);
            thread::sleep(WHILE_FULL);
            guard = self.enter()?;
            sent = guard.remote_state()?.send_begin()?;
        }
    }

    /// Makes the first call of a transaction together with its begin. Nothing comes of it where the begin isn't put off,
    /// somebody waits, or the epoch is full: then the two are to be asked one after the other.
    pub(crate) fn first_call(&self, age: u64, object: u32, call: Call<'_>) -> Result<Option<First>, Error> {
        let Some(remote) = self.remote() else { return Ok(None) };
        let (number, name) = self.resolved(object, call)?;
        let mut guard = self.enter()?;
        if !guard.waiters.is_empty() {
            return Ok(None);
        }
        let remote_state = guard.remote_state()?;
        let since = remote.since(remote_state, object);
        let Some(both) = remote_state.send_both(age, |id| Request::Call(id, object, &name))? else { return Ok(None) };
        drop(guard);
        // it is answered after the begin
        let told = remote.link.answered(&both.next);
        let begun = remote.link.answered(&both.begin.slot)?;
        let mut guard = self.lock();
        let begun = guard.sees_begin(remote, both.begin.place, &begun);
        if begun == Ok(Some(both.foretold)) {
            let reply = told.and_then(|text| self.reply_of(&text, object, number));
            guard.sees_answer(Ticket::new(both.foretold, age, 0), &reply);
            return Ok(Some(First { id: both.foretold, told: Some(FirstTold { reply, since }) }));
        }
        // nobody had the name that was foretold
        let told = told?;
        match answer(&told) {
            Some(Answer::Refused(Error::NotOpen)) => Ok(begun?.map(|id| First { id, told: None })),
            _ => Err(remote.link.broken(&told)),
        }
    }
}

#[cfg(test)]
mod tests {
    use super::{Names, GREATEST_NUMBER};
    use crate::TransactionId;

    fn id(life: u64, number: u64) -> Option<TransactionId> {
        Some(TransactionId { life, number })
    }

    #[test]
    fn names_are_foretold() {
        let mut names = Names::default();
        assert_eq!(names.next(), None);
        assert_eq!(names.write(), 1);
        assert_eq!(names.next(), None);
        names.see(1, id(3, 7));
        assert_eq!(names.next(), id(3, 8));
        // two are on their way
        assert_eq!((names.write(), names.write(), names.next()), (2, 3, id(3, 10)));
        names.see(3, id(3, 9));
        names.see(2, id(3, 8)); // seen after the later one
        assert_eq!(names.next(), id(3, 10));
    }

    #[test]
    fn an_attempt_takes_a_name_that_nobody_is_told() {
        let mut names = Names::default();
        names.write();
        names.see(1, id(3, 7));
        names.write(); // an attempt, which gets 8
        assert_eq!((names.next(), names.write()), (id(3, 9), 3));
        names.see(3, id(3, 9));
        names.write(); // an attempt that is refused
        assert_eq!(names.next(), id(3, 11));
        // so many attempts that no number is left
        names.written += GREATEST_NUMBER - 11;
        assert_eq!(names.next(), id(3, GREATEST_NUMBER));
        assert_eq!((names.write(), names.next()), (GREATEST_NUMBER - 6, None));
    }

    #[test]
    fn a_foretold_number_is_never_too_small() {
        let mut names = Names::default();
        names.write();
        names.see(1, id(3, 0));
        // of these three the first is refused, so that the others get 1 and 2
        (2..=4).for_each(|place| assert_eq!(names.write(), place));
        assert_eq!(names.next(), id(3, 4));
        names.see(2, None);
        assert_eq!(names.next(), None);
        names.see(3, id(3, 1));
        assert_eq!(names.next(), id(3, 3));
        // and of another life, before which the last of them was refused
        names.write();
        names.see(5, id(4, 0));
        names.see(4, None);
        assert_eq!(names.next(), id(4, 1));
    }
}

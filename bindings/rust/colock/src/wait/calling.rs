//! The calls of a shared store that wait: a call looks at the gate and at the store, and sleeps where somebody is in its way.

use crate::error::Error;
use crate::reply::Outcome;
use crate::shared::calling::{Call, Question, Verb};
use crate::shared::commits::abort_at_once;
use crate::shared::state::{Held, State, Ticket};
use crate::shared::{Guard, Guarded, Lock, SharedStore};
use crate::transaction_id::TransactionId;
use crate::wait::waiters::{Bell, Blocker, Caller, Woken};
use colock_waiting::Verdict;
use std::sync::PoisonError;
use std::time::{Duration, Instant};

/// What a transaction that waits finds when it looks.
enum Look {
    Done(Outcome),
    Behind(Blocker),
    Again,
}

/// Who was in the way of a call, and since when others may have let go, as of [`Remote::since`].
#[derive(Clone, Copy)]
pub(crate) struct InTheWay {
    pub(crate) blocker: u64,
    pub(crate) since: u64,
}

impl InTheWay {
    /// Whom to wait for at an object, where nobody has let go there since.
    fn look(self, state: &State, object: u32) -> Look {
        match &state.held {
            Held::Remote(remote_state) if remote_state.has_let_go(TransactionId::of_seen(self.blocker), object, self.since) => Look::Again,
            _ => Look::Behind(Blocker { number: self.blocker, by_gate: false }),
        }
    }
}

/// A call that waits, with its limit.
#[derive(Clone, Copy)]
struct Wait {
    ticket: Ticket,
    caller: Caller,
    deadline: Option<Instant>,
}

impl SharedStore {
    /// A call that waits for who is in its way, up to a moment. A victim has been aborted. Where it was made already, it
    /// is known who was in its way then.
    pub(crate) fn call_waiting(
        &self,
        ticket: Ticket,
        object: u32,
        call: Call<'_>,
        deadline: Option<Instant>,
        first: Option<InTheWay>,
    ) -> Result<Outcome, Error> {
        let Ok((number, _)) = self.resolved(object, call) else {
            return self.call_now(ticket, object, call); // which says what is wrong
        };
        let guard = self.enter()?;
        let caller = Caller { number: guard.held.number(ticket.id), age: ticket.age, object, call: number };
        let wait = Wait { ticket, caller, deadline };
        let (mut guard, done) = self.waited(guard, wait, first);
        if guard.has_own_number(ticket) {
            guard.leaves(caller.number);
        }
        match done {
            Err(Error::TimedOut) => guard.stats.timeouts += 1,
            Err(Error::Deadlock { .. }) => {
                guard.stats.deadlocks += 1;
                abort_at_once(&mut guard, ticket);
                self.leave(guard);
            }
            _ => {}
        }
        done
    }

    /// Looks, and sleeps where somebody is in the way, until the call is done.
    fn waited<'s>(&'s self, guard: Guard<'s>, wait: Wait, first: Option<InTheWay>) -> Guarded<'s, Outcome> {
        let (mut guard, mut look) = match first {
            None => self.look(guard, wait, Verb::Call),
            Some(first) => {
                let look = first.look(&guard, wait.caller.object);
                (guard, Ok(look))
            }
        };
        let mut is_first = true;
        loop {
            match look {
                Ok(Look::Done(reply)) => return (guard, Ok(reply)),
                Ok(Look::Behind(blocker)) => {
                    let (woken, slept) = self.sleep(guard, wait, blocker);
                    guard = woken;
                    if let Err(error) = slept {
                        return (guard, Err(error));
                    }
                }
                Ok(Look::Again) if !is_first && is_over(wait.deadline) => return (guard, Err(Error::TimedOut)),
                Ok(Look::Again) => enter(&mut guard, wait),
                Err(error) => return (guard, Err(error)),
            }
            is_first = false;
            // after the first look the store is asked without an event
            (guard, look) = self.look(guard, wait, Verb::Would);
        }
    }

    /// Looks at the gate, asks the store what the call would be answered where it was asked before, and calls.
    fn look<'s>(&'s self, guard: Guard<'s>, wait: Wait, first: Verb) -> Guarded<'s, Look> {
        let (guard, look) = self.look_once(guard, wait, first);
        match (first, look) {
            (Verb::Would, Ok(Look::Done(_))) => self.look_once(guard, wait, Verb::Call),
            (_, look) => (guard, look),
        }
    }

    /// Looks at the gate, and asks the store.
    fn look_once<'s>(&'s self, guard: Guard<'s>, wait: Wait, verb: Verb) -> Guarded<'s, Look> {
        let Wait { ticket, caller, .. } = wait;
        let call = Call::Number(caller.call);
        if let Some(number) = self.at_gate(&guard, ticket, caller.object, call) {
            return (guard, Ok(Look::Behind(Blocker { number, by_gate: true })));
        }
        let question = Question { verb, object: caller.object, call };
        let (guard, told) = self.executed(guard, ticket, question, Lock::GivenUp);
        let look = told.map(|told| match told.reply {
            Outcome::Busy { .. } if told.has_let_go => Look::Again,
            Outcome::Busy { blocker } => Look::Behind(Blocker { number: blocker, by_gate: false }),
            reply => Look::Done(reply),
        });
        (guard, look)
    }

    /// Sleeps until the call may be free.
    fn sleep<'s>(&'s self, guard: Guard<'s>, wait: Wait, blocker: Blocker) -> Guarded<'s, ()> {
        // in memory the number of a transaction of a life that has ended may be another one's
        if let Some(error) = guard.can_be_open(wait.ticket).err().or_else(|| self.lost()) {
            return (guard, Err(error));
        }
        if is_over(wait.deadline) {
            return (guard, Err(Error::TimedOut));
        }
        let (guard, woken) = self.rest(guard, wait.caller, blocker, wait.deadline);
        let woken = match woken {
            Some(Woken::Again) => Ok(()),
            Some(Woken::Victim { waited_for }) => Err(Error::Deadlock { waited_for: self.sight(wait.ticket.id.life).id(waited_for) }),
            Some(Woken::Over(Verdict::Lost)) => Err(self.lost().unwrap_or_else(|| Error::ConnectionLost(String::new()))),
            Some(Woken::Over(Verdict::Gone | Verdict::EpochEnded)) => Err(self.ended_epoch()),
            None => Err(Error::TimedOut),
        };
        (guard, woken)
    }

    /// Sleeps behind a blocker, up to a moment. It says why the sleep is over, or nothing where the limit is.
    pub(crate) fn rest<'s>(&'s self, mut guard: Guard<'s>, caller: Caller, blocker: Blocker, deadline: Option<Instant>) -> (Guard<'s>, Option<Woken>) {
        guard.stats.count_sleep(caller.object);
        let start = Instant::now();
        let bell = guard.waiters.wait(caller, blocker);
        guard.settle();
        let mut guard = asleep(guard, &bell, deadline);
        guard.waiters.stop(caller.number, &bell);
        guard.stats.waited += start.elapsed();
        (guard, bell.woken())
    }

    /// Waits for the end of a transaction, at most this long, and holds nothing meanwhile. It doesn't wait where another life has
    /// begun since this one: the end of the epoch may have aborted it.
    pub(crate) fn wait_for_end(&self, life: Option<u64>, id: TransactionId, limit: Duration) {
        let deadline = Instant::now().checked_add(limit);
        let Ok(guard) = self.enter() else { return };
        if life == Some(guard.life) && guard.is_open(id) && self.lost().is_none() {
            let number = guard.held.number(id);
            drop(watched(guard, Some(number), deadline));
        }
    }

    /// Why nothing can be asked, where the store is behind a child that is lost.
    pub(crate) fn lost(&self) -> Option<Error> {
        self.remote().and_then(|remote| remote.link.lost())
    }

    fn ended_epoch(&self) -> Error {
        match self.remote() {
            _ if self.is_closed() => Error::Closed,
            Some(_) => Error::EpochEnded,
            None => Error::NotOpen,
        }
    }
}

/// Who looks again goes on waiting: younger ones go after it, and no commit lets it go first.
fn enter(state: &mut State, wait: Wait) {
    if state.has_own_number(wait.ticket) {
        state.waiters.look_again(wait.caller);
        state.settle();
    }
}

/// Sleeps until a transaction ends, or any, or a limit is over.
pub(crate) fn watched(mut guard: Guard<'_>, number: Option<u64>, deadline: Option<Instant>) -> Guard<'_> {
    let watch = guard.waiters.look_on(number);
    let mut guard = asleep(guard, &watch.bell, deadline);
    guard.waiters.look_away(&watch);
    guard
}

/// Sleeps until it is woken, or a limit is over.
fn asleep<'s>(mut guard: Guard<'s>, bell: &Bell, deadline: Option<Instant>) -> Guard<'s> {
    while bell.woken().is_none() {
        let left = time_left(deadline);
        if left.is_some_and(|left| left.is_zero()) {
            break;
        }
        guard = rested(guard, bell, left);
    }
    guard
}

/// Whether a limit is over.
pub(crate) fn is_over(deadline: Option<Instant>) -> bool {
    time_left(deadline).is_some_and(|left| left.is_zero())
}

/// The time to a moment; none where there is no limit.
fn time_left(deadline: Option<Instant>) -> Option<Duration> {
    deadline.map(|deadline| deadline.saturating_duration_since(Instant::now()))
}

fn rested<'s>(guard: Guard<'s>, bell: &Bell, left: Option<Duration>) -> Guard<'s> {
    match left {
        None => bell.condvar.wait(guard).unwrap_or_else(PoisonError::into_inner),
        Some(left) => bell.condvar.wait_timeout(guard, left).unwrap_or_else(PoisonError::into_inner).0,
    }
}

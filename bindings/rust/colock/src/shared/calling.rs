//! The calls of a shared store that don't wait: what is in the way is looked for at the gate, then at the store.

use crate::error::Error;
use crate::memory::store::Store;
use crate::operation_id::OperationId;
use crate::reply::Outcome;
use crate::shared::state::{resumed, Held, State, Ticket};
use crate::shared::{Guard, Guarded, Lock, SharedStore};
use crate::transaction_id::TransactionId;
use crate::wait::waiters::Caller;
use crate::wire::request::{answer, Answer, Request};
use std::borrow::Cow;

/// A call, by its name or its number.
#[derive(Clone, Copy, Debug)]
pub(crate) enum Call<'n> {
    Name(&'n str),
    Number(OperationId),
}

/// Whether a call is to be executed, or asked for only.
#[derive(Clone, Copy, Debug, PartialEq, Eq)]
pub(crate) enum Verb {
    Call,
    Would,
}

/// What is asked of a store: a call at an object.
#[derive(Clone, Copy, Debug)]
pub(crate) struct Question<'n> {
    pub(crate) verb: Verb,
    pub(crate) object: u32,
    pub(crate) call: Call<'n>,
}

impl<'n> Question<'n> {
    pub(crate) fn call(object: u32, call: Call<'n>) -> Question<'n> {
        Question { verb: Verb::Call, object, call }
    }

    pub(crate) fn would(object: u32, call: Call<'n>) -> Question<'n> {
        Question { verb: Verb::Would, object, call }
    }
}

/// What a store answered.
pub(crate) struct Told {
    pub(crate) reply: Outcome,
    /// Whether the blocker has let go since it was asked, or another one at the object.
    pub(crate) has_let_go: bool,
}

impl SharedStore {
    /// A call that is answered at once.
    pub(crate) fn call_now(&self, ticket: Ticket, object: u32, call: Call<'_>) -> Result<Outcome, Error> {
        self.call_within_turn(self.enter()?, ticket, object, call, Lock::GivenUp).1
    }

    /// The same, with a lock that is given up, or kept.
    pub(crate) fn call_within_turn<'s>(&'s self, guard: Guard<'s>, ticket: Ticket, object: u32, call: Call<'_>, lock: Lock) -> Guarded<'s, Outcome> {
        let (mut guard, reply) = self.reply(guard, ticket, Question::call(object, call), lock);
        if let Ok(Outcome::Busy { .. }) = reply {
            guard.stats.count_busy(object);
        }
        (guard, reply)
    }

    /// Counts a call that was busy.
    pub(crate) fn count_busy(&self, object: u32) {
        self.lock().stats.count_busy(object);
    }

    /// What a call is answered now, by the gate or by the store.
    pub(crate) fn reply<'s>(&'s self, guard: Guard<'s>, ticket: Ticket, question: Question<'_>, lock: Lock) -> Guarded<'s, Outcome> {
        if !guard.waiters.is_empty() {
            if let Some(blocker) = self.at_gate(&guard, ticket, question.object, question.call) {
                return (guard, Ok(Outcome::Busy { blocker }));
            }
        }
        let (guard, told) = self.executed(guard, ticket, question, lock);
        (guard, told.map(|told| told.reply))
    }

    /// Whom the gate of an object puts before a call.
    pub(crate) fn at_gate(&self, state: &State, ticket: Ticket, object: u32, call: Call<'_>) -> Option<u64> {
        let (call, _) = self.resolved(object, call).ok()?;
        state.can_be_open(ticket).ok()?;
        state.waiters.at_gate(Caller { number: state.held.number(ticket.id), age: ticket.age, object, call })
    }

    /// The number and the name of a call.
    pub(crate) fn resolved<'n>(&'n self, object: u32, call: Call<'n>) -> Result<(OperationId, Cow<'n, str>), Error> {
        let calls = self.calls_at(object)?;
        match call {
            Call::Name(name) => calls.number(name).map(|number| (number, Cow::Borrowed(name))),
            Call::Number(number) => calls.name(number).map(|name| (number, name)),
        }
        .ok_or(Error::NoCall)
    }

    /// What the store itself answers.
    pub(crate) fn executed<'s>(&'s self, guard: Guard<'s>, ticket: Ticket, question: Question<'_>, lock: Lock) -> Guarded<'s, Told> {
        if let Err(error) = guard.can_be_open(ticket) {
            return (guard, Err(error));
        }
        let reply = match (&guard.held, self.remote()) {
            (Held::Memory(store), _) => in_memory(store, ticket, question),
            (Held::Remote(_), None) => Err(Error::NotOpen),
            (Held::Remote(remote_state), Some(remote)) => {
                let since = remote.since(remote_state, question.object);
                return self.executed_by_child(guard, ticket, question, lock, since);
            }
        };
        (guard, reply.map(|reply| Told { reply, has_let_go: false }))
    }

    /// The same, where a child is asked. `since` is as of [`Remote::since`].
    fn executed_by_child<'s>(&'s self, guard: Guard<'s>, ticket: Ticket, question: Question<'_>, lock: Lock, since: u64) -> Guarded<'s, Told> {
        let (id, Question { verb, object, call }) = (ticket.id, question);
        let (number, name) = match self.resolved(object, call) {
            Ok(resolved) => resolved,
            Err(error) => return (guard, Err(error)),
        };
        let request = match verb {
            Verb::Call => Request::Call(id, object, &name),
            Verb::Would => Request::Would(id, object, &name),
        };
        let (mut guard, text) = self.ask(guard, request, lock);
        let reply = text.and_then(|text| self.reply_of(&text, object, number));
        guard.sees_answer(ticket, &reply);
        let told = reply.and_then(|reply| {
            let remote_state = guard.remote_state()?;
            let has_let_go = matches!(reply, Outcome::Busy { blocker } if remote_state.has_let_go(TransactionId::of_seen(blocker), object, since));
            Ok(Told { reply, has_let_go })
        });
        (guard, told)
    }

    /// The reply of a line that answers a call.
    pub(crate) fn reply_of(&self, text: &str, object: u32, call: OperationId) -> Result<Outcome, Error> {
        let reply = match answer(text) {
            Some(Answer::Reply(name)) => self.calls_at(object)?.operation(call, name).map(Outcome::Operation),
            Some(Answer::Busy(id)) => Some(Outcome::Busy { blocker: id.seen() }),
            Some(Answer::None) => Some(Outcome::Illegal),
            Some(Answer::Refused(error)) => return Err(of_open(error)),
            _ => None,
        };
        reply.ok_or_else(|| self.broken(text))
    }

    /// The error of a line of the child that answers nothing.
    fn broken(&self, text: &str) -> Error {
        match self.remote() {
            Some(remote) => remote.link.broken(text),
            None => Error::ConnectionLost(text.to_string()),
        }
    }
}

/// What a store in memory answers. Inlined, a caller knows which of the four it is, and copies no result.
#[inline(always)]
pub(crate) fn in_memory(store: &Store, ticket: Ticket, Question { verb, object, call }: Question<'_>) -> Result<Outcome, Error> {
    let mut transaction = resumed(store, ticket.worker, ticket.id.number);
    match (verb, call) {
        (Verb::Call, Call::Name(name)) => transaction.call_in_numbers(object, name),
        (Verb::Call, Call::Number(number)) => transaction.call_op_in_numbers(object, number),
        (Verb::Would, Call::Name(name)) => transaction.would_in_numbers(object, name),
        (Verb::Would, Call::Number(number)) => transaction.would_op_in_numbers(object, number),
    }
}

/// What the call of a waiter would be answered in memory.
pub(crate) fn would(store: &Store, caller: Caller) -> Result<Outcome, Error> {
    resumed(store, 0, caller.number).would_op_in_numbers(caller.object, caller.call)
}

/// The error of a refusal of a transaction that this client hasn't ended.
pub(crate) fn of_open(error: Error) -> Error {
    match error {
        Error::NotOpen => Error::EpochEnded,
        other => other,
    }
}

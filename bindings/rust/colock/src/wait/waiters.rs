//! The threads that wait at a store, and the engine that says for whom. All of it is under the one lock of a store.

use crate::objects::Objects;
use crate::operation_id::OperationId;
use crate::transaction_id::ATTEMPTS;
use colock_waiting::{Age, Asker, Class, Conflicts, Decision, Number, ObjectIndex, OnlookerId, Touched, Verdict, Waiting};
use std::collections::BTreeMap;
use std::sync::{Arc, Condvar, OnceLock};

/// Why a sleep is over.
#[derive(Clone, Copy, Debug, PartialEq, Eq)]
pub(crate) enum Woken {
    /// The call may be free now, or what was looked on for is there.
    Again,
    /// It was the youngest of a circle.
    Victim {
        /// For whom it waited.
        waited_for: u64,
    },
    /// There is nothing left to wait for.
    Over(Verdict),
}

/// Where a thread sleeps, once.
#[derive(Debug, Default)]
pub(crate) struct Bell {
    pub(crate) condvar: Condvar,
    woken: OnceLock<Woken>,
}

impl Bell {
    /// Why the sleep is over, where it is.
    pub(crate) fn woken(&self) -> Option<Woken> {
        self.woken.get().copied()
    }

    fn wake(&self, woken: Woken) {
        // what was said first stays
        let _ = self.woken.set(woken);
        self.condvar.notify_all();
    }
}

/// A transaction that calls.
#[derive(Clone, Copy, Debug)]
pub(crate) struct Caller {
    pub(crate) number: u64,
    pub(crate) age: u64,
    pub(crate) object: u32,
    pub(crate) call: OperationId,
}

impl Caller {
    fn asker(self) -> Asker {
        Asker { number: Number(self.number), age: Age(self.age), object: ObjectIndex(self.object), call: Class(self.call.place) }
    }
}

/// Whoever has done something that is in the way, and whether the gate says so.
#[derive(Clone, Copy, Debug)]
pub(crate) struct Blocker {
    pub(crate) number: u64,
    pub(crate) by_gate: bool,
}

/// Who waits for the end of a transaction, or of any.
#[derive(Debug)]
pub(crate) struct Watch {
    id: OnlookerId,
    pub(crate) bell: Arc<Bell>,
}

/// Which calls of the objects block which.
#[derive(Debug)]
struct Blocks(Arc<Objects>);

impl Conflicts for Blocks {
    fn blocks(&self, object: ObjectIndex, call: Class, other: Class) -> bool {
        self.0.calls_at(object.0).is_ok_and(|calls| calls.blocks(OperationId::listed(call.0), OperationId::listed(other.0)))
    }
}

/// A thread that sleeps, with its call.
#[derive(Debug)]
struct Waiter {
    caller: Caller,
    bell: Arc<Bell>,
}

/// All that wait at a store.
#[derive(Debug)]
pub(crate) struct Waiters {
    waiting: Waiting<Blocks>,
    asleep: BTreeMap<u64, Waiter>,
    watching: BTreeMap<OnlookerId, Arc<Bell>>,
}

impl Waiters {
    pub(crate) fn new(objects: Arc<Objects>) -> Waiters {
        Waiters { waiting: Waiting::new(Blocks(objects)), asleep: BTreeMap::new(), watching: BTreeMap::new() }
    }

    /// An age, which is greater than those before it.
    #[inline]
    pub(crate) fn next_age(&mut self) -> u64 {
        self.waiting.next_age().0
    }

    /// Takes the gate out, for a test of what it is for.
    pub(crate) fn take_gate_out(&mut self) {
        self.waiting.take_gate_out();
    }

    /// Whether nobody waits.
    #[inline]
    pub(crate) fn is_empty(&self) -> bool {
        self.waiting.is_empty()
    }

    /// Whom the gate puts before a call.
    pub(crate) fn at_gate(&self, caller: Caller) -> Option<u64> {
        self.waiting.gate(caller.asker()).map(|number| number.0)
    }

    // ---- a call that waits

    /// A call is to wait for another transaction. Its thread sleeps until the bell says why it doesn't any more.
    pub(crate) fn wait(&mut self, caller: Caller, blocker: Blocker) -> Arc<Bell> {
        let bell = Arc::<Bell>::default();
        self.asleep.insert(caller.number, Waiter { caller, bell: Arc::clone(&bell) });
        self.look_again(caller);
        if !blocker.by_gate {
            self.waiting.busy(Number(caller.number), Number(blocker.number));
        }
        bell
    }

    /// Who looks again goes on waiting: younger ones go after it, and no commit lets it go first.
    pub(crate) fn look_again(&mut self, caller: Caller) {
        let asker = caller.asker();
        if self.waiting.waits(asker.number) {
            self.waiting.again(asker.number);
        } else {
            self.waiting.enter(asker);
        }
    }

    /// A thread doesn't sleep any more. In memory its number may be that of another one of a later life by now.
    pub(crate) fn stop(&mut self, number: u64, bell: &Arc<Bell>) {
        if self.asleep.get(&number).is_some_and(|waiter| Arc::ptr_eq(&waiter.bell, bell)) {
            self.asleep.remove(&number);
        }
    }

    /// A call waits no more: it was answered, or is given up.
    pub(crate) fn leave(&mut self, number: u64) {
        self.waiting.leave(Number(number));
    }

    /// An attempt that begins to wait: it has an age, and a number that is nobody's.
    pub(crate) fn next_attempt(&mut self, object: u32, call: OperationId) -> Caller {
        let age = self.next_age();
        Caller { number: ATTEMPTS + age, age, object, call }
    }

    // ---- what others do

    /// A transaction has ended, which had touched some objects.
    pub(crate) fn ended(&mut self, number: u64, touched: Touched) {
        if !self.is_empty() {
            self.waiting.ended(Number(number), touched);
        }
    }

    /// A transaction has taken back operations of its own.
    pub(crate) fn took_back(&mut self, number: u64, touched: Touched) {
        self.waiting.took_back(Number(number), touched);
    }

    /// Somebody for whom nobody waits has changed what is at some objects.
    pub(crate) fn let_go(&mut self, touched: Touched) {
        self.waiting.took_back(Number(ATTEMPTS), touched);
    }

    /// Any transaction may have ended.
    pub(crate) fn all_again(&mut self) {
        self.waiting.all_again();
    }

    /// All transactions have ended.
    pub(crate) fn epoch_ended(&mut self) {
        self.waiting.epoch_ended();
    }

    /// The child is lost.
    pub(crate) fn lost(&mut self) {
        self.waiting.lost();
    }

    // ---- who waits for the end of a transaction

    /// Somebody waits for the end of this transaction, or of any.
    pub(crate) fn look_on(&mut self, number: Option<u64>) -> Watch {
        let id = match number {
            Some(number) => self.waiting.look_on(Number(number)),
            None => self.waiting.look_on_any(),
        };
        let watch = Watch { id, bell: Arc::default() };
        self.watching.insert(watch.id, Arc::clone(&watch.bell));
        watch
    }

    /// It isn't waited for any more.
    pub(crate) fn look_away(&mut self, watch: &Watch) {
        self.waiting.look_away(watch.id);
        self.watching.remove(&watch.id);
    }

    // ---- what was decided

    /// Wakes whom it was decided to wake, up to a waiter for whom the store is to be asked what its call would be answered.
    pub(crate) fn next_to_ask(&mut self) -> Option<Caller> {
        while let Some(decision) = self.waiting.next_decision() {
            match decision {
                Decision::Ask(asker) => {
                    // who isn't asleep is about to ask by itself
                    if let Some(waiter) = self.asleep.get(&asker.number.0) {
                        return Some(waiter.caller);
                    }
                }
                Decision::Wake(number) => self.wake(number.0, Woken::Again),
                Decision::Abort { number, waited_for } => self.wake(number.0, Woken::Victim { waited_for: waited_for.0 }),
                Decision::End { number, verdict } => self.wake(number.0, Woken::Over(verdict)),
                Decision::OnlookerFree(id) => {
                    if let Some(bell) = self.watching.remove(&id) {
                        bell.wake(Woken::Again);
                    }
                }
            }
        }
        None
    }

    /// The store answered for a waiter that somebody is in its way.
    pub(crate) fn is_busy(&mut self, number: u64, blocker: u64) {
        self.waiting.busy(Number(number), Number(blocker));
    }

    /// The store answered for a waiter that it would do its call, or would refuse it.
    pub(crate) fn may_go(&mut self, number: u64) {
        self.waiting.may_go(Number(number));
    }

    /// Ends a sleep.
    pub(crate) fn wake(&mut self, number: u64, woken: Woken) {
        if let Some(waiter) = self.asleep.remove(&number) {
            waiter.bell.wake(woken);
        }
    }
}

//! Who waits for whom: the engine of waiting, driven by what the store answers, in its order.

use crate::locks::locked;
use crate::names::TransactionName;
use crate::store::bell::{Bell, Woken};
use crate::store::objects::SharedObjects;
use colock_waiting::{Age, Asker, Class, Conflicts, Decision, Edge, Number, ObjectIndex, Touched, Verdict, Waiting};
use std::collections::HashMap;
use std::sync::{Arc, Mutex};
use tokio::sync::mpsc::UnboundedSender;

/// Numbers from here on are attempts'. A life with such a number is two thousand million restarts and epochs away.
const FIRST_ATTEMPT: u64 = 1 << 63;

/// A call that waits and is to be asked for.
#[derive(Debug)]
pub struct Due {
    /// Whose call.
    pub number: Number,
    /// The line.
    pub words: String,
}

/// Which calls keep out which, by the types of the objects.
#[derive(Debug)]
pub struct Rules(pub SharedObjects);

impl Conflicts for Rules {
    fn blocks(&self, object: ObjectIndex, call: Class, other: Class) -> bool {
        self.0.get(object.0).is_some_and(|entry| entry.of.blocks(entry.recovery, call.0, other.0))
    }
}

/// What happened among those who wait, for the metrics.
#[derive(Clone, Copy, Debug, Default, PartialEq, Eq)]
pub struct WaitCounts {
    /// Who wait now.
    pub waiting: usize,
    /// How many circles were broken.
    pub deadlocks: u64,
}

/// Somebody who waits, as it is shown.
#[derive(Clone, Copy, Debug, PartialEq, Eq)]
pub struct Waiter {
    /// Its transaction; none is that of an attempt.
    pub transaction: Option<TransactionName>,
    /// For whom it waits, where that is known.
    pub waits_for: Option<TransactionName>,
}

#[derive(Debug)]
struct Place {
    bell: Arc<Bell>,
    object: ObjectIndex,
}

#[derive(Debug)]
struct Inner {
    waiting: Waiting<Rules>,
    places: HashMap<Number, Place>,
    attempts: u64,
    deadlocks: u64,
}

/// All that wait.
#[derive(Debug)]
pub struct Waits {
    inner: Mutex<Inner>,
    due: UnboundedSender<Due>,
}

impl Waits {
    /// Nobody waits. Who is to be asked for is sent on: at most one for each that waits.
    pub fn new(objects: SharedObjects, due: UnboundedSender<Due>) -> Waits {
        let inner = Inner { waiting: Waiting::new(Rules(objects)), places: HashMap::new(), attempts: 0, deadlocks: 0 };
        Waits { inner: Mutex::new(inner), due }
    }

    // ---- what is asked

    /// An age for a transaction, greater than those before it.
    pub fn next_age(&self) -> Age {
        locked(&self.inner).waiting.next_age()
    }

    /// A number and an age for an attempt.
    pub fn next_attempt(&self) -> (Number, Age) {
        let mut inner = locked(&self.inner);
        inner.attempts += 1;
        (Number(FIRST_ATTEMPT + inner.attempts), inner.waiting.next_age())
    }

    /// For whom a transaction waits.
    pub fn edge(&self, number: Number) -> Option<Edge> {
        locked(&self.inner).waiting.edge(number)
    }

    /// At most so many of those who wait at an object.
    pub fn at(&self, object: ObjectIndex, most: usize) -> Vec<Waiter> {
        let inner = locked(&self.inner);
        let name = |number: Number| (!is_attempt(number)).then(|| TransactionName::unpacked(number.0));
        let waiter = |number: &Number| {
            let waits_for = inner.waiting.edge(*number).and_then(|edge| name(edge.to));
            Waiter { transaction: name(*number), waits_for }
        };
        inner.places.iter().filter(|(_, place)| place.object == object).take(most).map(|(number, _)| waiter(number)).collect()
    }

    /// What happened.
    pub fn counts(&self) -> WaitCounts {
        let inner = locked(&self.inner);
        WaitCounts { waiting: inner.places.len(), deadlocks: inner.deadlocks }
    }

    /// Whether a call is to go behind older ones that wait; then it waits from now on.
    pub fn goes_behind(&self, asker: Asker, bell: &Arc<Bell>) -> bool {
        let mut inner = locked(&self.inner);
        if inner.waiting.is_empty() || inner.waiting.gate(asker).is_none() {
            return false;
        }
        inner.places.insert(asker.number, Place { bell: Arc::clone(bell), object: asker.object });
        inner.waiting.enter(asker);
        self.settle(&mut inner);
        true
    }

    // ---- what happens

    /// The store answered that this one is in the way of a call, which waits from now on.
    pub fn busy(&self, asker: Asker, bell: &Arc<Bell>, blocker: Number) {
        let mut inner = locked(&self.inner);
        inner.places.insert(asker.number, Place { bell: Arc::clone(bell), object: asker.object });
        let is_there = inner.waiting.waits(asker.number) && !is_attempt(asker.number);
        if !is_there {
            // an attempt that waits at another call begins anew, with its age
            inner.waiting.leave(asker.number);
            inner.waiting.enter(asker);
        }
        inner.waiting.busy(asker.number, blocker);
        self.settle(&mut inner);
    }

    /// The store answered who would be in the way of a call that waits; or that nobody would be.
    pub fn would(&self, number: Number, blocker: Option<Number>) {
        let mut inner = locked(&self.inner);
        match blocker {
            Some(blocker) => inner.waiting.busy(number, blocker),
            None => inner.waiting.may_go(number),
        }
        self.settle(&mut inner);
    }

    /// Somebody waits no more.
    pub fn leave(&self, number: Number) {
        let mut inner = locked(&self.inner);
        if inner.places.remove(&number).is_some() {
            inner.waiting.leave(number);
            self.settle(&mut inner);
        }
    }

    /// A transaction has ended.
    pub fn ended(&self, number: Number, touched: Touched) {
        self.happens(|waiting| waiting.ended(number, touched));
    }

    /// A transaction has taken operations back.
    pub fn took_back(&self, number: Number, touched: Touched) {
        self.happens(|waiting| waiting.took_back(number, touched));
    }

    /// An epoch has ended. It may have aborted whoever is waited for, so all ask once more.
    pub fn epoch_ended(&self) {
        self.happens(Waiting::all_again);
    }

    /// The store has ended.
    pub fn lost(&self) {
        self.happens(Waiting::lost);
    }

    fn happens(&self, event: impl FnOnce(&mut Waiting<Rules>)) {
        let mut inner = locked(&self.inner);
        if !inner.waiting.is_empty() {
            event(&mut inner.waiting);
            self.settle(&mut inner);
        }
    }

    /// Does what is decided.
    fn settle(&self, inner: &mut Inner) {
        while let Some(decision) = inner.waiting.next_decision() {
            match decision {
                Decision::Ask(asker) if is_attempt(asker.number) => ring(inner, asker.number, Woken::Again),
                Decision::Ask(asker) => self.ask(inner, asker.number),
                Decision::Wake(number) => ring(inner, number, Woken::Again),
                Decision::Abort { number, waited_for } => {
                    inner.deadlocks += 1;
                    ring(inner, number, Woken::Victim(waited_for));
                }
                Decision::End { number, verdict } => ring(inner, number, over(number, verdict)),
                Decision::OnlookerFree(_) => {}
            }
        }
    }

    fn ask(&self, inner: &Inner, number: Number) {
        if let Some(Place { bell, .. }) = inner.places.get(&number) {
            // it fails only where the server ends
            let _ = self.due.send(Due { number, words: bell.would().to_string() });
        }
    }
}

/// How it is told that there is nothing to wait for: an attempt, which holds nothing, tries again.
fn over(number: Number, verdict: Verdict) -> Woken {
    match verdict {
        Verdict::Gone if is_attempt(number) => Woken::Again,
        verdict => Woken::Over(verdict),
    }
}

fn is_attempt(number: Number) -> bool {
    number.0 >= FIRST_ATTEMPT
}

fn ring(inner: &Inner, number: Number, woken: Woken) {
    if let Some(Place { bell, .. }) = inner.places.get(&number) {
        bell.ring(woken);
    }
}

/// Somebody who may wait; it waits no more where this is dropped.
#[derive(Debug)]
pub struct Stay {
    waits: Arc<Waits>,
    number: Number,
}

impl Stay {
    /// Of whoever has this number.
    pub fn of(waits: &Arc<Waits>, number: Number) -> Stay {
        Stay { waits: Arc::clone(waits), number }
    }
}

impl Drop for Stay {
    fn drop(&mut self) {
        self.waits.leave(self.number);
    }
}

#[cfg(test)]
mod tests {
    use super::{Due, Waiter, Waits};
    use crate::names::TransactionName;
    use crate::store::bell::{Bell, Woken};
    use crate::store::objects::SharedObjects;
    use colock_waiting::{Age, Asker, Class, Number, ObjectIndex, Touched, Verdict};
    use std::sync::Arc;
    use std::time::Duration;
    use tokio::sync::mpsc::{unbounded_channel, UnboundedReceiver};
    use tokio::time::Instant;

    fn waits() -> (Waits, UnboundedReceiver<Due>) {
        let (due, asked) = unbounded_channel();
        (Waits::new(SharedObjects::default(), due), asked)
    }

    fn asker(number: u64) -> Asker {
        Asker { number: Number(number), age: Age(number), object: ObjectIndex(0), call: Class(0) }
    }

    fn bell(words: &str) -> Arc<Bell> {
        Arc::new(Bell::asked_by(words.to_string()))
    }

    async fn rung(bell: &Bell) -> Option<Woken> {
        bell.wait(Instant::now() + Duration::from_millis(2)).await
    }

    #[tokio::test]
    async fn a_call_is_asked_for_when_its_blocker_ends_and_goes_when_it_may() {
        let (waits, mut asked) = waits();
        let bell = bell("would 1.1 0 hold");
        waits.busy(asker(1), &bell, Number(9));
        assert!(asked.try_recv().is_err());
        waits.ended(Number(9), Touched::default());
        assert_eq!(asked.try_recv().unwrap().words, "would 1.1 0 hold");
        waits.would(Number(1), None);
        assert_eq!(rung(&bell).await, Some(Woken::Again));
        waits.leave(Number(1));
        assert_eq!(waits.counts().waiting, 0);
    }

    #[tokio::test]
    async fn a_call_that_would_be_busy_goes_on_waiting() {
        let (waits, mut asked) = waits();
        let bell = bell("would 1.1 0 hold");
        waits.busy(asker(1), &bell, Number(9));
        waits.ended(Number(9), Touched::default());
        waits.would(Number(1), Some(Number(8)));
        assert_eq!((rung(&bell).await, asked.try_recv().is_ok()), (None, true));
        waits.lost();
        assert_eq!(rung(&bell).await, Some(Woken::Over(Verdict::Lost)));
    }

    #[tokio::test]
    async fn an_attempt_tries_again_without_being_asked_for() {
        let (waits, mut asked) = waits();
        let (bell, (number, age)) = (bell(""), waits.next_attempt());
        let at = |object| Asker { number, age, object: ObjectIndex(object), call: Class(0) };
        waits.busy(at(0), &bell, Number(9));
        waits.ended(Number(9), Touched::default());
        assert_eq!((rung(&bell).await, asked.try_recv().is_err()), (Some(Woken::Again), true));
        waits.busy(at(1), &bell, Number(8));
        waits.ended(Number(9), Touched::default());
        assert_eq!(rung(&bell).await, None);
        waits.epoch_ended();
        assert_eq!(rung(&bell).await, Some(Woken::Again));
    }

    #[tokio::test]
    async fn all_ask_once_more_where_an_epoch_has_ended() {
        let (waits, mut asked) = waits();
        let bells = [bell("would 1.1 0 hold"), bell("would 1.2 0 hold")];
        waits.busy(asker(1), &bells[0], Number(9));
        waits.busy(asker(2), &bells[1], Number(8));
        waits.epoch_ended();
        assert_eq!([(); 2].map(|()| asked.try_recv().unwrap().words), ["would 1.1 0 hold", "would 1.2 0 hold"]);
        waits.would(Number(1), Some(Number(9)));
        waits.would(Number(2), None);
        assert_eq!((rung(&bells[0]).await, rung(&bells[1]).await), (None, Some(Woken::Again)));
    }

    #[tokio::test]
    async fn who_waits_at_an_object_is_shown() {
        let ((waits, _asked), name) = (waits(), |number| Some(TransactionName { life: 0, number }));
        let (number, age) = waits.next_attempt();
        waits.busy(Asker { number, age, ..asker(0) }, &bell(""), Number(9));
        assert_eq!(waits.at(ObjectIndex(0), 5), [Waiter { transaction: None, waits_for: name(9) }]);
        waits.busy(asker(1), &bell("a"), Number(9));
        assert_eq!((waits.at(ObjectIndex(0), 5).len(), waits.at(ObjectIndex(0), 1).len(), waits.at(ObjectIndex(1), 5).len()), (2, 1, 0));
        waits.leave(number);
        assert_eq!(waits.at(ObjectIndex(0), 5), [Waiter { transaction: name(1), waits_for: name(9) }]);
    }

    #[tokio::test]
    async fn the_youngest_of_a_circle_is_the_victim() {
        let (waits, _asked) = waits();
        let bells = [bell("a"), bell("b")];
        let at = |number, object| Asker { object: ObjectIndex(object), ..asker(number) };
        waits.busy(at(1, 0), &bells[0], Number(2));
        waits.busy(at(2, 1), &bells[1], Number(1));
        assert_eq!((rung(&bells[0]).await, rung(&bells[1]).await), (None, Some(Woken::Victim(Number(1)))));
        assert_eq!(waits.counts().deadlocks, 1);
    }
}

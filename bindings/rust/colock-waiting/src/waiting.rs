//! The events, and what is decided by them.

use crate::asker::{Age, Asker, Conflicts, Number, Rank};
use crate::decision::{Decision, Verdict};
use crate::graph::{Edge, Graph};
use crate::onlookers::{OnlookerId, Onlookers};
use crate::touched::Touched;
use crate::waiter::{State, Waiter};
use std::collections::{BTreeSet, VecDeque};
use std::mem;

/// All that wait at a store.
#[derive(Debug)]
pub struct Waiting<C> {
    conflicts: C,
    is_gated: bool,
    ages: u64,
    pub(crate) graph: Graph,
    /// Those that are to look at the gate, until the event is over.
    looking: BTreeSet<Rank>,
    onlookers: Onlookers,
    decisions: VecDeque<Decision>,
}

// ---- what may be asked

impl<C: Conflicts> Waiting<C> {
    /// Nobody waits.
    pub fn new(conflicts: C) -> Waiting<C> {
        Waiting {
            conflicts,
            is_gated: true,
            ages: 0,
            graph: Graph::default(),
            looking: BTreeSet::new(),
            onlookers: Onlookers::default(),
            decisions: VecDeque::new(),
        }
    }

    /// Takes the gate out, so that a test can see what it is for.
    pub fn take_gate_out(&mut self) {
        self.is_gated = false;
    }

    /// An age, which is greater than those before it.
    #[inline]
    pub fn next_age(&mut self) -> Age {
        self.ages += 1;
        Age(self.ages)
    }

    /// Whether nobody waits, and nobody looks on.
    #[inline]
    pub fn is_empty(&self) -> bool {
        self.graph.is_empty() && self.onlookers.is_empty()
    }

    /// Whether a call of this transaction waits.
    pub fn waits(&self, number: Number) -> bool {
        self.graph.waiter(number).is_some()
    }

    /// For whom a transaction waits.
    pub fn edge(&self, number: Number) -> Option<Edge> {
        self.graph.edge(number)
    }

    /// Whom the gate puts before a call, of a transaction that waits or doesn't.
    pub fn gate(&self, asker: Asker) -> Option<Number> {
        if !self.is_gated {
            return None;
        }
        self.graph.ahead(asker, &self.conflicts).map(|(rank, _)| rank.number)
    }

    /// What an asker is that waits, where the gate puts somebody before it.
    fn behind(&self, asker: Asker) -> Option<State> {
        if !self.is_gated {
            return None;
        }
        self.graph.behind(asker, &self.conflicts)
    }

    /// What is to be done next, if anything.
    pub fn next_decision(&mut self) -> Option<Decision> {
        loop {
            match self.decisions.pop_front()? {
                Decision::Ask(asker) => {
                    if let Some(waiter) = self.graph.waiter_mut(asker.number).filter(|waiter| waiter.is_due) {
                        waiter.is_due = false;
                        return Some(Decision::Ask(waiter.asker));
                    }
                }
                decision => return Some(decision),
            }
        }
    }
}

// ---- the events of one that waits

impl<C: Conflicts> Waiting<C> {
    /// A call waits from now on. It is asked for, unless the [`gate`](Waiting::gate) puts somebody before it.
    pub fn enter(&mut self, asker: Asker) {
        self.take_out(asker.number);
        // before it is the head of its lane, and is waited for
        let behind = self.behind(asker);
        self.graph.add(asker);
        match behind {
            Some(state) => {
                self.graph.put(asker.number, state);
                self.break_circle(asker.number);
            }
            None => self.is_due(asker.number),
        }
        self.settle();
    }

    /// The store answered that somebody is in the way of a call that was asked for.
    pub fn busy(&mut self, number: Number, blocker: Number) {
        if !self.is_asking(number) {
            return;
        }
        self.graph.put(number, State::BehindStore(blocker));
        self.break_circle(number);
        self.settle();
    }

    /// The store answered that it would do a call that was asked for. It goes, unless the gate puts somebody before it by
    /// now.
    pub fn may_go(&mut self, number: Number) {
        if !self.is_asking(number) {
            return;
        }
        if !self.goes_behind(number) {
            self.graph.put(number, State::Asking);
            self.decisions.push_back(Decision::Wake(number));
        }
    }

    /// The answer about a call is out of date, or the gate may put somebody before it by now: it looks again.
    pub fn again(&mut self, number: Number) {
        if self.is_asking(number) {
            self.release(number);
            self.settle();
        }
    }

    /// A call waits no more: it was answered, or is given up.
    pub fn leave(&mut self, number: Number) {
        self.take_out(number);
        self.settle();
    }

    fn is_asking(&self, number: Number) -> bool {
        self.graph.waiter(number).is_some_and(|waiter| waiter.state == State::Asking)
    }
}

// ---- the events of others

impl<C: Conflicts> Waiting<C> {
    /// A transaction has ended, which had touched some objects.
    pub fn ended(&mut self, number: Number, touched: Touched) {
        let gone = self.take_out(number);
        self.end(gone, Verdict::Gone);
        self.took_back(number, touched);
        let mut free = self.onlookers.take(number);
        free.extend(self.onlookers.take_of_any());
        self.decisions.extend(free.into_iter().map(Decision::OnlookerFree));
    }

    /// A transaction has taken something back, which had touched some objects. Whoever waits for it may be free by now,
    /// and whoever waits for others at such an object.
    pub fn took_back(&mut self, number: Number, touched: Touched) {
        self.release_each(self.graph.freed(number, touched));
        self.settle();
    }

    /// Any transaction may have ended: whoever isn't kept by the gate is asked for, and nobody looks on any more.
    pub fn all_again(&mut self) {
        self.release_each(self.graph.all_stored());
        self.settle();
        self.free_onlookers();
    }

    /// The epoch has ended, and all that wait with it.
    pub fn epoch_ended(&mut self) {
        self.end_all(Verdict::EpochEnded);
    }

    /// The store is lost, and all that wait with it.
    pub fn lost(&mut self) {
        self.end_all(Verdict::Lost);
    }

    fn end_all(&mut self, verdict: Verdict) {
        mem::take(&mut self.graph).into_waiters().for_each(|waiter| self.end(Some(waiter), verdict));
        self.free_onlookers();
    }

    /// Tells a waiter that was taken out why. A victim knows it already.
    fn end(&mut self, gone: Option<Waiter>, verdict: Verdict) {
        if let Some(waiter) = gone.filter(|waiter| waiter.state != State::Condemned) {
            self.decisions.push_back(Decision::End { number: waiter.asker.number, verdict });
        }
    }
}

// ---- onlookers

impl<C: Conflicts> Waiting<C> {
    /// Somebody waits for the end of a transaction that is open.
    pub fn look_on(&mut self, number: Number) -> OnlookerId {
        self.onlookers.add(number)
    }

    /// Somebody waits for the end of any transaction. Each end is for one of them, in their order.
    pub fn look_on_any(&mut self) -> OnlookerId {
        self.onlookers.add_of_any()
    }

    /// Whether the end that was waited for isn't there yet.
    pub fn looks_on(&self, id: OnlookerId) -> bool {
        self.onlookers.has(id)
    }

    /// It isn't waited for any more.
    pub fn look_away(&mut self, id: OnlookerId) {
        self.onlookers.remove(id);
    }

    fn free_onlookers(&mut self) {
        let free = self.onlookers.take_all();
        self.decisions.extend(free.into_iter().map(Decision::OnlookerFree));
    }
}

// ---- what follows from events

impl<C: Conflicts> Waiting<C> {
    /// Takes a waiter out. Whoever went behind it by the gate goes behind the next one of its lane, or looks again.
    fn take_out(&mut self, number: Number) -> Option<Waiter> {
        let asker = self.graph.waiter(number)?.asker;
        let was_head = self.graph.head(asker.object, asker.call) == Some(number);
        let waiter = self.graph.remove(number);
        self.release_each(self.graph.behind_member(number));
        if was_head {
            self.release_each(self.graph.overtakers(asker.object, asker.call));
            if let Some(head) = self.graph.head(asker.object, asker.call) {
                self.break_circle(head);
            }
        }
        waiter
    }

    fn release_each(&mut self, ranks: impl IntoIterator<Item = Rank>) {
        ranks.into_iter().for_each(|rank| self.release(rank.number));
    }

    /// Takes the edge of a waiter out, which is to look at the gate.
    fn release(&mut self, number: Number) {
        self.graph.put(number, State::Asking);
        if let Some(waiter) = self.graph.waiter(number) {
            self.looking.insert(waiter.asker.rank());
        }
    }

    /// Breaks the circle through a transaction, if there is one. Who is in it by the gate, and holds what another one in
    /// it waits for, passes, the oldest of them; else the youngest is the victim.
    fn break_circle(&mut self, number: Number) {
        let Some(circle) = self.graph.circle(number) else { return };
        let in_front = circle.iter().cycle().skip(1);
        let passing = circle.iter().zip(in_front).filter(|(one, next)| !one.state.is_by_gate() && next.state.is_by_gate());
        if let Some((_, next)) = passing.min_by_key(|(_, next)| next.asker.rank()) {
            self.release(next.asker.number);
        } else if let Some(victim) = circle.iter().max_by_key(|waiter| waiter.asker.rank()) {
            self.condemn(victim);
        }
    }

    fn condemn(&mut self, victim: &Waiter) {
        let number = victim.asker.number;
        if let State::BehindStore(waited_for) = victim.state {
            self.graph.put(number, State::Condemned);
            self.decisions.push_back(Decision::Abort { number, waited_for });
        }
    }

    /// Those that are to look at the gate do so, the oldest first: each goes behind somebody, or is asked for.
    fn settle(&mut self) {
        while let Some(rank) = self.looking.pop_first() {
            self.look(rank.number);
        }
    }

    fn look(&mut self, number: Number) {
        if !self.goes_behind(number) {
            self.is_due(number);
        }
    }

    /// The store is to be asked for a call.
    fn is_due(&mut self, number: Number) {
        if let Some(waiter) = self.graph.waiter_mut(number) {
            waiter.is_due = true;
            self.decisions.push_back(Decision::Ask(waiter.asker));
        }
    }

    /// Puts a waiter behind whom the gate puts before it, if anyone.
    fn goes_behind(&mut self, number: Number) -> bool {
        let asker = self.graph.waiter(number).map(|waiter| waiter.asker);
        let behind = asker.and_then(|asker| self.behind(asker));
        behind.inspect(|state| self.graph.put(number, *state)).is_some()
    }
}

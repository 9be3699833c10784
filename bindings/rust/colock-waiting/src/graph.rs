//! The waiters, and for whom each of them waits. There is no circle while it is walked.

use crate::asker::{Asker, Class, Conflicts, Number, ObjectIndex, Rank};
use crate::lane::{Lane, Lanes};
use crate::touched::{place, Touched};
use crate::waiter::{State, Waiter};
use std::collections::{BTreeMap, BTreeSet};

/// For whom a transaction waits.
#[derive(Clone, Copy, Debug, PartialEq, Eq)]
pub struct Edge {
    /// The other one.
    pub to: Number,
    /// Whether the gate says so, and not the store.
    pub by_gate: bool,
}

#[derive(Debug, Default)]
pub(crate) struct Graph {
    waiters: BTreeMap<Number, Waiter>,
    lanes: Lanes,
    /// Those behind the store, by whom they are behind.
    blocked: BTreeSet<(Number, Rank)>,
    /// Those behind the store, by the place of the object.
    stored: BTreeSet<(u32, Rank)>,
    /// Those behind a member of a lane, by that.
    named: BTreeSet<(Number, Rank)>,
    #[cfg(test)]
    pub(crate) visits: std::cell::Cell<u64>,
}

// ---- the waiters

impl Graph {
    #[inline]
    pub(crate) fn is_empty(&self) -> bool {
        debug_assert!(!self.waiters.is_empty() || self.is_bare());
        self.waiters.is_empty()
    }

    pub(crate) fn waiter(&self, number: Number) -> Option<&Waiter> {
        self.visit();
        self.waiters.get(&number)
    }

    pub(crate) fn waiter_mut(&mut self, number: Number) -> Option<&mut Waiter> {
        self.visit();
        self.waiters.get_mut(&number)
    }

    pub(crate) fn add(&mut self, asker: Asker) {
        let waiter = Waiter::new(asker);
        self.waiters.insert(asker.number, waiter);
        self.lanes.insert(asker, waiter.state);
    }

    pub(crate) fn remove(&mut self, number: Number) -> Option<Waiter> {
        let waiter = self.waiters.remove(&number)?;
        self.lanes.remove(waiter.asker, waiter.state);
        self.unlist(waiter.asker, waiter.state);
        Some(waiter)
    }

    /// Puts a waiter behind somebody, or behind nobody.
    pub(crate) fn put(&mut self, number: Number, state: State) {
        let Some(waiter) = self.waiter_mut(number) else { return };
        let (asker, former) = (waiter.asker, waiter.state);
        *waiter = Waiter { asker, state, is_due: false };
        self.lanes.regroup(asker, former, state);
        self.unlist(asker, former);
        self.list(asker, state);
    }

    fn list(&mut self, asker: Asker, state: State) {
        let rank = asker.rank();
        match state {
            State::Asking | State::Condemned => {}
            State::BehindStore(blocker) => {
                self.blocked.insert((blocker, rank));
                self.stored.insert((place(asker.object), rank));
            }
            State::BehindLane(class) => self.lanes.follow(asker, class),
            State::BehindMember(member) => {
                self.named.insert((member, rank));
            }
        }
    }

    fn unlist(&mut self, asker: Asker, state: State) {
        let rank = asker.rank();
        match state {
            State::Asking | State::Condemned => {}
            State::BehindStore(blocker) => {
                self.blocked.remove(&(blocker, rank));
                self.stored.remove(&(place(asker.object), rank));
            }
            State::BehindLane(class) => self.lanes.unfollow(asker, class),
            State::BehindMember(member) => {
                self.named.remove(&(member, rank));
            }
        }
    }

    /// Whether nothing is left of those that waited.
    fn is_bare(&self) -> bool {
        self.lanes.is_empty() && self.blocked.is_empty() && self.stored.is_empty() && self.named.is_empty()
    }

    /// Counts, in tests, how often a waiter is looked at.
    fn visit(&self) {
        #[cfg(test)]
        self.visits.set(self.visits.get() + 1);
    }
}

// ---- groups of waiters

impl Graph {
    pub(crate) fn head(&self, object: ObjectIndex, class: Class) -> Option<Number> {
        self.lanes.get(object, class).and_then(Lane::head).map(|head| head.number)
    }

    /// Those behind a lane that aren't younger than its head.
    pub(crate) fn overtakers(&self, object: ObjectIndex, class: Class) -> Vec<Rank> {
        self.lanes.get(object, class).map(Lane::overtakers).unwrap_or_default()
    }

    /// Those behind a transaction as a member of its lane.
    pub(crate) fn behind_member(&self, number: Number) -> Vec<Rank> {
        range_of(&self.named, number).collect()
    }

    /// Those behind the store who may be free where a transaction lets go of what it touched.
    pub(crate) fn freed(&self, number: Number, touched: Touched) -> BTreeSet<Rank> {
        let at_places = touched.places().flat_map(|place| range_of(&self.stored, place));
        range_of(&self.blocked, number).chain(at_places).collect()
    }

    /// All behind the store.
    pub(crate) fn all_stored(&self) -> BTreeSet<Rank> {
        self.stored.iter().map(|(_, rank)| *rank).collect()
    }

    /// All waiters.
    pub(crate) fn into_waiters(self) -> impl Iterator<Item = Waiter> {
        self.waiters.into_values()
    }
}

/// The ranks that a set has with a key.
fn range_of<K: Copy + Ord>(set: &BTreeSet<(K, Rank)>, key: K) -> impl Iterator<Item = Rank> + '_ {
    set.range((key, Rank::OLDEST)..=(key, Rank::YOUNGEST)).map(|(_, rank)| *rank)
}

// ---- walks

impl Graph {
    /// For whom a transaction waits.
    pub(crate) fn edge(&self, number: Number) -> Option<Edge> {
        let waiter = self.waiter(number)?;
        let to = match waiter.state {
            State::Asking | State::Condemned => return None,
            State::BehindStore(other) | State::BehindMember(other) => other,
            State::BehindLane(class) => self.head(waiter.asker.object, class)?,
        };
        Some(Edge { to, by_gate: waiter.state.is_by_gate() })
    }

    /// Whether a transaction waits for another one, directly or along edges.
    fn waits(&self, number: Number, other: Number) -> bool {
        let mut at = self.edge(number);
        while let Some(edge) = at {
            if edge.to == other {
                return true;
            }
            at = self.edge(edge.to);
        }
        false
    }

    /// Those in the circle through a transaction, if there is one. There is no circle elsewhere.
    pub(crate) fn circle(&self, number: Number) -> Option<Vec<Waiter>> {
        let mut members = Vec::new();
        let mut at = number;
        loop {
            members.push(*self.waiter(at)?);
            at = self.edge(at)?.to;
            if at == number {
                return Some(members);
            }
        }
    }

    /// The oldest who waits at the object and whom this call would keep out, older than the asker, whom it doesn't wait
    /// for; and what the asker is if it goes behind that one.
    pub(crate) fn ahead(&self, asker: Asker, conflicts: &impl Conflicts) -> Option<(Rank, State)> {
        let mut first: Option<(Rank, State)> = None;
        for (class, lane) in self.lanes.before(asker.object, asker.rank()) {
            // whoever is in this lane or a later one is younger
            if first.is_some_and(|(rank, _)| Some(rank) < lane.head()) {
                break;
            }
            if conflicts.blocks(asker.object, asker.call, class) {
                first = first.into_iter().chain(self.ahead_in(class, lane, asker)).min();
            }
        }
        first
    }

    /// What an asker is that goes behind somebody. Where that may be the head of its own lane, it is: so it looks again
    /// as the head, and not each time that others let go.
    pub(crate) fn behind(&self, asker: Asker, conflicts: &impl Conflicts) -> Option<State> {
        let own = self.lanes.get(asker.object, asker.call).filter(|_| conflicts.blocks(asker.object, asker.call, asker.call));
        if own.and_then(Lane::head).is_some_and(|head| self.is_ahead(head, asker)) {
            return Some(State::BehindLane(asker.call));
        }
        self.ahead(asker, conflicts).map(|(_, state)| state)
    }

    fn is_ahead(&self, rank: Rank, asker: Asker) -> bool {
        rank < asker.rank() && !self.waits(rank.number, asker.number)
    }

    fn ahead_in(&self, class: Class, lane: &Lane, asker: Asker) -> Option<(Rank, State)> {
        let head = lane.head().filter(|head| *head < asker.rank())?;
        if self.is_ahead(head, asker) {
            return Some((head, State::BehindLane(class)));
        }
        let member = lane.group_heads().filter(|rank| self.is_ahead(*rank, asker)).min()?;
        Some((member, State::BehindMember(member.number)))
    }
}

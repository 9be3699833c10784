//! The lanes of the objects, which spare the gate a look at each who waits.

use crate::asker::{Asker, Class, ObjectIndex, Rank};
use crate::waiter::State;
use std::collections::{BTreeMap, BTreeSet};

/// Those that wait at an object with calls of one class, and those that go behind the oldest of them.
#[derive(Debug, Default)]
pub(crate) struct Lane {
    members: BTreeSet<Rank>,
    /// The members, by whom they are behind.
    groups: BTreeMap<State, BTreeSet<Rank>>,
    /// Each is younger than the head.
    followers: BTreeSet<Rank>,
}

impl Lane {
    /// The oldest member.
    pub(crate) fn head(&self) -> Option<Rank> {
        self.members.first().copied()
    }

    /// The oldest of the members behind each one that is in front of members.
    pub(crate) fn group_heads(&self) -> impl Iterator<Item = Rank> + '_ {
        self.groups.values().filter_map(|group| group.first().copied())
    }

    fn join(&mut self, rank: Rank, state: State) {
        self.groups.entry(state).or_default().insert(rank);
    }

    fn part(&mut self, rank: Rank, state: State) {
        let Some(group) = self.groups.get_mut(&state) else { return };
        group.remove(&rank);
        if group.is_empty() {
            self.groups.remove(&state);
        }
    }

    /// The followers that aren't younger than the head, all where there is none.
    pub(crate) fn overtakers(&self) -> Vec<Rank> {
        match self.head() {
            Some(head) => self.followers.range(..=head).copied().collect(),
            None => self.followers.iter().copied().collect(),
        }
    }
}

/// All lanes where somebody waits.
#[derive(Debug, Default)]
pub(crate) struct Lanes {
    lanes: BTreeMap<(ObjectIndex, Class), Lane>,
    /// The lane of each head.
    heads: BTreeMap<(ObjectIndex, Rank), Class>,
}

impl Lanes {
    pub(crate) fn get(&self, object: ObjectIndex, class: Class) -> Option<&Lane> {
        self.lanes.get(&(object, class))
    }

    /// Those at an object whose heads are older than somebody, that of the oldest first.
    pub(crate) fn before(&self, object: ObjectIndex, rank: Rank) -> impl Iterator<Item = (Class, &Lane)> {
        let heads = self.heads.range((object, Rank::OLDEST)..(object, rank));
        heads.filter_map(move |(_, class)| Some((*class, self.get(object, *class)?)))
    }

    pub(crate) fn insert(&mut self, asker: Asker, state: State) {
        self.change(asker, |lane| {
            lane.members.insert(asker.rank());
            lane.join(asker.rank(), state);
        });
    }

    pub(crate) fn remove(&mut self, asker: Asker, state: State) {
        self.change(asker, |lane| {
            lane.members.remove(&asker.rank());
            lane.part(asker.rank(), state);
        });
    }

    /// A member is behind somebody else.
    pub(crate) fn regroup(&mut self, asker: Asker, former: State, state: State) {
        if let Some(lane) = self.lanes.get_mut(&(asker.object, asker.call)) {
            lane.part(asker.rank(), former);
            lane.join(asker.rank(), state);
        }
    }

    /// Somebody goes behind the head of a lane.
    pub(crate) fn follow(&mut self, asker: Asker, class: Class) {
        self.lanes.entry((asker.object, class)).or_default().followers.insert(asker.rank());
    }

    pub(crate) fn unfollow(&mut self, asker: Asker, class: Class) {
        if let Some(lane) = self.lanes.get_mut(&(asker.object, class)) {
            lane.followers.remove(&asker.rank());
        }
        self.clear(asker.object, class);
    }

    /// Changes the members of a lane, which may have another head after it.
    fn change(&mut self, asker: Asker, change: impl FnOnce(&mut Lane)) {
        let (object, class) = (asker.object, asker.call);
        let lane = self.lanes.entry((object, class)).or_default();
        let former = lane.head();
        change(lane);
        let head = lane.head();
        if former != head {
            former.and_then(|former| self.heads.remove(&(object, former)));
            head.and_then(|head| self.heads.insert((object, head), class));
        }
        self.clear(object, class);
    }

    /// A lane goes where nobody is in it or behind it.
    fn clear(&mut self, object: ObjectIndex, class: Class) {
        if self.get(object, class).is_some_and(|lane| lane.members.is_empty() && lane.followers.is_empty()) {
            self.lanes.remove(&(object, class));
        }
    }

    pub(crate) fn is_empty(&self) -> bool {
        self.lanes.is_empty() && self.heads.is_empty()
    }
}

#[cfg(test)]
mod tests {
    use super::{Lane, Lanes};
    use crate::asker::{Age, Asker, Class, Number, ObjectIndex, Rank};
    use crate::waiter::State;

    const OBJECT: ObjectIndex = ObjectIndex(7);

    fn asker(age: u64, class: u8) -> Asker {
        Asker { number: Number(age), age: Age(age), object: OBJECT, call: Class(class) }
    }

    /// The classes with older heads.
    fn before(lanes: &Lanes, age: u64) -> Vec<u8> {
        lanes.before(OBJECT, asker(age, 0).rank()).map(|(class, _)| class.0).collect()
    }

    #[test]
    fn lanes_are_in_the_order_of_their_heads() {
        let mut lanes = Lanes::default();
        for (age, class) in [(3, 0), (2, 1), (5, 2), (4, 1)] {
            lanes.insert(asker(age, class), State::Asking);
        }
        assert_eq!((before(&lanes, 9), before(&lanes, 5), before(&lanes, 2)), (vec![1, 0, 2], vec![1, 0], vec![]));
        lanes.remove(asker(2, 1), State::Asking);
        assert_eq!(before(&lanes, 9), [0, 1, 2]);
        lanes.insert(asker(1, 2), State::Asking);
        assert_eq!(before(&lanes, 9), [2, 0, 1]);
        for (age, class) in [(3, 0), (5, 2), (4, 1), (1, 2)] {
            assert!(!lanes.is_empty());
            lanes.remove(asker(age, class), State::Asking);
        }
        assert!(lanes.is_empty());
    }

    #[test]
    fn who_follows_overtakes_a_younger_head() {
        let mut lanes = Lanes::default();
        let overtakers = |lanes: &Lanes| lanes.get(OBJECT, Class(0)).map(Lane::overtakers).unwrap_or_default();
        let ranks = |ages: &[u64]| ages.iter().map(|age| asker(*age, 0).rank()).collect::<Vec<Rank>>();
        lanes.insert(asker(1, 0), State::Asking);
        lanes.insert(asker(4, 0), State::Asking);
        lanes.follow(asker(3, 1), Class(0));
        lanes.follow(asker(5, 1), Class(0));
        lanes.follow(asker(4, 0), Class(0));
        assert_eq!(overtakers(&lanes), []);
        lanes.remove(asker(1, 0), State::Asking);
        assert_eq!(overtakers(&lanes), ranks(&[3, 4]));
        lanes.remove(asker(4, 0), State::Asking);
        assert_eq!(overtakers(&lanes), ranks(&[3, 4, 5]));
        (3..=5).for_each(|age| lanes.unfollow(asker(age, 1), Class(0)));
        assert!(lanes.is_empty());
    }

    #[test]
    fn members_are_grouped_by_whom_they_are_behind() {
        let mut lanes = Lanes::default();
        let behind = State::BehindStore(Number(90));
        (1..=4).for_each(|age| lanes.insert(asker(age, 0), if age < 3 { behind } else { State::Asking }));
        let heads = |lanes: &Lanes| lanes.get(OBJECT, Class(0)).map(|lane| lane.group_heads().map(|rank| rank.number.0).collect::<Vec<_>>());
        assert_eq!(heads(&lanes), Some(vec![3, 1]));
        lanes.regroup(asker(1, 0), behind, State::Asking);
        assert_eq!(heads(&lanes), Some(vec![1, 2]));
        lanes.regroup(asker(2, 0), behind, State::Condemned);
        assert_eq!(heads(&lanes), Some(vec![1, 2]));
        lanes.remove(asker(2, 0), State::Condemned);
        assert_eq!(heads(&lanes), Some(vec![1]));
    }
}

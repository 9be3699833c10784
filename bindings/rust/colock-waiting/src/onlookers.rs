//! Who waits for the end of a transaction, or of any, and isn't one itself.

use crate::asker::Number;
use std::collections::{BTreeMap, BTreeSet};
use std::mem;

/// Names somebody who looks on.
#[derive(Clone, Copy, Debug, PartialEq, Eq, PartialOrd, Ord, Hash)]
pub struct OnlookerId(pub u64);

impl OnlookerId {
    const FIRST: OnlookerId = OnlookerId(0);
    const LAST: OnlookerId = OnlookerId(u64::MAX);
}

#[derive(Debug, Default)]
pub(crate) struct Onlookers {
    made: u64,
    of: BTreeMap<OnlookerId, Number>,
    by_number: BTreeSet<(Number, OnlookerId)>,
    of_any: BTreeSet<OnlookerId>,
}

impl Onlookers {
    #[inline]
    pub(crate) fn is_empty(&self) -> bool {
        self.of.is_empty() && self.of_any.is_empty()
    }

    fn next_id(&mut self) -> OnlookerId {
        let id = OnlookerId(self.made);
        self.made += 1;
        id
    }

    pub(crate) fn add(&mut self, number: Number) -> OnlookerId {
        let id = self.next_id();
        self.of.insert(id, number);
        self.by_number.insert((number, id));
        id
    }

    pub(crate) fn add_of_any(&mut self) -> OnlookerId {
        let id = self.next_id();
        self.of_any.insert(id);
        id
    }

    pub(crate) fn has(&self, id: OnlookerId) -> bool {
        self.of.contains_key(&id) || self.of_any.contains(&id)
    }

    pub(crate) fn remove(&mut self, id: OnlookerId) {
        self.of_any.remove(&id);
        if let Some(number) = self.of.remove(&id) {
            self.by_number.remove(&(number, id));
        }
    }

    /// Those of a transaction, which look on no more.
    pub(crate) fn take(&mut self, number: Number) -> Vec<OnlookerId> {
        let ids: Vec<OnlookerId> = self.by_number.range((number, OnlookerId::FIRST)..=(number, OnlookerId::LAST)).map(|(_, id)| *id).collect();
        ids.iter().for_each(|id| self.remove(*id));
        ids
    }

    /// The first of those of any transaction, which looks on no more: an end makes room for one.
    pub(crate) fn take_of_any(&mut self) -> Option<OnlookerId> {
        self.of_any.pop_first()
    }

    /// All of them, which look on no more, in their order.
    pub(crate) fn take_all(&mut self) -> Vec<OnlookerId> {
        self.by_number.clear();
        let mut ids: Vec<OnlookerId> = mem::take(&mut self.of).into_keys().chain(mem::take(&mut self.of_any)).collect();
        ids.sort_unstable();
        ids
    }
}

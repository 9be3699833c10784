//! What a shared store in memory keeps of keys, under its lock: what became of their transactions, and which are prepared.

use crate::error::Error;
use crate::key::{Key, KeyOutcome};
use crate::prepared::{Decision, Prepared};
use crate::shared::state::Ticket;
use crate::transaction_id::TransactionId;
use std::collections::{BTreeMap, HashMap, VecDeque};
use std::sync::Arc;

/// What is known of a key.
#[derive(Debug)]
enum Known {
    /// Its transaction committed, with these replies, with a space between two.
    Committed(Box<str>),
    Aborted,
    /// One is prepared under it, at this place.
    Prepared(u64),
}

/// A transaction that is prepared, or is to be.
#[derive(Debug)]
pub(crate) struct Preparation {
    pub(crate) ticket: Ticket,
    pub(crate) until: u32,
    /// At which it holds operations, ascending.
    pub(crate) objects: Vec<u32>,
}

/// The outcomes of keys, and the transactions that are prepared. There are only so many outcomes: the oldest go first. In a file at least
/// as many stay; and here no more, so that the room for them has an end.
#[derive(Debug)]
pub(crate) struct Keys {
    known: HashMap<Arc<str>, Known>,
    /// The keys of transactions that have ended, the oldest first.
    ended: VecDeque<Arc<str>>,
    most: usize,
    /// Those that are prepared, by their places, which are in the order in which they were prepared.
    prepared: BTreeMap<u64, (Arc<str>, Preparation)>,
    next_place: u64,
}

impl Keys {
    /// None yet, of which so many outcomes are kept.
    pub(crate) fn of(most: u32) -> Keys {
        let most = usize::try_from(most).unwrap_or(usize::MAX);
        Keys { known: HashMap::new(), ended: VecDeque::new(), most, prepared: BTreeMap::new(), next_place: 0 }
    }

    /// What became of the key's transaction.
    pub(crate) fn outcome(&self, key: Key<'_>) -> KeyOutcome {
        match self.known.get(key.as_str()) {
            None => KeyOutcome::Unknown,
            Some(Known::Committed(replies)) => KeyOutcome::of_replies(replies),
            Some(Known::Aborted) => KeyOutcome::Aborted,
            Some(Known::Prepared(_)) => KeyOutcome::Prepared,
        }
    }

    /// The replies of the key's transaction, where it is known that it committed; nothing where something may be done under the
    /// key. [`Error::KeyPrepared`] or [`Error::KeyAborted`].
    pub(crate) fn replies(&self, key: Key<'_>) -> Result<Option<&str>, Error> {
        match self.known.get(key.as_str()) {
            None => Ok(None),
            Some(Known::Committed(replies)) => Ok(Some(replies)),
            Some(Known::Aborted) => Err(Error::KeyAborted),
            Some(Known::Prepared(_)) => Err(Error::KeyPrepared),
        }
    }

    /// The transaction of a key that isn't known has committed with these replies.
    pub(crate) fn keep(&mut self, key: Key<'_>, replies: String) {
        self.keep_end(key, Known::Committed(replies.into()));
    }

    /// The transaction of a key that isn't known, or is prepared, has ended so. Where there is one too many now, the oldest goes.
    fn keep_end(&mut self, key: Key<'_>, end: Known) {
        let key: Arc<str> = Arc::from(key.as_str());
        self.ended.push_back(Arc::clone(&key));
        self.known.insert(key, end);
        if self.ended.len() > self.most {
            if let Some(oldest) = self.ended.pop_front() {
                self.known.remove(&oldest);
            }
        }
    }

    // ---- what is prepared

    /// Prepares a transaction that isn't prepared. [`Error::NotOpen`], [`Error::KeyPrepared`], [`Error::KeyCommitted`] or
    /// [`Error::KeyAborted`], by the first that holds: nothing changes.
    pub(crate) fn prepare(&mut self, key: Key<'_>, preparation: Preparation, is_open: bool) -> Result<(), Error> {
        if !is_open {
            return Err(Error::NotOpen);
        }
        if self.replies(key)?.is_some() {
            return Err(Error::KeyCommitted);
        }
        let (place, key) = (self.next_place, Arc::<str>::from(key.as_str()));
        self.next_place += 1;
        self.known.insert(Arc::clone(&key), Known::Prepared(place));
        self.prepared.insert(place, (key, preparation));
        Ok(())
    }

    /// Whether this transaction is prepared under this key.
    pub(crate) fn is_prepared(&self, key: &str, id: TransactionId) -> bool {
        let Some(Known::Prepared(place)) = self.known.get(key) else { return false };
        self.prepared.get(place).is_some_and(|(_, preparation)| preparation.ticket.id == id)
    }

    /// Those that are prepared, in the order in which they were.
    pub(crate) fn prepared(&self) -> Vec<Prepared> {
        let told = |(key, Preparation { ticket, until, objects }): &(Arc<str>, Preparation)| Prepared {
            key: key.to_string(),
            id: ticket.id,
            until: *until,
            objects: objects.clone(),
        };
        self.prepared.values().map(told).collect()
    }

    /// The tickets of those that are prepared.
    pub(crate) fn tickets(&self) -> impl Iterator<Item = Ticket> + '_ {
        self.prepared.values().map(|(_, preparation)| preparation.ticket)
    }

    /// The transaction that a decision ends, or nothing where all is as it decides. [`Error::KeyUnknown`] or [`Error::Decided`].
    pub(crate) fn undecided(&self, key: Key<'_>, decision: Decision) -> Result<Option<Ticket>, Error> {
        match (self.known.get(key.as_str()), decision) {
            (Some(Known::Prepared(place)), _) => Ok(self.prepared.get(place).map(|(_, preparation)| preparation.ticket)),
            (Some(Known::Committed(_)), Decision::Commit) | (Some(Known::Aborted) | None, Decision::Abort) => Ok(None),
            (Some(_), _) => Err(Error::Decided),
            (None, Decision::Commit) => Err(Error::KeyUnknown),
        }
    }

    /// What is prepared under a key has ended so; where nobody had the key, it is kept that it is aborted.
    pub(crate) fn decide(&mut self, key: Key<'_>, decision: Decision) {
        match self.known.get(key.as_str()) {
            Some(Known::Prepared(place)) => self.prepared.remove(place),
            Some(_) => return, // and that was kept before
            None => None,
        };
        let end = match decision {
            Decision::Commit => Known::Committed(Box::default()),
            Decision::Abort => Known::Aborted,
        };
        self.keep_end(key, end);
    }
}

#[cfg(test)]
mod tests {
    use super::{Keys, Preparation};
    use crate::key::{Key, KeyOutcome};
    use crate::prepared::Decision;
    use crate::shared::state::Ticket;
    use crate::{Error, TransactionId};
    use std::collections::BTreeMap;

    fn names() -> Vec<String> {
        (0..10).map(|number| format!("k{number}")).collect()
    }

    fn keys_of(names: &[String]) -> Vec<Key<'_>> {
        names.iter().map(|name| Key::of(name).unwrap()).collect()
    }

    fn preparation(number: u64) -> Preparation {
        let until = u32::try_from(number).unwrap();
        Preparation { ticket: Ticket::new(TransactionId::new(0, number), number, 0), until, objects: vec![until] }
    }

    #[test]
    fn the_oldest_go_first() {
        let names = names();
        let all = keys_of(&names);
        for most in [0, 1, 3, 9] {
            let mut keys = Keys::of(most);
            for (at, key) in all.iter().enumerate() {
                assert_eq!(keys.replies(*key), Ok(None));
                keys.keep(*key, at.to_string());
                let first = (at + 1).saturating_sub(most as usize);
                for (other, key) in all.iter().enumerate() {
                    let replies = other.to_string();
                    let is_kept = (first..=at).contains(&other);
                    assert_eq!(keys.replies(*key), Ok(is_kept.then_some(replies.as_str())), "{other} of {at}");
                }
                assert_eq!((keys.known.len(), keys.ended.len()), (at + 1 - first, at + 1 - first));
            }
        }
    }

    /// And never one that is prepared, which is the newest where it has ended.
    #[test]
    fn what_is_prepared_is_kept() {
        let names = names();
        let all = keys_of(&names);
        let mut keys = Keys::of(2);
        keys.prepare(all[0], preparation(7), true).unwrap();
        all[1..9].iter().for_each(|key| keys.keep(*key, String::new()));
        assert_eq!((keys.outcome(all[0]), keys.outcome(all[6]), keys.known.len()), (KeyOutcome::Prepared, KeyOutcome::Unknown, 3));
        keys.decide(all[0], Decision::Abort);
        keys.keep(all[9], String::new());
        assert_eq!((keys.outcome(all[0]), keys.outcome(all[8]), keys.prepared().len()), (KeyOutcome::Aborted, KeyOutcome::Unknown, 0));
    }

    /// The gate as it is said: what is prepared in its order, and the ends, of which the last few are known.
    #[derive(Default)]
    struct Model {
        prepared: Vec<(usize, u64)>,
        ends: Vec<(usize, Decision)>,
        kept: usize,
    }

    impl Model {
        fn end(&self, key: usize) -> Option<Decision> {
            self.ends.iter().rev().take(self.kept).find(|(other, _)| *other == key).map(|(_, end)| *end)
        }

        fn holder(&self, key: usize) -> Option<u64> {
            self.prepared.iter().find(|(other, _)| *other == key).map(|(_, number)| *number)
        }

        fn prepare(&mut self, key: usize, number: u64, is_open: bool) -> Result<(), Error> {
            match (is_open, self.holder(key), self.end(key)) {
                (false, ..) => Err(Error::NotOpen),
                (_, Some(_), _) => Err(Error::KeyPrepared),
                (_, _, Some(Decision::Commit)) => Err(Error::KeyCommitted),
                (_, _, Some(Decision::Abort)) => Err(Error::KeyAborted),
                _ => {
                    self.prepared.push((key, number));
                    Ok(())
                }
            }
        }

        /// Who is ended, where anybody is.
        fn decide(&mut self, key: usize, decision: Decision) -> Result<Option<u64>, Error> {
            let holder = self.holder(key);
            match (holder, self.end(key)) {
                (None, Some(end)) if end == decision => return Ok(None),
                (None, Some(_)) => return Err(Error::Decided),
                (None, None) if decision == Decision::Commit => return Err(Error::KeyUnknown),
                _ => {}
            }
            self.prepared.retain(|(other, _)| *other != key);
            self.ends.push((key, decision));
            Ok(holder)
        }

        fn outcome(&self, key: usize) -> KeyOutcome {
            match (self.holder(key), self.end(key)) {
                (Some(_), _) => KeyOutcome::Prepared,
                (_, Some(Decision::Commit)) => KeyOutcome::Committed { replies: vec![] },
                (_, Some(Decision::Abort)) => KeyOutcome::Aborted,
                _ => KeyOutcome::Unknown,
            }
        }
    }

    /// Numbers that look random.
    fn drawn(state: &mut u64, below: u64) -> u64 {
        *state = state.wrapping_mul(6_364_136_223_846_793_005).wrapping_add(1_442_695_040_888_963_407);
        (*state >> 33) % below
    }

    #[test]
    fn the_gate_is_as_its_model() {
        let names = names();
        let all = keys_of(&names);
        for seed in 0..40 {
            let kept = [0, 1, 3, 20][seed as usize % 4];
            let (mut keys, mut model, mut state) = (Keys::of(kept), Model { kept: kept as usize, ..Model::default() }, seed);
            for number in 0..150 {
                let at = drawn(&mut state, 10) as usize;
                let decision = [Decision::Commit, Decision::Abort][drawn(&mut state, 2) as usize];
                if drawn(&mut state, 2) == 0 {
                    let is_open = drawn(&mut state, 8) > 0;
                    assert_eq!(keys.prepare(all[at], preparation(number), is_open), model.prepare(at, number, is_open));
                } else {
                    let told = keys.undecided(all[at], decision).map(|ticket| ticket.map(|ticket| ticket.id.number));
                    assert_eq!(told, model.decide(at, decision));
                    if told.is_ok() {
                        keys.decide(all[at], decision);
                    }
                }
                let told: Vec<(String, u32)> = keys.prepared().into_iter().map(|prepared| (prepared.key, prepared.until)).collect();
                assert_eq!(told, model.prepared.iter().map(|(key, number)| (names[*key].clone(), *number as u32)).collect::<Vec<_>>());
                let holders: BTreeMap<usize, u64> = model.prepared.iter().copied().collect();
                for (place, key) in all.iter().enumerate() {
                    assert_eq!(keys.outcome(*key), model.outcome(place));
                    let holds = |number| keys.is_prepared(key.as_str(), TransactionId::new(0, number));
                    let holder = holders.get(&place).copied();
                    assert_eq!((holder.is_none_or(holds), holds(holder.map_or(number, |number| number + 1))), (true, false));
                }
            }
        }
    }
}

//! Prepared transactions as a model says, by drawn calls.

#[macro_use]
mod common;

use colock::{Attempt, Decision, Error, KeyOutcome, SharedTransaction};
use common::{counter, Drawn, Make};
use std::collections::BTreeMap;

/// How many calls are drawn.
const CALLS: u64 = 300;

over_both![it_is_as_its_model];

/// What is to come of all that is asked under some keys, which many transactions have.
#[derive(Default)]
struct Model {
    /// By their keys, in their order.
    prepared: Vec<usize>,
    ends: BTreeMap<usize, KeyOutcome>,
    /// How many have committed.
    commits: u64,
}

impl Model {
    fn outcome(&self, key: usize) -> KeyOutcome {
        match self.prepared.contains(&key) {
            true => KeyOutcome::Prepared,
            false => self.ends.get(&key).cloned().unwrap_or(KeyOutcome::Unknown),
        }
    }

    /// By which error a key isn't free for an end of another one, where it isn't.
    fn refusal(&self, key: usize) -> Option<Error> {
        match self.outcome(key) {
            KeyOutcome::Prepared => Some(Error::KeyPrepared),
            KeyOutcome::Aborted => Some(Error::KeyAborted),
            _ => None,
        }
    }

    fn prepare(&mut self, key: usize, before: Option<usize>) -> Result<(), Error> {
        let error = match before {
            Some(before) if !self.prepared.contains(&before) => Some(Error::NotOpen),
            Some(before) if before != key => Some(Error::Prepared),
            Some(_) => return Ok(()),
            None => self.refusal(key).or(self.ends.contains_key(&key).then_some(Error::KeyCommitted)),
        };
        if error.is_none() {
            self.prepared.push(key);
        }
        error.map_or(Ok(()), Err)
    }

    fn decide(&mut self, key: usize, decision: Decision) -> Result<(), Error> {
        match (self.outcome(key), decision) {
            (KeyOutcome::Prepared, _) | (KeyOutcome::Unknown, Decision::Abort) => {}
            (KeyOutcome::Committed { .. }, Decision::Commit) | (KeyOutcome::Aborted, Decision::Abort) => return Ok(()),
            (KeyOutcome::Unknown, Decision::Commit) => return Err(Error::KeyUnknown),
            _ => return Err(Error::Decided),
        }
        self.prepared.retain(|other| *other != key);
        self.end(key, decision, vec![]);
        Ok(())
    }

    fn end(&mut self, key: usize, decision: Decision, replies: Vec<String>) {
        let outcome = match decision {
            Decision::Commit => KeyOutcome::Committed { replies },
            Decision::Abort => KeyOutcome::Aborted,
        };
        self.commits += u64::from(decision == Decision::Commit);
        self.ends.insert(key, outcome);
    }

    /// What comes of a commit under a key of a transaction that was prepared under one, or wasn't.
    fn commit_under(&mut self, key: usize, before: Option<usize>) -> Result<(), Error> {
        let refusal = match before {
            Some(before) if self.prepared.contains(&before) => Some(Error::Prepared),
            Some(_) => Some(Error::NotOpen),
            None => self.refusal(key),
        };
        if refusal.is_none() && !self.ends.contains_key(&key) {
            self.end(key, Decision::Commit, vec![]);
        }
        refusal.map_or(Ok(()), Err)
    }

    fn attempt_under(&mut self, key: usize) -> Result<(), Error> {
        match (self.refusal(key), self.ends.get(&key)) {
            (Some(error), _) => Err(error),
            (None, Some(KeyOutcome::Committed { replies })) if replies.is_empty() => Err(Error::OtherCalls),
            (None, Some(_)) => Ok(()),
            (None, None) => {
                self.end(key, Decision::Commit, vec!["ok".to_string()]);
                Ok(())
            }
        }
    }
}

/// Drawn calls of some transactions under more keys, of which each counts up once.
fn it_is_as_its_model(make: Make) {
    const KEYS: u64 = 40;
    let (store, mut model, mut drawn) = (make(&[&counter()]), Model::default(), Drawn::new(3));
    let names: Vec<String> = (0..KEYS).map(|key| format!("key:{key}")).collect();
    let mut begun: Vec<(SharedTransaction<'_>, Option<usize>)> = Vec::new();
    for _ in 0..CALLS {
        let (key, which) = (drawn.below(KEYS) as usize, drawn.below(4) as usize);
        let name = &names[key];
        while begun.len() <= which {
            let mut t = store.begin().unwrap();
            t.expect(0, "inc:1", "ok").unwrap();
            begun.push((t, None));
        }
        match drawn.below(7) {
            0 | 1 => {
                let (t, before) = &mut begun[which];
                let told = t.prepare(name, 0);
                assert_eq!(told, model.prepare(key, *before));
                *before = before.or(told.is_ok().then_some(key));
            }
            2 => assert_eq!(store.decide(name, Decision::Commit), model.decide(key, Decision::Commit)),
            3 => assert_eq!(store.decide(name, Decision::Abort), model.decide(key, Decision::Abort)),
            4 => assert_eq!(store.attempt_under(name, [(0, "inc:1")]).and_then(Attempt::executed).map(drop), model.attempt_under(key)),
            5 => {
                let (t, before) = begun.swap_remove(which);
                assert_eq!(t.commit_under(name), model.commit_under(key, before));
            }
            _ => drop(begun.swap_remove(which)),
        }
        assert_eq!(store.outcome(name), Ok(model.outcome(key)));
        let prepared: Vec<String> = store.prepared().unwrap().into_iter().map(|prepared| prepared.key).collect();
        assert_eq!(prepared, model.prepared.iter().map(|key| names[*key].clone()).collect::<Vec<_>>());
    }
    drop(begun);
    for key in model.prepared.clone() {
        assert_eq!(store.decide(&names[key], Decision::Abort), model.decide(key, Decision::Abort));
    }
    assert_eq!((store.kept(0), store.moment().unwrap().commits, store.open_count()), (Ok(model.commits), model.commits, Ok(0)));
}

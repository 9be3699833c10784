//! Transactions that are prepared: they are held until somebody decides them, and aborted where nobody does in time.

use crate::engine::answer::{Answer, Refusal};
use crate::engine::question::Question;
use crate::engine::{Lost, Told, LONGEST_AWAY};
use crate::names::TransactionName;
use crate::problem::{Problem, ProblemKind};
use crate::store::about::{About, Cause, Ending, Hold};
use crate::store::attempts::{refused, unexpected};
use crate::store::observer::holds_in;
use crate::store::open::Known;
use crate::store::Store;
use futures_util::future::join_all;
use std::sync::Arc;
use std::time::{Duration, Instant, SystemTime};

/// How long a store that is started again is asked again.
const LONGEST_ASKING: Duration = Duration::from_secs(30);

/// What became of the transaction of a key.
#[derive(Clone, Debug, PartialEq, Eq)]
pub enum KeyOutcome {
    /// It committed, with these replies where it was an attempt.
    Committed(Vec<String>),
    /// It was aborted.
    Aborted,
    /// It isn't decided.
    Prepared,
}

impl KeyOutcome {
    /// Its word.
    pub fn word(&self) -> &'static str {
        match self {
            KeyOutcome::Committed(_) => "committed",
            KeyOutcome::Aborted => "aborted",
            KeyOutcome::Prepared => "prepared",
        }
    }
}

/// The second since 1970, as a store keeps it: rounded down, up to the year 2106.
pub fn second_now() -> u32 {
    let since = SystemTime::UNIX_EPOCH.elapsed().unwrap_or_default();
    u32::try_from(since.as_secs()).unwrap_or(u32::MAX)
}

/// The second since 1970 that is at least so long from now.
pub fn second_after(time: Duration) -> u32 {
    let since = SystemTime::UNIX_EPOCH.elapsed().unwrap_or_default() + time;
    let seconds = since.as_secs() + u64::from(since.subsec_nanos() > 0);
    u32::try_from(seconds).unwrap_or(u32::MAX)
}

impl Store {
    /// Prepares a transaction under a key: from then on only a decision ends it. What holds it is the result, which is that of the
    /// first time where it was prepared before.
    ///
    /// # Errors
    ///
    /// A [`Problem`] where it isn't prepared.
    pub async fn prepare(&self, name: TransactionName, hold: Hold) -> Result<Hold, Problem> {
        let words = format!("prepare {name} {} {}", hold.key, hold.until);
        let told = self.asked_again(&words, || About::Prepare(name, hold.clone())).await?;
        match told.answer() {
            Some(Answer::Ok(_)) => Ok(match self.observer.open.known(name) {
                Some(Known::Open(open)) => open.hold().unwrap_or(hold),
                _ => hold,
            }),
            Some(Answer::Refused(Refusal::NotOpen)) => Err(self.ended(name)),
            Some(Answer::Refused(Refusal::Prepared)) => Err(self.prepared_problem(name)),
            Some(Answer::Refused(refusal)) => Err(self.key_problem(refusal, &hold.key).await),
            _ => Err(unexpected(&told)),
        }
    }

    /// Decides the transaction that is prepared under a key. It is durable then. An abort of a key that nobody has is kept.
    ///
    /// # Errors
    ///
    /// A [`Problem`] where it isn't decided so.
    pub async fn decide(&self, key: &Arc<str>, ending: Ending) -> Result<(), Problem> {
        let word = if ending == Ending::Commit { "commit" } else { "abort" };
        let told = self.asked_again(&format!("decide {key} {word}"), || About::Decide(Arc::clone(key), ending)).await?;
        match told.answer() {
            Some(Answer::Ok(_)) => Ok(()),
            Some(Answer::Refused(refusal)) => Err(self.key_problem(refusal, key).await),
            _ => Err(unexpected(&told)),
        }
    }

    /// What became of the transaction of a key; nothing where nobody has it.
    ///
    /// # Errors
    ///
    /// A [`Problem`] where the store is away.
    pub async fn outcome(&self, key: &str) -> Result<Option<KeyOutcome>, Problem> {
        let told = self.asked_again(&format!("outcome {key}"), || About::Outcome(Arc::from(key))).await?;
        match told.answer() {
            Some(Answer::Committed(replies)) => Ok(Some(KeyOutcome::Committed(replies.split_terminator(' ').map(str::to_string).collect()))),
            Some(Answer::Aborted) => Ok(Some(KeyOutcome::Aborted)),
            Some(Answer::Prepared) => Ok(Some(KeyOutcome::Prepared)),
            Some(Answer::Unknown) => Ok(None),
            _ => Err(unexpected(&told)),
        }
    }

    /// Whether a transaction that isn't known to be open committed under a key. The store isn't told its name, by which it may know
    /// another one that went over into its present life.
    ///
    /// # Errors
    ///
    /// A [`Problem`] where it didn't.
    pub async fn committed_under(&self, name: TransactionName, key: &str) -> Result<(), Problem> {
        match self.outcome(key).await? {
            Some(KeyOutcome::Committed(_)) => Ok(()),
            Some(KeyOutcome::Aborted) => Err(self.key_problem(Refusal::Aborted, key).await),
            Some(KeyOutcome::Prepared) => Err(self.key_problem(Refusal::KeyPrepared, key).await),
            None => Err(self.ended(name)),
        }
    }

    /// All that are prepared and not decided, in the order in which they were prepared.
    ///
    /// # Errors
    ///
    /// A [`Problem`] where the store is away.
    pub async fn prepared(&self) -> Result<Vec<(TransactionName, Hold)>, Problem> {
        let told = self.engine.ask(Question::list_about("prepared", About::Prepared)).await.map_err(|_| ProblemKind::StoreAway)?;
        match told.answer() {
            Some(Answer::Ok(_)) => Ok(holds_in(&told.listed).collect()),
            _ => Err(unexpected(&told)),
        }
    }

    /// Learns anew who is prepared, as of a store that was started: what was asked of the one before may have been done.
    ///
    /// # Errors
    ///
    /// A [`Problem`] where the store is away.
    pub async fn learn_prepared(&self) -> Result<(), Problem> {
        let listed = self.prepared().await?;
        let is_listed = |hold: &Hold| listed.iter().any(|(_, other)| other.key == hold.key);
        for hold in self.observer.open.holds().iter().filter(|hold| !is_listed(hold)) {
            // the answer says to the observer that it has ended
            self.outcome(&hold.key).await?;
        }
        Ok(())
    }

    /// Aborts what nobody decided in time.
    pub async fn abort_undecided(&self) {
        let now = second_now();
        let due: Vec<_> = self.observer.open.holds().into_iter().filter(|hold| hold.until <= now).collect();
        join_all(due.iter().map(|hold| {
            tracing::warn!(key = &*hold.key, "nobody decided it in time");
            self.decide(&hold.key, Ending::Abort(Cause::Undecided))
        }))
        .await; // where the store is away, it is tried again
    }

    /// Asks for what may be asked twice, also where the store is lost meanwhile.
    async fn asked_again(&self, words: &str, about: impl Fn() -> About) -> Result<Told, Problem> {
        let start = Instant::now();
        loop {
            match self.engine.ask(Question::about(words, about())).await {
                Ok(told) => return Ok(told),
                Err(Lost::Unasked) => return Err(ProblemKind::StoreAway.into()),
                Err(Lost::InFlight) if start.elapsed() > LONGEST_ASKING => return Err(ProblemKind::OutcomeUnknown.into()),
                Err(Lost::InFlight) => drop(self.engine.up(LONGEST_AWAY).await),
            }
        }
    }

    /// That a transaction is prepared, and under which key.
    pub fn prepared_problem(&self, name: TransactionName) -> Problem {
        let problem = Problem::new(ProblemKind::Prepared, format!("transaction {name} is prepared"));
        match self.observer.open.known(name) {
            Some(Known::Open(open)) => match open.hold() {
                Some(hold) => problem.with("key", &*hold.key).with("until", hold.until),
                None => problem,
            },
            _ => problem,
        }
    }

    /// What a refusal says of a key, with what became of its transaction.
    async fn key_problem(&self, refusal: Refusal, key: &str) -> Problem {
        let problem = Problem::new(refused(refusal), format!("the store refuses the key {key}: {refusal}")).with("key", key);
        match self.outcome(key).await {
            Ok(Some(outcome)) => problem.with("outcome", outcome.word()),
            _ => problem,
        }
    }
}

#[cfg(test)]
mod tests {
    use super::{second_after, second_now};
    use std::time::Duration;

    #[test]
    fn a_hold_lasts_at_least_as_long_as_it_is_to() {
        let (now, after) = (second_now(), second_after(Duration::from_millis(1_500)));
        assert!((now + 2..=now + 4).contains(&after), "{now} {after}");
        assert_eq!(second_after(Duration::from_secs(1 << 40)), u32::MAX);
    }
}

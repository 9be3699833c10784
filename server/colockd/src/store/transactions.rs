//! Open transactions: begins, calls that may wait, rollbacks and ends.

use crate::engine::answer::{Answer, Refusal};
use crate::engine::question::Question;
use crate::engine::{Lost, LONGEST_AWAY};
use crate::names::TransactionName;
use crate::problem::{Problem, ProblemKind};
use crate::store::about::{About, Beginning, Cause, Ending};
use crate::store::attempts::{refused, unexpected};
use crate::store::bell::{Bell, Woken};
use crate::store::calls::Call;
use crate::store::decisions::KeyOutcome;
use crate::store::open::{Known, OpenTransaction, Standing};
use crate::store::waits::Stay;
use crate::store::Store;
use colock_waiting::{Asker, Number};
use std::sync::Arc;
use std::time::Duration;
use tokio::time::{sleep, Instant};

/// How long is waited before a begin is asked again.
const BETWEEN_BEGINS: Duration = Duration::from_millis(10);

/// How long the next epoch is waited for, beyond the time in which open ones may end.
const NEXT_EPOCH: Duration = Duration::from_secs(3);

/// What is asked where a call is made.
struct Asking<'c> {
    open: &'c OpenTransaction,
    call: &'c Call,
    place: usize,
    deadline: Instant,
    bell: Option<Arc<Bell>>,
}

impl Asking<'_> {
    fn asker(&self) -> Asker {
        let (object, call) = self.call.at();
        Asker { number: Number(self.open.name.packed()), age: self.open.age, object, call }
    }

    fn problem(&self, kind: ProblemKind, why: &str) -> Problem {
        self.call.problem(kind, self.place, why)
    }

    fn busy(&self, blocker: TransactionName) -> Problem {
        self.problem(ProblemKind::Busy, &format!("transaction {blocker} is in the way")).with("blocker", blocker.to_string())
    }
}

impl Store {
    /// Begins a transaction.
    ///
    /// # Errors
    ///
    /// A [`Problem`] where it doesn't begin.
    pub async fn begin(&self, beginning: Beginning) -> Result<TransactionName, Problem> {
        let end = Instant::now() + self.drain + NEXT_EPOCH;
        loop {
            let told = self.engine.ask(Question::about("begin", About::Begin(beginning.clone()))).await.map_err(|_| ProblemKind::StoreAway)?;
            match told.answer() {
                Some(Answer::Ok(name)) => return name.parse().map_err(|_| unexpected(&told)),
                Some(Answer::Drain) if Instant::now() < end => Box::pin(sleep(BETWEEN_BEGINS)).await,
                Some(Answer::Drain) => return Err(ProblemKind::EpochEnding.into()),
                Some(Answer::Refused(refusal)) => return Err(refused(refusal).into()),
                _ => return Err(unexpected(&told)),
            }
        }
    }

    /// Makes a call, which is at a place of a list, and waits while others are in its way, at most up to a moment; the reply.
    ///
    /// # Errors
    ///
    /// A [`Problem`] where it isn't done.
    pub async fn call(&self, open: &Arc<OpenTransaction>, call: &Call, place: usize, deadline: Instant) -> Result<String, Problem> {
        let would = || format!("would {} {} {}", open.name, call.object.number, call.name);
        let start = Instant::now();
        let bell = (deadline > start).then(|| Arc::new(Bell::asked_by(would())));
        let asking = Asking { open, call, place, deadline, bell };
        let _stay = asking.bell.as_ref().map(|_| Stay::of(&self.observer.waits, asking.asker().number));
        let mut has_waited = false;
        if let Some(bell) = &asking.bell {
            if self.observer.waits.goes_behind(asking.asker(), bell) {
                has_waited = true;
                Box::pin(self.woken(&asking, || asking.problem(ProblemKind::Busy, "an older one that waits goes first"))).await?;
            }
        }
        let done = loop {
            match self.call_once(&asking).await {
                Ok(Some(reply)) => break Ok(reply),
                Ok(None) => has_waited = true,
                Err(problem) => break Err(problem),
            }
        };
        if has_waited {
            self.observer.metrics.wait_seconds.observe(start.elapsed().as_secs_f64());
        }
        done
    }

    /// The reply; nothing where it is to be asked again.
    async fn call_once(&self, asking: &Asking<'_>) -> Result<Option<String>, Problem> {
        let words = format!("call {} {} {}", asking.open.name, asking.call.object.number, asking.call.name);
        let about = About::Call(asking.asker(), asking.bell.clone());
        let told = self.engine.ask(Question::about(words, about)).await.map_err(|_| self.ended(asking.open.name))?;
        match told.answer() {
            Some(Answer::Reply(reply)) => Ok(Some(reply.to_string())),
            Some(Answer::Busy(blocker)) => Box::pin(self.woken(asking, || asking.busy(blocker))).await.map(|()| None),
            Some(Answer::Illegal) => Err(asking.problem(ProblemKind::Illegal, "no operation of it is legal now")),
            Some(Answer::Refused(Refusal::NotOpen)) => Err(self.ended(asking.open.name)),
            Some(Answer::Refused(Refusal::Prepared)) => Err(self.prepared_problem(asking.open.name)),
            Some(Answer::Refused(refusal)) => Err(asking.problem(refused(refusal), "the store refuses it")),
            _ => Err(unexpected(&told)),
        }
    }

    /// Waits until a call may be free.
    async fn woken(&self, asking: &Asking<'_>, busy: impl FnOnce() -> Problem) -> Result<(), Problem> {
        let Some(bell) = &asking.bell else { return Err(busy()) };
        match bell.wait(asking.deadline).await {
            None => Err(busy()),
            Some(Woken::Again) => Ok(()),
            Some(Woken::Over(_)) => Err(self.ended(asking.open.name)),
            Some(Woken::Victim(other)) => {
                let other = TransactionName::unpacked(other.0);
                self.abort(asking.open.name, Cause::Deadlock).await?;
                let words = format!("it waited in a circle, for transaction {other}");
                Err(asking.problem(ProblemKind::Deadlock, &words).with("waited_for", other.to_string()))
            }
        }
    }

    /// Takes back so many operations.
    ///
    /// # Errors
    ///
    /// A [`Problem`] where that isn't done.
    pub async fn rollback(&self, name: TransactionName, count: u32) -> Result<(), Problem> {
        let question = Question::about(format!("rollback {name} {count}"), About::Rollback(name, count));
        let told = self.engine.ask(question).await.map_err(|_| self.ended(name))?;
        match told.answer() {
            Some(Answer::Ok(_)) => Ok(()),
            Some(Answer::Refused(Refusal::NotOpen)) => Err(self.ended(name)),
            Some(Answer::Refused(Refusal::Prepared)) => Err(self.prepared_problem(name)),
            Some(Answer::Refused(refusal)) => Err(Problem::new(refused(refusal), format!("{count} can't be rolled back: {refusal}"))),
            _ => Err(unexpected(&told)),
        }
    }

    /// Aborts a transaction. One that is gone needs no abort.
    ///
    /// # Errors
    ///
    /// A [`Problem`] where it committed before.
    pub async fn abort(&self, name: TransactionName, cause: Cause) -> Result<(), Problem> {
        let told = self.engine.ask(Question::about(format!("abort {name}"), About::End(name, Ending::Abort(cause)))).await;
        match (told, self.observer.open.known(name)) {
            (_, Some(Known::Ended(ended))) if ended.standing == Standing::Committed => Err(self.ended(name)),
            (Err(_), _) => Ok(()), // it is gone with the store
            (Ok(told), _) => match told.answer() {
                Some(Answer::Ok(_) | Answer::Refused(Refusal::NotOpen)) => Ok(()),
                Some(Answer::Refused(Refusal::Prepared)) => Err(self.prepared_problem(name)),
                _ => Err(unexpected(&told)),
            },
        }
    }

    /// Commits a transaction, under a key where one is given. It is durable then.
    ///
    /// # Errors
    ///
    /// A [`Problem`] where it didn't commit, or that isn't known.
    pub async fn commit(&self, name: TransactionName, key: Option<&str>) -> Result<(), Problem> {
        let words = key.map_or_else(|| format!("commit {name}"), |key| format!("commit {name} {key}"));
        self.observer.open.commits(name, true);
        let told = self.engine.ask(Question::about(words, About::End(name, Ending::Commit))).await;
        let told = match told {
            Ok(told) => told,
            Err(Lost::Unasked) => {
                self.observer.learns(name, Standing::Aborted(Cause::Lost));
                return Err(ProblemKind::StoreAway.into());
            }
            Err(Lost::InFlight) => return Box::pin(self.commit_in_flight(name, key)).await,
        };
        match told.answer() {
            Some(Answer::Ok(_)) => Ok(()),
            Some(Answer::Refused(Refusal::NotOpen)) => match self.observer.open.standing(name) {
                Some(Standing::Committed) => Ok(()),
                // the next store was asked, and the one before wasn't
                _ => Err(self.uncommitted(name)),
            },
            Some(Answer::Refused(Refusal::Prepared)) => Err(self.prepared_problem(name)),
            Some(Answer::Refused(refusal)) => Err(Problem::new(refused(refusal), format!("the store refuses the commit: {refusal}"))),
            _ => Err(unexpected(&told)),
        }
    }

    /// Whether a commit happened whose answer was lost: by its key, or by what the next opening found.
    async fn commit_in_flight(&self, name: TransactionName, key: Option<&str>) -> Result<(), Problem> {
        let greeting = self.engine.up(LONGEST_AWAY * 2).await.map_err(|_| ProblemKind::OutcomeUnknown)?;
        let committed = match key {
            Some(key) => self.outcome(key).await.ok().map(|outcome| matches!(outcome, Some(KeyOutcome::Committed(_)))),
            None => self.past.committed(&self.engine, greeting, name).await,
        };
        match committed {
            Some(true) => {
                self.observer.learns(name, Standing::Committed);
                Ok(())
            }
            Some(false) => Err(self.uncommitted(name)),
            None => Err(ProblemKind::OutcomeUnknown.into()),
        }
    }

    /// That a transaction has ended whose commit wasn't done, with the store if not before.
    fn uncommitted(&self, name: TransactionName) -> Problem {
        self.observer.learns(name, Standing::Aborted(Cause::Lost));
        self.ended(name)
    }

    /// That a transaction has ended, and how as far as that is known.
    pub fn ended(&self, name: TransactionName) -> Problem {
        let problem = Problem::new(ProblemKind::Ended, format!("transaction {name} has ended"));
        match self.observer.open.known(name) {
            Some(Known::Ended(ended)) => match ended.standing {
                Standing::Committed => problem.with("state", "committed"),
                Standing::Aborted(cause) => problem.with("state", "aborted").with("cause", cause.word()),
                Standing::Unknown => problem.with("state", "unknown"),
            },
            _ => problem.with("state", "aborted"),
        }
    }
}

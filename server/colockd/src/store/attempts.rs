//! Whole transactions in one request.

use crate::engine::answer::{Answer, Refusal};
use crate::engine::question::Question;
use crate::engine::{Lost, Told};
use crate::names::TransactionName;
use crate::problem::{Problem, ProblemKind};
use crate::store::about::{About, AttemptCalls, AttemptPlace};
use crate::store::bell::Bell;
use crate::store::calls::{add_words, Call};
use crate::store::waits::Stay;
use crate::store::Store;
use hyper::Body;
use serde::{Serialize, Serializer};
use std::sync::Arc;
use std::time::Duration;
use tokio::time::{sleep, Instant};

/// How long is waited before a store is asked again whose epoch is full, or in which too many transactions are open.
const BETWEEN_TRIES: Duration = Duration::from_millis(10);

/// How long the next epoch is waited for, beyond the time in which open ones may end.
const NEXT_EPOCH: Duration = Duration::from_secs(3);

/// How long a store that is started again is asked again under a key.
const LONGEST_ASKING: Duration = Duration::from_secs(30);

/// A whole transaction.
#[derive(Debug)]
pub struct Attempt {
    /// Its calls.
    pub calls: Vec<Call>,
    /// The key under which it is done once.
    pub key: Option<String>,
    /// How long it is tried.
    pub wait: Duration,
}

/// The replies of a whole transaction, in the line that told them behind `done`.
#[derive(Debug)]
pub struct Replies(String);

impl Replies {
    /// Each of them, in the order of the calls.
    pub fn words(&self) -> impl Iterator<Item = &str> {
        self.0.split_terminator(' ').skip(1)
    }
}

impl Serialize for Replies {
    fn serialize<S: Serializer>(&self, serializer: S) -> Result<S::Ok, S::Error> {
        serializer.collect_seq(self.words())
    }
}

/// What is done after a try.
enum Next {
    Done(Replies),
    Again,
    WaitForBell(Problem),
    Sleep(Instant, ProblemKind),
    Ends(Problem),
}

/// An attempt that is tried until a moment, and how it is woken.
struct Trying {
    start: Instant,
    deadline: Instant,
    key: Option<String>,
    about: Arc<AttemptCalls>,
    _stay: Option<Stay>,
}

impl Trying {
    fn calls(&self) -> &[Call] {
        &self.about.calls
    }

    /// The line that asks for it.
    fn line(&self) -> String {
        let mut line = String::with_capacity(16 + 24 * self.calls().len());
        line.push_str("do");
        if let Some(key) = &self.key {
            line.push_str(" =");
            line.push_str(key);
        }
        add_words(&mut line, self.calls());
        line
    }

    fn bell(&self) -> Option<&Arc<Bell>> {
        self.about.place.as_ref().map(|place| &place.bell)
    }
}

impl Store {
    /// Does a whole transaction, which a body asked for; the replies. The body is let go as the first answer comes.
    ///
    /// # Errors
    ///
    /// A [`Problem`] where it isn't done.
    pub async fn attempt(&self, attempt: Attempt, mut body: Option<Body>) -> Result<Replies, Problem> {
        let trying = self.trying(attempt);
        let mut has_waited = false;
        let done = loop {
            let told = self.engine.ask(Question::about(trying.line(), About::Attempt(Arc::clone(&trying.about), body.take()))).await;
            match self.next(&trying, told) {
                Next::Done(replies) => break Ok(replies),
                Next::Ends(problem) => break Err(problem),
                Next::Again => {}
                Next::Sleep(end, kind) if Instant::now() >= end => break Err(kind.into()),
                // boxed since timers are large, and each request moves its future
                Next::Sleep(..) => Box::pin(sleep(BETWEEN_TRIES)).await,
                Next::WaitForBell(problem) => {
                    has_waited = true;
                    let Some(bell) = trying.bell() else { break Err(problem) };
                    if bell.wait(trying.deadline).await.is_none() {
                        break Err(problem);
                    }
                }
            }
        };
        if has_waited {
            self.observer.metrics.wait_seconds.observe(trying.start.elapsed().as_secs_f64());
        }
        done
    }

    fn trying(&self, Attempt { calls, key, wait }: Attempt) -> Trying {
        let start = Instant::now();
        let waits = &self.observer.waits;
        let place = (!wait.is_zero()).then(|| {
            let (number, age) = waits.next_attempt();
            AttemptPlace { number, age, bell: Arc::new(Bell::default()) }
        });
        let stay = place.as_ref().map(|place| Stay::of(waits, place.number));
        Trying { start, deadline: start + wait, key, about: Arc::new(AttemptCalls { calls, place }), _stay: stay }
    }

    fn next(&self, trying: &Trying, told: Result<Told, Lost>) -> Next {
        let told = match told {
            Ok(told) => told,
            Err(lost) => return lost_at(trying, lost),
        };
        match told.answer() {
            Some(Answer::Done(_)) => Next::Done(Replies(told.line)),
            Some(Answer::BusyAt(place, blocker)) => Next::WaitForBell(busy(trying.calls(), place, blocker)),
            Some(Answer::IllegalAt(place)) => Next::Ends(at(trying.calls(), place, ProblemKind::Illegal, "no operation of it is legal now")),
            Some(Answer::RefusedAt(place, refusal)) => Next::Ends(at(trying.calls(), place, refused(refusal), "the store refuses it")),
            Some(Answer::Drain) => Next::Sleep(trying.deadline.max(trying.start + self.drain + NEXT_EPOCH), ProblemKind::EpochEnding),
            Some(Answer::Refused(Refusal::TooManyOpen)) => Next::Sleep(trying.deadline, ProblemKind::TooManyOpen),
            Some(Answer::Refused(refusal)) => Next::Ends(Problem::new(refused(refusal), format!("the store refuses it: {refusal}"))),
            _ => Next::Ends(unexpected(&told)),
        }
    }
}

/// Under a key it is safe to ask again.
fn lost_at(trying: &Trying, lost: Lost) -> Next {
    match lost {
        _ if trying.key.is_some() && trying.start.elapsed() < LONGEST_ASKING => Next::Again,
        Lost::Unasked => Next::Ends(ProblemKind::StoreAway.into()),
        Lost::InFlight => Next::Ends(ProblemKind::OutcomeUnknown.into()),
    }
}

fn at(calls: &[Call], place: usize, kind: ProblemKind, why: &str) -> Problem {
    calls.get(place).map_or_else(|| kind.into(), |call| call.problem(kind, place, why))
}

fn busy(calls: &[Call], place: usize, blocker: TransactionName) -> Problem {
    at(calls, place, ProblemKind::Busy, &format!("transaction {blocker} is in the way")).with("blocker", blocker.to_string())
}

/// The problem that a refusal is.
pub fn refused(refusal: Refusal) -> ProblemKind {
    match refusal {
        Refusal::NotOpen => ProblemKind::Ended,
        Refusal::NoObject => ProblemKind::NoObject,
        Refusal::NoCall => ProblemKind::NoCall,
        Refusal::TooManyOpen => ProblemKind::TooManyOpen,
        Refusal::HistoryFull => ProblemKind::HistoryFull,
        Refusal::NoMemory => ProblemKind::NoMemory,
        Refusal::BadRollback => ProblemKind::BadRollback,
        Refusal::Aborted => ProblemKind::KeyAborted,
        Refusal::KeyTaken => ProblemKind::KeyTaken,
        Refusal::Changes => ProblemKind::Changes,
        Refusal::Prepared => ProblemKind::Prepared,
        Refusal::KeyPrepared => ProblemKind::KeyPrepared,
        Refusal::Committed => ProblemKind::KeyCommitted,
        Refusal::Decided => ProblemKind::Decided,
        Refusal::Unknown => ProblemKind::NoKey,
    }
}

/// An answer that isn't one to what was asked.
pub fn unexpected(told: &Told) -> Problem {
    tracing::error!(line = told.line, "the store answered otherwise than it may");
    ProblemKind::Internal.into()
}

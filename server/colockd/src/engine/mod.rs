//! The store behind its pipe: questions of many tasks go to one child, and each answer to whoever asked.
//!
//! What is asked while something is written is written next, all at once; so commits of many tasks share a sync of the store. The
//! child is started again where it ends. What it hadn't answered is lost then; what wasn't written yet goes to the next one.

pub mod answer;
pub mod child;
mod conversation;
pub mod flight;
pub mod question;

use crate::engine::answer::Answer;
use crate::engine::child::{Greeting, Plan, Started};
use crate::engine::conversation::{converse, How};
use crate::engine::question::Question;
use std::sync::atomic::{AtomicBool, Ordering};
use std::sync::Arc;
use std::time::{Duration, Instant};
use tokio::sync::mpsc::error::TrySendError;
use tokio::sync::{mpsc, oneshot, watch};
use tokio::time::{sleep, timeout};
use tracing::{error, info, warn};

/// The most groups of questions that aren't written yet; who asks more waits.
pub const MOST_UNWRITTEN: usize = 4_096;

/// How long a question waits for a child that is being started.
pub const LONGEST_AWAY: Duration = Duration::from_secs(5);

/// How often a store is asked for its end.
const MOST_ENDS: usize = 3;

/// How long is waited before a child that ended is started again: at first, and at most.
const PAUSES: (Duration, Duration) = (Duration::from_millis(20), Duration::from_secs(5));

/// How long a child has to live for the pause to be the first one again.
const LONG_LIFE: Duration = Duration::from_secs(10);

/// Who is told each answer in the order in which the store gave them.
pub trait Listener<A>: Send + Sync + 'static {
    /// A question was answered, this long after it was written; `listed` has the lines before the last one.
    fn answered(&self, about: &A, answer: Answer<'_>, listed: &str, since: Duration);
    /// So many questions were written at once.
    fn wrote(&self, count: usize);
    /// A child has begun.
    fn greeted(&self, greeting: Greeting);
    /// A child has ended.
    fn lost(&self);
}

/// What the store answered.
#[derive(Clone, Debug, Default, PartialEq, Eq)]
pub struct Told {
    /// The lines before the last one.
    pub listed: String,
    /// The last line.
    pub line: String,
}

impl Told {
    /// What the last line says.
    pub fn answer(&self) -> Option<Answer<'_>> {
        Answer::read(&self.line)
    }
}

/// Why there is no answer.
#[derive(Clone, Copy, Debug, PartialEq, Eq)]
pub enum Lost {
    /// It wasn't asked: the store is being started, or has ended.
    Unasked,
    /// The store ended before it answered.
    InFlight,
}

/// What comes of a question.
pub type Outcome = Result<Told, Lost>;

/// Whether there is a store.
#[derive(Clone, Copy, Debug, PartialEq, Eq)]
pub enum Status {
    /// It is being started, and failed so often.
    Away(u32),
    /// It answers.
    Up(Greeting),
    /// It has ended in order, and none comes any more.
    Ended,
}

/// A question, and who is to have the answer.
#[derive(Debug)]
pub(crate) struct Asked<A> {
    pub(crate) question: Question<A>,
    pub(crate) to: oneshot::Sender<Outcome>,
}

/// Questions that are written one behind the other.
#[derive(Debug)]
pub(crate) struct Group<A> {
    pub(crate) first: Asked<A>,
    pub(crate) rest: Vec<Asked<A>>,
    /// Whether the store is to end by it.
    pub(crate) is_end: bool,
}

/// The store, for all tasks.
#[derive(Debug)]
pub struct Engine<A> {
    groups: mpsc::Sender<Group<A>>,
    status: watch::Receiver<Status>,
    /// What the status says, without the lock that is in it.
    is_up: Arc<AtomicBool>,
}

impl<A> Clone for Engine<A> {
    fn clone(&self) -> Engine<A> {
        Engine { groups: self.groups.clone(), status: self.status.clone(), is_up: Arc::clone(&self.is_up) }
    }
}

impl<A: Default + Send + 'static> Engine<A> {
    /// Starts the store, and starts it again where it ends.
    pub fn start(plan: Plan, listener: Arc<dyn Listener<A>>) -> Engine<A> {
        let (groups, unwritten) = mpsc::channel(MOST_UNWRITTEN);
        let (told, status) = watch::channel(Status::Away(0));
        let is_up = Arc::new(AtomicBool::new(false));
        tokio::spawn(supervise(plan, unwritten, Sign { status: told, is_up: Arc::clone(&is_up) }, listener));
        Engine { groups, status, is_up }
    }

    /// Whether there is a store.
    pub fn status(&self) -> Status {
        *self.status.borrow()
    }

    /// Waits until there is a store, at most this long.
    ///
    /// # Errors
    ///
    /// [`Lost::Unasked`] where there is none by then.
    pub async fn up(&self, limit: Duration) -> Result<Greeting, Lost> {
        let mut status = self.status.clone();
        let up = async move {
            loop {
                match *status.borrow_and_update() {
                    Status::Up(greeting) => return Ok(greeting),
                    Status::Ended => return Err(Lost::Unasked),
                    Status::Away(_) => {}
                }
                status.changed().await.map_err(|_| Lost::Unasked)?;
            }
        };
        // boxed since timers are large, and what asks is moved
        Box::pin(timeout(limit, up)).await.unwrap_or(Err(Lost::Unasked))
    }

    /// Waits for the first store, as long as it isn't started in vain too often; whether there is one.
    pub async fn first_up(&self, most_failures: u32) -> bool {
        let mut status = self.status.clone();
        loop {
            match *status.borrow_and_update() {
                Status::Up(_) => return true,
                Status::Away(failures) if failures < most_failures => {}
                Status::Away(_) | Status::Ended => return false,
            }
            if status.changed().await.is_err() {
                return false;
            }
        }
    }

    /// Asks, and waits for the answer.
    ///
    /// # Errors
    ///
    /// [`Lost`] where none comes.
    pub async fn ask(&self, question: Question<A>) -> Outcome {
        let (to, told) = oneshot::channel();
        if let Err(group) = self.put_now(Group { first: Asked { question, to }, rest: Vec::new(), is_end: false }) {
            Box::pin(self.put(group)).await?;
        }
        told.await.unwrap_or(Err(Lost::InFlight))
    }

    /// Asks several things one behind the other, with nothing of others between them, and waits for all answers.
    ///
    /// # Errors
    ///
    /// [`Lost`] where one of them doesn't come.
    pub async fn ask_all(&self, questions: Vec<Question<A>>) -> Result<Vec<Told>, Lost> {
        let mut answers = Vec::with_capacity(questions.len());
        let asked = questions.into_iter().map(|question| {
            let (to, told) = oneshot::channel();
            answers.push(told);
            Asked { question, to }
        });
        let mut asked = asked.collect::<Vec<_>>().into_iter();
        let Some(first) = asked.next() else { return Ok(Vec::new()) };
        self.put(Group { first, rest: asked.collect(), is_end: false }).await?;
        let mut told = Vec::with_capacity(answers.len());
        for answer in answers {
            told.push(answer.await.unwrap_or(Err(Lost::InFlight))?);
        }
        Ok(told)
    }

    /// Asks the store for its end, and waits for it; whether it ended in order. Where it is lost as it ends, the next one is asked.
    pub async fn end(&self) -> bool {
        for _ in 0..MOST_ENDS {
            let (to, told) = oneshot::channel();
            let first = Asked { question: Question::of("end"), to };
            if self.put(Group { first, rest: Vec::new(), is_end: true }).await.is_err() {
                return self.status() == Status::Ended;
            }
            if matches!(told.await, Ok(Ok(_))) {
                return self.has_ended().await;
            }
        }
        false
    }

    /// Waits until there is no store any more; whether that is so.
    async fn has_ended(&self) -> bool {
        let mut status = self.status.clone();
        loop {
            match *status.borrow_and_update() {
                Status::Ended => return true,
                Status::Away(_) => return false,
                Status::Up(_) => {}
            }
            if status.changed().await.is_err() {
                return self.status() == Status::Ended;
            }
        }
    }

    /// Puts a group where the store is up and there is room, which is so almost always; else it comes back.
    fn put_now(&self, group: Group<A>) -> Result<(), Group<A>> {
        if !self.is_up.load(Ordering::Acquire) {
            return Err(group);
        }
        self.groups.try_send(group).map_err(|unput| match unput {
            TrySendError::Full(group) | TrySendError::Closed(group) => group,
        })
    }

    async fn put(&self, group: Group<A>) -> Result<(), Lost> {
        if !matches!(self.status(), Status::Up(_)) {
            self.up(LONGEST_AWAY).await?;
        }
        self.groups.send(group).await.map_err(|_| Lost::Unasked)
    }
}

/// By which all know whether there is a store.
#[derive(Debug)]
struct Sign {
    status: watch::Sender<Status>,
    is_up: Arc<AtomicBool>,
}

impl Sign {
    fn show(&self, status: Status) {
        self.is_up.store(matches!(status, Status::Up(_)), Ordering::Release);
        self.status.send_replace(status);
    }
}

/// Starts one child after the other.
async fn supervise<A: Default + Send + 'static>(plan: Plan, mut unwritten: mpsc::Receiver<Group<A>>, sign: Sign, listener: Arc<dyn Listener<A>>) {
    let (mut pause, mut failures) = (PAUSES.0, 0);
    loop {
        let start = Instant::now();
        match Started::start(&plan).await {
            Ok(started) => {
                info!(process = started.process(), life = started.greeting.life, "the store has begun");
                listener.greeted(started.greeting);
                sign.show(Status::Up(started.greeting));
                let (how, unanswered) = converse(started, &mut unwritten, &listener).await;
                failures = 0;
                sign.show(if how == How::InOrder { Status::Ended } else { Status::Away(failures) });
                listener.lost();
                // who asks for the status then knows that it is another one
                unanswered.into_iter().for_each(|to| drop(to.send(Err(Lost::InFlight))));
                match how {
                    How::InOrder | How::Unasked => return,
                    How::Lost(why) => warn!(why, "the store has ended, and is started again"),
                }
            }
            Err(why) => {
                error!(%why, "the store can't be started");
                failures += 1;
                sign.show(Status::Away(failures));
            }
        }
        if start.elapsed() >= LONG_LIFE {
            pause = PAUSES.0;
        }
        sleep(pause).await;
        pause = (pause * 2).min(PAUSES.1);
    }
}

#[cfg(test)]
mod tests {
    use super::{Answer, Engine, Listener, Lost, Plan, Question, Status};
    use crate::engine::child::{Found, Greeting};
    use crate::locks::locked;
    use std::sync::{Arc, Mutex};
    use std::time::Duration;

    /// A child that answers with what it is asked, dies, answers nonsense, also behind an answer, answers in two pieces, or answers one
    /// line late.
    const SCRIPT: &str = "echo 'colock: a.db: 5 events, 1 aborted, 7 ms' >&2; echo colock 5 3; while read -r tag words; do case $words in \
        die) exit 1;; nonsense) echo what;; both) printf '%s ok both\\nwhat\\n' $tag;; \
        pieces) printf '%s o' $tag; sleep 0.05; echo k pieces;; end) echo $tag ok; exit 0;; late) late=$tag;; \
        *) echo $tag ok $words; [ -n \"$late\" ] && echo $late ok late; late=;; esac; done";

    #[derive(Debug, Default)]
    struct Seen(Mutex<Vec<String>>);

    impl Listener<u8> for Seen {
        fn answered(&self, about: &u8, answer: Answer<'_>, _: &str, _: Duration) {
            locked(&self.0).push(format!("{about} {answer:?}"));
        }

        fn wrote(&self, _: usize) {}

        fn greeted(&self, greeting: Greeting) {
            locked(&self.0).push(format!("life {}", greeting.life));
        }

        fn lost(&self) {
            locked(&self.0).push("lost".to_string());
        }
    }

    fn engine() -> (Engine<u8>, Arc<Seen>) {
        let seen = Arc::new(Seen::default());
        let words = ["-c", SCRIPT].map(str::to_string).to_vec();
        let plan = Plan { program: "/bin/sh".into(), folder: "/".into(), words };
        (Engine::start(plan, Arc::clone(&seen) as Arc<_>), seen)
    }

    async fn told(engine: &Engine<u8>, words: &str) -> Result<String, Lost> {
        engine.ask(Question::of(words)).await.map(|told| told.line)
    }

    #[tokio::test]
    async fn what_is_asked_is_answered_and_noted_in_its_order() {
        let (engine, seen) = engine();
        let told = engine.ask_all(vec![Question::about("a", 1), Question::late("late"), Question::about("b", 2)]).await.unwrap();
        assert_eq!(told.iter().map(|told| told.line.as_str()).collect::<Vec<_>>(), ["ok a", "ok late", "ok b"]);
        assert_eq!(engine.up(Duration::ZERO).await, Ok(Greeting { life: 3, found: Some(Found { events: 5, aborted: 1 }) }));
        assert!(engine.end().await);
        assert_eq!(engine.status(), Status::Ended);
        let seen = locked(&seen.0);
        assert_eq!(seen[..4], ["life 3", "1 Ok(\"a\")", "2 Ok(\"b\")", "0 Ok(\"late\")"]);
    }

    #[tokio::test]
    async fn a_child_that_ends_is_lost_with_what_it_was_asked_and_the_next_one_answers() {
        let (engine, seen) = engine();
        for word in ["die", "nonsense"] {
            assert_eq!(told(&engine, word).await, Err(Lost::InFlight), "{word}");
            assert_eq!(told(&engine, "a").await, Ok("ok a".to_string()), "{word}");
        }
        assert_eq!(locked(&seen.0).iter().filter(|line| *line == "lost").count(), 2);
    }

    #[tokio::test]
    async fn an_answer_may_come_in_pieces_and_counts_also_where_nonsense_follows() {
        let (engine, seen) = engine();
        assert_eq!(told(&engine, "pieces").await, Ok("ok pieces".to_string()));
        assert_eq!(told(&engine, "both").await, Ok("ok both".to_string()));
        assert!(engine.end().await);
        assert_eq!(locked(&seen.0)[..3], ["life 3", "0 Ok(\"pieces\")", "0 Ok(\"both\")"]);
    }

    #[tokio::test]
    async fn after_the_end_nothing_is_asked() {
        let (engine, _) = engine();
        assert!(engine.end().await);
        assert_eq!(told(&engine, "a").await, Err(Lost::Unasked));
    }

    #[tokio::test]
    async fn a_program_that_isnt_there_is_given_up() {
        let plan = Plan { program: "/none".into(), folder: "/".into(), words: Vec::new() };
        let engine = Engine::<u8>::start(plan, Arc::new(Seen::default()));
        assert!(!engine.first_up(2).await);
    }
}

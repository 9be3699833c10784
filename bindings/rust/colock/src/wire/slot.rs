//! Where the answer to one request is put, and who waits for it.

use crate::error::Error;
use crate::locks::locked;
use crate::wire::claims::Claim;
use crate::wire::request::{answer, Answer, Commits};
use std::mem;
use std::sync::{Arc, Condvar, Mutex, PoisonError};
use std::time::Instant;

/// The place of an answer, which its asker waits for.
#[derive(Debug, Default)]
pub(crate) struct Slot {
    told: Mutex<Told>,
    is_there: Condvar,
}

/// The lines of an answer, each but the last with its line feed; and whether that is all, or why no more comes.
#[derive(Debug, Default)]
struct Told {
    text: String,
    outcome: Option<Result<(), Error>>,
    is_awaited: bool,
    /// Whether an earlier request under its key was done, of those that were asked at the same time.
    was_done: bool,
}

impl Told {
    /// The answer, which is taken out once.
    fn taken(&mut self) -> Option<Result<String, Error>> {
        let outcome = self.outcome.take()?;
        Some(outcome.map(|()| mem::take(&mut self.text)))
    }
}

impl Slot {
    /// One more line, which isn't the last.
    fn add(&self, line: &str) {
        let mut told = locked(&self.told);
        told.text.push_str(line);
        told.text.push('\n');
    }

    /// An earlier request under its key was done.
    fn set_done(&self) {
        locked(&self.told).was_done = true;
    }

    /// Whether an earlier request under the key of this one, which is answered, was done.
    pub(crate) fn was_done(&self) -> bool {
        locked(&self.told).was_done
    }

    /// The last line, or why none comes.
    fn close(&self, line: &str, outcome: Result<(), Error>) {
        let mut told = locked(&self.told);
        told.text.push_str(line);
        told.outcome = Some(outcome);
        let is_awaited = told.is_awaited;
        drop(told); // whom it wakes takes the lock
        if is_awaited {
            self.is_there.notify_one();
        }
    }

    /// The answer, where it is there.
    pub(crate) fn answer_now(&self) -> Option<Result<String, Error>> {
        locked(&self.told).taken()
    }

    /// The answer, where it comes before then; with no limit it is waited for as long as that takes.
    pub(crate) fn answer_until(&self, limit: Option<Instant>) -> Option<Result<String, Error>> {
        let mut told = locked(&self.told);
        loop {
            if let Some(answer) = told.taken() {
                return Some(answer);
            }
            told.is_awaited = true;
            told = match limit {
                None => self.is_there.wait(told).unwrap_or_else(PoisonError::into_inner),
                Some(limit) => {
                    let left = limit.saturating_duration_since(Instant::now());
                    if left.is_zero() {
                        return None;
                    }
                    self.is_there.wait_timeout(told, left).unwrap_or_else(PoisonError::into_inner).0
                }
            };
        }
    }
}

/// What lines an answer has.
#[derive(Clone, Copy, Debug, PartialEq, Eq)]
pub(crate) enum Form {
    /// The first line of all, which has no tag.
    Greeting,
    One,
    /// As `One`, which may come after the answers to what is asked later.
    Late,
    /// Some lines, and then `ok` or a refusal.
    List,
    /// As `One`, of the last answer of all.
    End,
}

/// A request that was written, or is about to be, and isn't answered.
#[derive(Debug)]
pub(crate) struct Pending {
    pub(crate) tag: u64,
    pub(crate) form: Form,
    pub(crate) commits: Commits,
    /// Whether a thread waits for it that may ask again at once.
    pub(crate) wakes: bool,
    /// Whether what others ask may go before it.
    pub(crate) is_last: bool,
    /// Of the key under which it is done, where it has one.
    pub(crate) claim: Option<Arc<Claim>>,
    pub(crate) slot: Arc<Slot>,
}

impl Pending {
    /// What a line answers, where it is this one's.
    pub(crate) fn own<'l>(&self, line: &'l str) -> Option<&'l str> {
        if self.form == Form::Greeting {
            return Some(line);
        }
        let (tag, answer) = line.split_once(' ')?;
        (tag.parse::<u64>() == Ok(self.tag)).then_some(answer)
    }

    /// Whether this is the last line of its answer. A line of a list may begin with a key, as `refused`, but has more words then.
    pub(crate) fn ends_with(&self, answer: &str) -> bool {
        let ends_list = || match answer.split_once(' ') {
            None => answer == "ok",
            Some((word, kind)) => matches!(word, "refused" | "fault") && !kind.contains(' '),
        };
        self.form != Form::List || ends_list()
    }

    pub(crate) fn add(&self, answer: &str) {
        self.slot.add(answer);
    }

    /// The last line of its answer. They come in the order in which the child does what is asked.
    pub(crate) fn close(&self, line: &str) {
        if self.claim.as_ref().is_some_and(|claim| is_done(line) && claim.was_done()) {
            self.slot.set_done();
        }
        self.slot.close(line, Ok(()));
    }

    /// No answer comes, by this error. Whether a commit is done isn't known then.
    pub(crate) fn fail(&self, error: &Error) {
        let told = match self.commits {
            Commits::Nothing => error.clone(),
            Commits::Transaction(id) => Error::OutcomeUnknown(id),
            Commits::Attempt => Error::AttemptUnknown,
            Commits::Preparation(id) => Error::PrepareUnknown(id),
        };
        self.slot.close("", Err(told));
    }
}

/// Whether an answer says that what was asked is done.
fn is_done(line: &str) -> bool {
    matches!(answer(line), Some(Answer::Ok(_) | Answer::Done(_)))
}

#[cfg(test)]
mod tests {
    use super::{Form, Pending, Slot};
    use crate::key::Key;
    use crate::wire::claims::Claims;
    use crate::wire::request::Commits;
    use crate::{Error, TransactionId};
    use std::sync::Arc;
    use std::time::{Duration, Instant};

    fn pending(form: Form, commits: Commits) -> (Pending, Arc<Slot>) {
        let slot = Arc::new(Slot::default());
        (Pending { tag: 12, form, commits, wakes: true, is_last: false, claim: None, slot: Arc::clone(&slot) }, slot)
    }

    #[test]
    fn lines_have_owners() {
        let (one, _) = pending(Form::One, Commits::Nothing);
        assert_eq!((one.own("12 ok 3"), one.own("13 ok"), one.own("12"), one.own("12 ")), (Some("ok 3"), None, None, Some("")));
        let (greeting, _) = pending(Form::Greeting, Commits::Nothing);
        assert_eq!(greeting.own("colock 5 1"), Some("colock 5 1"));
    }

    #[test]
    fn lists_end_with_ok() {
        let (list, slot) = pending(Form::List, Commits::Nothing);
        assert!(!list.ends_with("op ok ok") && !list.ends_with("") && list.ends_with("ok") && list.ends_with("refused NoMemory"));
        // what is prepared under such keys
        assert!(!list.ends_with("refused 3.4 0") && !list.ends_with("fault 3.4 0 1") && !list.ends_with("ok 3.4 0") && list.ends_with("fault BadWords"));
        list.add("op ok ok");
        list.add("");
        list.close("ok");
        assert_eq!(slot.answer_until(None), Some(Ok("op ok ok\n\nok".to_string())));
    }

    /// Of requests under one key the first is known from the others that is answered as done.
    #[test]
    fn the_first_under_a_key_is_known() {
        let (mut claims, key) = (Claims::default(), Key::of("a").unwrap());
        let under = |claims: &mut Claims, answer: &str| {
            let (pending, slot) = pending(Form::One, Commits::Attempt);
            Pending { claim: Some(claims.of(key)), ..pending }.close(answer);
            assert_eq!(slot.answer_until(None), Some(Ok(answer.to_string())));
            slot.was_done()
        };
        let held = claims.of(key);
        let told = ["busy 1 3.4", "refused NotOpen", "refused KeyTaken", "done ok", "busy drain", "ok", "done"].map(|answer| under(&mut claims, answer));
        assert_eq!(told, [false, false, false, false, false, true, true]);
        drop(held);
        assert!(!under(&mut claims, "ok") && !under(&mut claims, "ok"));
    }

    #[test]
    fn what_is_lost_is_told() {
        let (one, slot) = pending(Form::One, Commits::Nothing);
        let gone = Error::ConnectionLost("gone".to_string());
        one.fail(&gone);
        assert_eq!(slot.answer_until(None), Some(Err(gone.clone())));
        let (commit, slot) = pending(Form::One, Commits::Transaction(TransactionId::new(3, 4)));
        commit.fail(&gone);
        assert_eq!(slot.answer_until(None), Some(Err(Error::OutcomeUnknown(TransactionId::new(3, 4)))));
        let (attempt, slot) = pending(Form::One, Commits::Attempt);
        attempt.fail(&gone);
        assert_eq!(slot.answer_until(None), Some(Err(Error::AttemptUnknown)));
        let (prepare, slot) = pending(Form::One, Commits::Preparation(TransactionId::new(3, 4)));
        prepare.fail(&gone);
        assert_eq!(slot.answer_until(None), Some(Err(Error::PrepareUnknown(TransactionId::new(3, 4)))));
        let (_, nothing) = pending(Form::One, Commits::Nothing);
        assert_eq!(nothing.answer_until(Some(Instant::now() + Duration::from_millis(5))), None);
    }
}

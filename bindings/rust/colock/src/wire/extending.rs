//! More objects of a store behind a child.
//!
//! The child takes them when what is open has ended, and answers then; what others ask is answered before. It looks at its
//! clock where a line comes, so who waits for the answer asks something from time to time.

use crate::error::{CheckRefusal, Error};
use crate::locks::locked;
use crate::object::NewObject;
use crate::objects::{Known, MOST_OBJECTS};
use crate::shared::SharedStore;
use crate::wire::creating::written_objects;
use crate::wire::program::Room;
use crate::wire::remote::Remote;
use crate::wire::request::{answer, Answer, Request};
use crate::wire::slot::Slot;
use std::path::PathBuf;
use std::sync::Mutex;
use std::thread;
use std::time::{Duration, Instant};

/// The most bytes of the files in a request: a line has 4,096, with its tag.
const LONGEST_FILES: usize = 4_000;

/// How often the child is asked something else.
const BETWEEN_LOOKS: Duration = Duration::from_millis(200);

/// How long it is waited before it is asked again, where somebody else adds objects.
const WHILE_OTHERS: Duration = Duration::from_millis(5);

/// How a store gets more objects.
pub(crate) struct Extending {
    /// What writes the texts of types.
    program: PathBuf,
    /// One thread at a time adds objects.
    one: Mutex<()>,
}

impl Extending {
    pub(crate) fn by(program: PathBuf) -> Extending {
        Extending { program, one: Mutex::new(()) }
    }
}

impl SharedStore {
    pub(crate) fn extend_over_child(&self, remote: &Remote, objects: Vec<NewObject<'_>>) -> Result<u32, Error> {
        drop(self.enter()?); // before a lock that in a fork may be held for ever
        let _one = locked(&remote.extending.one);
        let added = self.objects().checked(objects)?;
        if added.is_empty() {
            return Err(Error::NoObjects);
        }
        if self.objects().len() + added.len() > MOST_OBJECTS {
            return Err(Error::TooManyObjects);
        }
        let room = Room::for_words().ok_or_else(|| cannot_extend("no folder for temporary files has a path without spaces"))?;
        let files = written_objects(&remote.extending.program, &room, &added, remote.link.limit()).map_err(as_not_extended)?;
        self.extend_by(remote, &words_of(&files)?, added)
    }

    /// Adds the objects of these files, which are asked for again where somebody else adds objects, within the limit.
    fn extend_by(&self, remote: &Remote, files: &str, added: Vec<Known>) -> Result<u32, Error> {
        let start = Instant::now();
        loop {
            let mut guard = self.enter()?;
            self.settle_dropped(&mut guard);
            let life = guard.life;
            let slot = guard.remote_state()?.send_late(Request::Extend(files))?;
            self.leave(guard);
            let text = self.answered_late(remote, &slot)?;
            match answer(&text) {
                Some(Answer::Ok(first)) => return self.has_extended(remote, first, added, life),
                Some(Answer::Drain) if start.elapsed() < remote.link.limit() => thread::sleep(WHILE_OTHERS),
                Some(Answer::Drain) => return Err(Error::TimedOut),
                Some(Answer::No(why)) => return Err(refusal(why)),
                Some(Answer::Refused(error)) => return Err(error),
                _ => return Err(remote.link.broken(&text)),
            }
        }
    }

    /// Waits for an answer however long that takes.
    fn answered_late(&self, remote: &Remote, slot: &Slot) -> Result<String, Error> {
        loop {
            if let Some(told) = slot.answer_until(Instant::now().checked_add(BETWEEN_LOOKS)) {
                return told;
            }
            if self.asked(remote, Request::Stats).is_err() {
                // it is closed or lost, and the answer comes before the end
                return remote.link.answered(slot);
            }
        }
    }

    /// The objects are there, from this number on, and another life has begun after that in which they were asked for.
    fn has_extended(&self, remote: &Remote, first: &str, added: Vec<Known>, life: u64) -> Result<u32, Error> {
        let count = self.objects().len();
        let first = match first.parse::<u32>() {
            Ok(number) if number as usize == count => number,
            _ => return Err(remote.link.broken(first)),
        };
        let mut guard = self.lock();
        guard.stats.extend(count + added.len());
        self.objects().add(first, added);
        guard.told_life(life + 1);
        Ok(first)
    }
}

fn cannot_extend(words: &str) -> Error {
    Error::CannotExtend(words.to_string().into())
}

/// A file that wasn't written, or a text that wasn't made.
fn as_not_extended(error: Error) -> Error {
    match error {
        Error::CannotOpen(failure) => Error::CannotExtend(failure),
        other => other,
    }
}

/// The files as words of a request.
fn words_of(files: &[PathBuf]) -> Result<String, Error> {
    let words: Vec<String> = files.iter().map(|file| file.display().to_string()).collect();
    let words = words.join(" ");
    if words.len() > LONGEST_FILES {
        return Err(cannot_extend(&format!("a request has no room for {} types", files.len() - 1)));
    }
    Ok(words)
}

/// Why no objects are added, by the words of the program.
fn refusal(why: &str) -> Error {
    match why {
        "TooLarge" => Error::TooManyObjects,
        "no memory" => Error::NoMemory,
        _ => not_accepted(why).map_or_else(|| cannot_extend(why), Error::Refused),
    }
}

/// Why the type of an object isn't accepted, where these words say so: `# object X no REASON ..`.
fn not_accepted(why: &str) -> Option<CheckRefusal> {
    let (_, told) = why.strip_prefix("# object ")?.split_once(" no ")?;
    let mut words = told.split(' ');
    let reason = words.next()?;
    let numbers = words.map(|word| word.parse().ok()).collect::<Option<Vec<u64>>>()?;
    Some(match (reason, numbers[..].as_ref()) {
        ("InitialOutside", []) => CheckRefusal::InitialOutside,
        ("NotClosed", &[state, operation]) => CheckRefusal::NotClosed { state, operation },
        ("NotSimulation", &[state, other, operation]) => CheckRefusal::NotSimulation { state, other, operation },
        ("NotCommuting", &[requested, held, state]) => CheckRefusal::NotCommuting { requested, held, state },
        ("NotNumeric", &[operation, state]) => CheckRefusal::NotNumeric { operation, state },
        _ => return None,
    })
}

#[cfg(test)]
mod tests {
    use super::{refusal, words_of};
    use crate::{CheckRefusal, Error};
    use std::path::PathBuf;

    #[test]
    fn refusals_are_read() {
        for (why, wanted) in [
            ("# object 3 no InitialOutside", CheckRefusal::InitialOutside),
            ("# object 3 no NotClosed 1 2", CheckRefusal::NotClosed { state: 1, operation: 2 }),
            ("# object 3 no NotSimulation 1 2 3", CheckRefusal::NotSimulation { state: 1, other: 2, operation: 3 }),
            ("# object 3 no NotCommuting 1 2 3", CheckRefusal::NotCommuting { requested: 1, held: 2, state: 3 }),
            ("# object 3 no NotNumeric 1 2", CheckRefusal::NotNumeric { operation: 1, state: 2 }),
        ] {
            assert_eq!(refusal(why), Error::Refused(wanted));
        }
        assert_eq!((refusal("TooLarge"), refusal("no memory")), (Error::TooManyObjects, Error::NoMemory));
        for why in ["a: cannot read", "# object 3 no Else", "# object 3 no NotClosed 1", "# object 3 no NotClosed 1 x"] {
            assert_eq!(refusal(why), Error::CannotExtend(why.to_string().into()));
        }
    }

    #[test]
    fn a_request_has_room_for_some_files() {
        let files = |count: usize| vec![PathBuf::from("x".repeat(39)); count];
        assert_eq!(words_of(&files(2)).map(|words| words.len()), Ok(79));
        assert_eq!((words_of(&files(100)).is_ok(), words_of(&files(101)).is_ok()), (true, false));
    }
}

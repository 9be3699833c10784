//! Reads of many objects at one moment, which hold nothing and wait for nobody.

use crate::engine::answer::{Answer, Moment};
use crate::engine::question::Question;
use crate::engine::Told;
use crate::limits::MOST_CALLS;
use crate::problem::{Problem, ProblemKind};
use crate::store::attempts::{refused, unexpected};
use crate::store::objects::ObjectEntry;
use crate::store::Store;
use std::sync::Arc;

/// How often a read is tried in which another epoch began.
const MOST_TRIES: usize = 3;

/// What was read at one moment.
#[derive(Clone, Debug, PartialEq, Eq)]
pub struct Snapshot {
    /// The moment.
    pub at: Moment,
    /// For each object its state, or a reply.
    pub words: Vec<String>,
}

impl Store {
    /// The committed states of objects, or what a call is replied that changes nothing.
    ///
    /// # Errors
    ///
    /// A [`Problem`] where they can't be read.
    pub async fn snapshot(&self, objects: &[Arc<ObjectEntry>], call: Option<&str>) -> Result<Snapshot, Problem> {
        for _ in 0..MOST_TRIES {
            let lines = objects.chunks(MOST_CALLS).map(|some| Question::of(line(some, call)));
            let told = self.engine.ask_all(lines.collect()).await.map_err(|_| ProblemKind::StoreAway)?;
            if let Some(snapshot) = self.of_one_moment(&told, objects)? {
                return Ok(snapshot);
            }
        }
        Err(ProblemKind::NoMoment.into())
    }

    /// What was told, where it is of one moment: nothing comes between the lines but another epoch.
    fn of_one_moment(&self, told: &[Told], objects: &[Arc<ObjectEntry>]) -> Result<Option<Snapshot>, Problem> {
        let mut snapshot: Option<Snapshot> = None;
        for (told, some) in told.iter().zip(objects.chunks(MOST_CALLS)) {
            let (at, words) = seen(told, some)?;
            self.observer.told_life(at.life);
            let snapshot = snapshot.get_or_insert(Snapshot { at, words: Vec::with_capacity(objects.len()) });
            if snapshot.at != at {
                return Ok(None);
            }
            snapshot.words.extend(words.split(' ').map(str::to_string));
        }
        Ok(snapshot)
    }
}

fn line(objects: &[Arc<ObjectEntry>], call: Option<&str>) -> String {
    let words = objects.iter().map(|object| match call {
        None => format!(" {}", object.number),
        Some(call) => format!(" {} {call}", object.number),
    });
    format!("{}{}", if call.is_some() { "peek" } else { "committed" }, words.collect::<String>())
}

fn seen<'t>(told: &'t Told, objects: &[Arc<ObjectEntry>]) -> Result<(Moment, &'t str), Problem> {
    match told.answer() {
        Some(Answer::Seen(at, words)) => Ok((at, words)),
        Some(Answer::IllegalAt(place)) => {
            let label = objects.get(place).map_or_else(String::new, |object| object.label());
            Err(Problem::new(ProblemKind::Illegal, format!("no operation of the call is legal at {label}")).with("object", label))
        }
        Some(Answer::Refused(refusal)) => Err(Problem::new(refused(refusal), format!("the store refuses the read: {refusal}"))),
        _ => Err(unexpected(told)),
    }
}

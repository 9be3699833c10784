//! Objects that are added to the living store, many at once: what is asked within some milliseconds is one commit.

use crate::data_folder::ROOM;
use crate::engine::answer::Answer;
use crate::engine::question::Question;
use crate::engine::{Engine, Lost, LONGEST_AWAY};
use crate::limits::MOST_ADDED;
use crate::names::number_of;
use crate::problem::{Problem, ProblemKind};
use crate::store::about::About;
use crate::store::loading::load_objects;
use crate::store::objects::{ObjectEntry, SharedObjects, MOST_OBJECTS};
use crate::store::recovery::Recovery;
use crate::store::types::Types;
use std::collections::HashMap;
use std::fmt::Write;
use std::fs;
use std::io;
use std::path::PathBuf;
use std::sync::Arc;
use std::time::Duration;
use tokio::sync::{mpsc, oneshot};
use tokio::time::{sleep, timeout};

/// How long others are waited for who add objects too.
const GATHERING: Duration = Duration::from_millis(5);

/// How often a store is asked something else that has objects to add: it looks at its clock where a line comes.
const BETWEEN_LOOKS: Duration = Duration::from_millis(100);

/// The most types of one commit: their files are words of one line.
const MOST_TYPES_AT_ONCE: usize = 64;

/// How often the objects are read anew.
const MOST_LOADS: usize = 5;

/// The most requests that wait for their objects.
pub const MOST_ADDITIONS: usize = 1_024;

/// An object that is to be added.
#[derive(Clone, Debug, PartialEq, Eq)]
pub struct NewObject {
    /// Its name.
    pub name: String,
    /// The name of its type.
    pub of: String,
    /// How it recovers.
    pub recovery: Recovery,
}

/// Objects that one request adds: all of them, or none.
#[derive(Debug)]
pub struct Addition {
    /// The objects.
    pub objects: Vec<NewObject>,
    /// Who is told what came of it.
    pub to: oneshot::Sender<Result<(), Problem>>,
}

/// What adds objects.
#[derive(Debug)]
pub struct Extender {
    /// The store.
    pub engine: Engine<About>,
    /// Its objects.
    pub objects: SharedObjects,
    /// Its types.
    pub types: Arc<Types>,
    /// The data folder.
    pub folder: PathBuf,
}

impl Extender {
    /// Adds what comes.
    pub async fn run(self, mut additions: mpsc::Receiver<Addition>) {
        let mut left = None;
        loop {
            let first = match left.take() {
                Some(addition) => addition,
                None => match additions.recv().await {
                    Some(addition) => addition,
                    None => return,
                },
            };
            sleep(GATHERING).await;
            let group;
            (group, left) = gather(first, &mut additions);
            self.add_all(group).await;
        }
    }

    /// Adds the objects of a group at once; where that is refused, those of each request by themselves.
    async fn add_all(&self, group: Vec<Addition>) {
        let (group, taken): (Vec<_>, Vec<_>) = group.into_iter().partition(|addition| self.are_free(&addition.objects));
        taken.into_iter().for_each(|addition| tell(addition, Err(ProblemKind::NameTaken.into())));
        let objects: Vec<_> = group.iter().flat_map(|addition| addition.objects.iter().cloned()).collect();
        let is_alone = group.len() == 1;
        match self.add(&objects).await {
            Ok(()) => group.into_iter().for_each(|addition| tell(addition, Ok(()))),
            Err(problem) if is_alone || problem.kind == ProblemKind::StoreAway => group.into_iter().for_each(|addition| tell(addition, Err(problem.clone()))),
            Err(_) => {
                for addition in group {
                    let done = self.add(&addition.objects).await;
                    tell(addition, done);
                }
            }
        }
    }

    fn are_free(&self, objects: &[NewObject]) -> bool {
        objects.iter().all(|object| self.objects.named(&object.name).is_none())
    }

    async fn add(&self, objects: &[NewObject]) -> Result<(), Problem> {
        if objects.is_empty() {
            return Ok(());
        }
        if self.objects.len() + objects.len() > MOST_OBJECTS {
            return Err(Problem::new(ProblemKind::StoreFull, format!("a store has at most {MOST_OBJECTS} objects")));
        }
        let line = self.write(objects).map_err(|error| Problem::new(ProblemKind::Internal, error))?;
        let done = self.extend(&line, objects).await;
        // what is left is removed at the next start
        let _ = fs::remove_file(self.folder.join(ROOM).join("new.objects"));
        done
    }

    /// Writes the text of objects; the line that adds them.
    fn write(&self, objects: &[NewObject]) -> io::Result<String> {
        let (text, types) = text_of(objects);
        fs::write(self.folder.join(ROOM).join("new.objects"), text)?;
        let files: String = types.iter().map(|name| format!(" {}", Types::file(name))).collect();
        Ok(format!("extend {ROOM}/new.objects{files}"))
    }

    async fn extend(&self, line: &str, objects: &[NewObject]) -> Result<(), Problem> {
        let told = match self.asked(line).await {
            Ok(told) => told,
            Err(Lost::Unasked) => return Err(ProblemKind::StoreAway.into()),
            Err(Lost::InFlight) => return self.found(objects).await,
        };
        match told.answer() {
            Some(Answer::Ok(first)) => match self.entries(first, objects).map(|entries| self.objects.append(entries)) {
                Some(true) => Ok(()),
                _ => self.found(objects).await,
            },
            Some(Answer::No(why)) => Err(self.refused(why).await),
            Some(Answer::Drain) => Err(ProblemKind::EpochEnding.into()),
            _ => Err(ProblemKind::Internal.into()),
        }
    }

    /// The objects as they are from a number on.
    fn entries(&self, first: &str, objects: &[NewObject]) -> Option<Vec<ObjectEntry>> {
        let numbers = number_of(first)?..;
        let entry = |(object, number): (&NewObject, u32)| {
            let of = self.types.named(&object.of)?;
            Some(ObjectEntry { number, name: Some(Arc::from(object.name.as_str())), recovery: object.recovery, of })
        };
        objects.iter().zip(numbers).map(entry).collect()
    }

    /// Asks, and asks something else until the answer is there.
    async fn asked(&self, line: &str) -> crate::engine::Outcome {
        let told = self.engine.ask(Question::late(line));
        tokio::pin!(told);
        loop {
            match timeout(BETWEEN_LOOKS, &mut told).await {
                Ok(told) => return told,
                Err(_) => {
                    // what it answers is of no use
                    let _ = self.engine.ask(Question::of("stats")).await;
                }
            }
        }
    }

    /// Reads the objects anew, and looks whether these are there.
    async fn found(&self, objects: &[NewObject]) -> Result<(), Problem> {
        self.load().await?;
        let is_there = objects.iter().all(|object| self.objects.named(&object.name).is_some());
        if is_there {
            Ok(())
        } else {
            Err(ProblemKind::StoreAway.into())
        }
    }

    /// Reads the objects anew, also where the store ends meanwhile.
    async fn load(&self) -> Result<(), Problem> {
        for _ in 0..MOST_LOADS {
            let is_up = self.engine.up(LONGEST_AWAY).await.is_ok();
            if is_up && load_objects(&self.engine, &self.objects, &self.types).await.is_ok() {
                return Ok(());
            }
        }
        Err(ProblemKind::OutcomeUnknown.into())
    }

    /// What the store says that it adds nothing for. A name that is taken was added before, and its answer was lost.
    async fn refused(&self, why: &str) -> Problem {
        if why == "TooLarge" {
            return ProblemKind::StoreFull.into();
        }
        if why.ends_with(": name taken") {
            return match self.load().await {
                Ok(()) => ProblemKind::NameTaken.into(),
                Err(problem) => problem,
            };
        }
        Problem::new(ProblemKind::TypeRefused, format!("the store adds nothing: {why}"))
    }
}

fn tell(addition: Addition, done: Result<(), Problem>) {
    // who doesn't wait any more needs no answer
    let _ = addition.to.send(done);
}

/// A request with those that came after it and go with it; and the first that doesn't.
fn gather(first: Addition, additions: &mut mpsc::Receiver<Addition>) -> (Vec<Addition>, Option<Addition>) {
    let mut names: HashMap<String, ()> = HashMap::new();
    let mut types: HashMap<String, ()> = HashMap::new();
    let mut group = Vec::new();
    let mut next = Some(first);
    while let Some(addition) = next {
        let is_twice = addition.objects.iter().any(|object| names.contains_key(&object.name));
        let count = names.len() + addition.objects.len();
        types.extend(addition.objects.iter().map(|object| (object.of.clone(), ())));
        if !group.is_empty() && (is_twice || count > MOST_ADDED || types.len() > MOST_TYPES_AT_ONCE) {
            return (group, Some(addition));
        }
        names.extend(addition.objects.iter().map(|object| (object.name.clone(), ())));
        group.push(addition);
        next = additions.try_recv().ok();
    }
    (group, None)
}

/// The text of objects, and the names of their types, by their places.
fn text_of(objects: &[NewObject]) -> (String, Vec<&str>) {
    let mut text = format!("objects {MOST_OBJECTS}\n");
    let mut types: Vec<&str> = Vec::new();
    for object in objects {
        let place = types.iter().position(|name| *name == object.of).unwrap_or_else(|| {
            types.push(&object.of);
            types.len() - 1
        });
        // a string takes all that is written to it
        let _ = writeln!(text, "object {} {place} {}", object.recovery, object.name);
    }
    text.push_str("end\n");
    (text, types)
}

#[cfg(test)]
mod tests {
    use super::{gather, text_of, Addition, NewObject};
    use crate::store::recovery::Recovery;
    use tokio::sync::{mpsc, oneshot};

    fn object(name: &str, of: &str) -> NewObject {
        NewObject { name: name.to_string(), of: of.to_string(), recovery: Recovery::Undo }
    }

    fn addition(names: &[&str]) -> Addition {
        Addition { objects: names.iter().map(|name| object(name, "seat")).collect(), to: oneshot::channel().0 }
    }

    #[test]
    fn the_text_names_each_type_once() {
        let objects = [object("a", "seat"), object("b", "sold"), object("c", "seat")];
        let (text, types) = text_of(&objects);
        assert_eq!(text, "objects 65536\nobject undo 0 a\nobject undo 1 b\nobject undo 0 c\nend\n");
        assert_eq!(types, ["seat", "sold"]);
    }

    #[tokio::test]
    async fn requests_go_together_unless_they_name_the_same() {
        let (sender, mut additions) = mpsc::channel(8);
        for names in [&["b"][..], &["c"], &["a", "d"], &["e"]] {
            sender.send(addition(names)).await.unwrap();
        }
        let (group, left) = gather(addition(&["a"]), &mut additions);
        assert_eq!((group.len(), left.map(|left| left.objects.len())), (3, Some(2)));
    }
}

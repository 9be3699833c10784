//! How a store is opened: made where it isn't there, served, and read.

use crate::data_folder::{DataFolder, ARCHIVE, DATABASE, ROOM};
use crate::engine::child::Plan;
use crate::engine::question::Question;
use crate::engine::Engine;
use crate::metrics::Metrics;
use crate::problem::{Problem, ProblemKind};
use crate::program::Program;
use crate::store::about::About;
use crate::store::archive::Archive;
use crate::store::attempts::Attempt;
use crate::store::calls::Call;
use crate::store::extending::{Extender, NewObject, MOST_ADDITIONS};
use crate::store::loading::load_objects;
use crate::store::objects::SharedObjects;
use crate::store::observer::Observer;
use crate::store::past::Past;
use crate::store::recovery::Recovery;
use crate::store::type_text::TypeText;
use crate::store::types::Types;
use crate::store::waits::{Due, Waits};
use crate::store::Store;
use std::fs;
use std::sync::Arc;
use std::time::Duration;
use tokio::sync::mpsc;

/// The object by which a store is asked whether it commits. Lists leave it out.
pub const READY_OBJECT: &str = ".colockd";

/// Its call, which changes nothing.
pub const READY_CALL: &str = "ready";

const READY_TYPE: &str = "type colockd\nstates 1\ninitial 0\nop ready ok\nstep 0 0 0\nend\n";

/// How often a store is started in vain, before the server gives up.
const MOST_STARTS: u32 = 5;

/// How many of the last outcomes stay at least, where the words of `serve` don't say it.
pub const OUTCOMES: u32 = 1_000_000;

/// What is chosen for a store.
#[derive(Clone, Copy, Debug)]
pub struct Choices {
    /// Whether a commit is synced once, supposing more of torn writes.
    pub is_fast: bool,
    /// How many seconds open transactions may go on in an epoch that is full, where some yes is one-way.
    pub drain: u32,
    /// How many of the last outcomes of keys stay at least.
    pub outcomes: u32,
    /// Of how many epochs that have ended the history is kept.
    pub histories: usize,
}

impl Store {
    /// Opens the store of a folder.
    ///
    /// # Errors
    ///
    /// In words, where that isn't possible.
    pub async fn open(folder: &DataFolder, program: Arc<Program>, choices: Choices, metrics: Arc<Metrics>) -> Result<Arc<Store>, String> {
        if !folder.has_store() {
            create(folder, &program).await?;
        }
        let types = Arc::new(Types::read(folder.path(), Arc::clone(&program)).map_err(|error| format!("the types can't be read: {error}"))?);
        let objects = SharedObjects::default();
        let (due, asked) = mpsc::unbounded_channel();
        let waits = Arc::new(Waits::new(objects.clone(), due));
        let observer = Arc::new(Observer::new(Arc::default(), waits, metrics));
        let engine = Engine::start(plan(folder, &program, choices), Arc::clone(&observer) as Arc<_>);
        if !engine.first_up(MOST_STARTS).await {
            return Err("the store can't be started".to_string());
        }
        load_objects(&engine, &objects, &types).await.map_err(|why| why.to_string())?;
        tokio::spawn(ask_due(engine.clone(), asked));
        let (additions, added) = mpsc::channel(MOST_ADDITIONS);
        let extender = Extender { engine: engine.clone(), objects: objects.clone(), types: Arc::clone(&types), folder: folder.path().to_path_buf() };
        tokio::spawn(extender.run(added));
        let drain = Duration::from_secs(u64::from(choices.drain));
        let archive = Archive::read(folder.path(), choices.histories).map_err(|error| format!("the archive can't be read: {error}"))?;
        let store = Store { engine, objects, types, observer, archive, drain, past: Past::default(), additions };
        store.make_ready().await?;
        store.learn_prepared().await.map_err(|problem| format!("what is prepared can't be read: {}", problem.kind.title()))?;
        let store = Arc::new(store);
        tokio::spawn(Arc::clone(&store).sweep());
        Ok(store)
    }

    /// Whether a transaction commits.
    ///
    /// # Errors
    ///
    /// A [`Problem`] where it doesn't.
    pub async fn commits(&self) -> Result<(), Problem> {
        let object = self.objects.named(READY_OBJECT).ok_or(ProblemKind::StoreAway)?;
        let calls = vec![Call { object, name: READY_CALL.to_string(), class: 0 }];
        self.attempt(Attempt { calls, key: None, wait: Duration::ZERO }, None).await.map(drop)
    }

    /// A store from elsewhere gets the object by which it is asked.
    async fn make_ready(&self) -> Result<(), String> {
        if self.objects.named(READY_OBJECT).is_some() {
            return Ok(());
        }
        let of = Arc::new(TypeText::read(READY_TYPE));
        self.types.adopt(&[of]).map_err(|error| format!("a type can't be kept: {error}"))?;
        let object = NewObject { name: READY_OBJECT.to_string(), of: "colockd".to_string(), recovery: Recovery::Undo };
        let added = self.add(vec![object]).await;
        added.map_err(|problem| format!("the object {READY_OBJECT} can't be added: {}", problem.kind.title()))
    }
}

fn plan(folder: &DataFolder, program: &Program, choices: Choices) -> Plan {
    Plan { program: program.path().to_path_buf(), folder: folder.path().to_path_buf(), words: words_of(choices) }
}

/// The words that serve a store as it was chosen.
fn words_of(choices: Choices) -> Vec<String> {
    let mut words = vec!["serve".to_string()];
    if choices.is_fast {
        words.push("--fast".to_string());
    }
    words.extend(["--archive", ARCHIVE, "--drain"].map(str::to_string));
    words.push(choices.drain.to_string());
    if choices.outcomes != OUTCOMES {
        words.extend(["--outcomes".to_string(), choices.outcomes.to_string()]);
    }
    words.push(DATABASE.to_string());
    words
}

/// Makes a store with one object.
async fn create(folder: &DataFolder, program: &Program) -> Result<(), String> {
    let (objects, of) = (format!("{ROOM}/first.objects"), Types::file("colockd"));
    let write = |file: &str, text: &str| fs::write(folder.path().join(file), text).map_err(|error| format!("{file}: {error}"));
    write(&of, READY_TYPE)?;
    write(&objects, &format!("objects 1\nobject undo 0 {READY_OBJECT}\nend\n"))?;
    program.create(DATABASE, &objects, &of).await.map_err(|fault| format!("the store can't be made: {fault}"))
}

/// Asks for calls that wait. What the store answers is noted in its order.
async fn ask_due(engine: Engine<About>, mut due: mpsc::UnboundedReceiver<Due>) {
    while let Some(Due { number, words }) = due.recv().await {
        let engine = engine.clone();
        tokio::spawn(async move {
            // where the store is lost, who waits is told that
            let _ = engine.ask(Question::about(words, About::Would(number))).await;
        });
    }
}

#[cfg(test)]
mod tests {
    use super::{words_of, Choices, OUTCOMES};

    fn words(is_fast: bool, outcomes: u32) -> String {
        words_of(Choices { is_fast, drain: 5, outcomes, histories: 1 }).join(" ")
    }

    #[test]
    fn what_is_chosen_is_said() {
        assert_eq!(words(false, OUTCOMES), "serve --archive archive --drain 5 store.db");
        assert_eq!(words(true, 0), "serve --fast --archive archive --drain 5 --outcomes 0 store.db");
    }
}

//! What became of commits that a store was asked and didn't answer before it ended.

use crate::engine::answer::Answer;
use crate::engine::child::Greeting;
use crate::engine::question::Question;
use crate::engine::Engine;
use crate::names::{number_of, TransactionName};
use crate::store::about::About;
use std::collections::HashSet;
use std::sync::Arc;
use tokio::sync::Mutex;

/// The most events of one answer.
pub const MOST_EVENTS: u32 = 65_536;

/// The numbers of the transactions that had committed when a store was opened, by the life with which it greeted.
#[derive(Debug, Default)]
pub struct Past(Mutex<Option<(u32, Arc<HashSet<u32>>)>>);

impl Past {
    /// Whether a transaction committed of the life before that of a greeting; nothing where that isn't known.
    ///
    /// An end of that life's epoch would have made the life of the greeting two greater. So the epoch goes on, and its durable
    /// events are those that were found.
    pub async fn committed(&self, engine: &Engine<About>, greeting: Greeting, name: TransactionName) -> Option<bool> {
        if name.life + 1 != greeting.life {
            return None;
        }
        let found = greeting.found?.events;
        let mut known = self.0.lock().await;
        if known.as_ref().map(|(life, _)| *life) != Some(greeting.life) {
            *known = Some((greeting.life, Arc::new(committed_in(engine, greeting.life, found).await?)));
        }
        known.as_ref().map(|(_, numbers)| numbers.contains(&name.number))
    }
}

/// The numbers of the transactions that committed in the first events of an epoch, while it is that of a life.
async fn committed_in(engine: &Engine<About>, life: u32, count: u32) -> Option<HashSet<u32>> {
    let mut numbers = HashSet::new();
    let mut from = 0;
    while from < count {
        let most = MOST_EVENTS.min(count - from);
        let asked = vec![Question::list(format!("events {from} {most}")), Question::of("committed 0")];
        let told = engine.ask_all(asked).await.ok()?;
        match told.get(1)?.answer()? {
            Answer::Seen(moment, _) if moment.life == life => {}
            _ => return None,
        }
        let lines = &told.first()?.listed;
        numbers.extend(lines.lines().filter_map(|line| number_of(line.strip_prefix("commit 0 ")?)));
        from += most;
    }
    Some(numbers)
}

//! The store for all requests: its objects and types, what is open, and who waits.

pub mod about;
pub mod archive;
pub mod attempts;
pub mod bell;
pub mod calls;
pub mod decisions;
pub mod extending;
pub mod feed;
pub mod loading;
pub mod objects;
pub mod observer;
pub mod open;
pub mod opening;
pub mod past;
pub mod reads;
pub mod recovery;
pub mod transactions;
pub mod type_text;
pub mod types;
pub mod waits;

use crate::engine::question::Question;
use crate::engine::Engine;
use crate::problem::{Problem, ProblemKind};
use crate::store::about::{About, Cause};
use crate::store::archive::Archive;
use crate::store::extending::{Addition, NewObject};
use crate::store::objects::SharedObjects;
use crate::store::observer::Observer;
use crate::store::open::Standing;
use crate::store::past::Past;
use crate::store::types::{accepted, Types};
use futures_util::future::join_all;
use std::sync::Arc;
use std::time::Duration;
use tokio::sync::{mpsc, oneshot};
use tokio::time::sleep;

/// How often it is looked for transactions that nothing is asked of.
const BETWEEN_LOOKS: Duration = Duration::from_millis(250);

/// How often a store in which something happens is asked for its life, in looks.
const BETWEEN_BEATS: u32 = 4;

/// A store.
#[derive(Debug)]
pub struct Store {
    /// What is asked of it.
    pub engine: Engine<About>,
    /// Its objects.
    pub objects: SharedObjects,
    /// The types that they may have.
    pub types: Arc<Types>,
    /// What is noted of its answers.
    pub observer: Arc<Observer>,
    /// The histories of epochs that have ended.
    pub archive: Archive,
    /// How long open transactions may go on in an epoch that is full, where some yes is one-way.
    pub drain: Duration,
    past: Past,
    additions: mpsc::Sender<Addition>,
}

impl Store {
    /// Adds objects, all or none; they are durable then.
    ///
    /// # Errors
    ///
    /// A [`Problem`] where they aren't added.
    pub async fn add(&self, objects: Vec<NewObject>) -> Result<(), Problem> {
        for object in &objects {
            let verdict = self.types.verdict(&object.of, object.recovery).await?;
            accepted(&object.of, object.recovery, &verdict).map_err(|problem| problem.with("object", object.name.as_str()))?;
        }
        let (to, told) = oneshot::channel();
        self.additions.send(Addition { objects, to }).await.map_err(|_| ProblemKind::StoreAway)?;
        told.await.unwrap_or(Err(ProblemKind::OutcomeUnknown.into()))
    }

    /// Aborts transactions of which nothing was asked for too long, and looks whether an epoch has ended, for ever.
    pub async fn sweep(self: Arc<Store>) {
        let (mut seen, mut learnt, mut looked) = (0, 0, 0);
        for look in 0_u32.. {
            sleep(BETWEEN_LOOKS).await;
            let starts = self.observer.metrics.starts.get();
            if starts != learnt && self.learn_prepared().await.is_ok() {
                learnt = starts;
            }
            self.abort_undecided().await;
            let life = self.observer.life();
            if life != looked {
                looked = life;
                self.look_at_older(life).await;
            }
            let open = self.observer.open.unprepared();
            for transaction in open.iter().filter(|open| open.idle_for() >= open.idle) {
                tracing::info!(transaction = %transaction.name, owner = &*transaction.owner, "nothing was asked of it for too long");
                // it is gone either way
                let _ = self.abort(transaction.name, Cause::Idle).await;
            }
            let happened = self.observer.happened();
            if look % BETWEEN_BEATS == 0 && (!open.is_empty() || happened != seen) {
                seen = happened;
                self.beat().await;
            }
            if let Err(error) = self.archive.prune(self.observer.life()) {
                tracing::error!(%error, "old histories can't be removed");
            }
        }
    }

    /// Looks which of those that are open began before this life and were aborted by the end of an epoch.
    async fn look_at_older(&self, life: u32) {
        let open = self.observer.open.unprepared();
        let older: Vec<_> = open.iter().filter(|open| open.name.life < life).collect();
        // it is refused, of one that is open as `BadRollback`; of one that isn't the observer notes that
        join_all(older.iter().map(|open| self.rollback(open.name, 0))).await;
        let aborted = older.iter().filter(|open| self.observer.open.standing(open.name) == Some(Standing::Aborted(Cause::Epoch))).count();
        if aborted > 0 {
            tracing::info!(life, aborted, "the end of an epoch has aborted what was open");
        }
    }

    /// Asks the store for its life.
    async fn beat(&self) {
        if let Ok(told) = self.engine.ask(Question::of("committed 0")).await {
            if let Some(crate::engine::answer::Answer::Seen(moment, _)) = told.answer() {
                self.observer.told_life(moment.life);
            }
        }
    }
}

//! What is under the one lock of a shared store.

use crate::error::Error;
use crate::memory::keys::Keys;
use crate::memory::store::Store;
use crate::memory::transaction::Transaction;
use crate::objects::Objects;
use crate::reply::Outcome;
use crate::shared::calling::would;
use crate::stats::Stats;
use crate::transaction_id::TransactionId;
use crate::wait::waiters::{Waiters, Woken};
use crate::wire::remote::RemoteState;
use crate::wire::request::Request;
use crate::wire::slot::Slot;
use colock_waiting::Touched;
use std::mem::ManuallyDrop;
use std::sync::Arc;

/// Where the store is.
#[derive(Debug)]
pub(crate) enum Held {
    Memory(Store),
    Remote(RemoteState),
}

impl Held {
    /// The number by which those that wait know a transaction.
    #[inline]
    pub(crate) fn number(&self, id: TransactionId) -> u64 {
        match self {
            Held::Memory(_) => id.number,
            Held::Remote(_) => id.seen(),
        }
    }
}

/// A transaction, by what every call of it needs.
#[derive(Clone, Copy, Debug)]
pub(crate) struct Ticket {
    pub(crate) id: TransactionId,
    pub(crate) age: u64,
    pub(crate) worker: u8,
    /// At which objects it has executed operations.
    pub(crate) touched: Touched,
}

impl Ticket {
    /// That of one that has just begun.
    #[inline]
    pub(crate) fn new(id: TransactionId, age: u64, worker: u8) -> Ticket {
        Ticket { id, age, worker, touched: Touched::default() }
    }
}

/// What is under the lock.
#[derive(Debug)]
pub(crate) struct State {
    pub(crate) held: Held,
    pub(crate) waiters: Waiters,
    pub(crate) stats: Stats,
    /// Of a child the greatest life that was answered, in memory how often the store began anew while nobody was open.
    pub(crate) life: u64,
    /// How often a transaction has ended, or all of them.
    pub(crate) ends: u64,
    /// What became of keys, in memory.
    pub(crate) keys: Keys,
}

impl State {
    pub(crate) fn new(held: Held, objects: Arc<Objects>, life: u64, keys: Keys) -> State {
        State { held, stats: Stats::new(objects.len()), waiters: Waiters::new(objects), life, ends: 0, keys }
    }

    /// A life of the store in memory has ended: it has begun anew.
    pub(crate) fn renewed(&mut self) {
        self.life += 1;
        self.all_ended();
    }

    /// Does what was decided about those that wait. In memory the store is asked for them here, so that nobody is woken who
    /// can't go; over a child each asks by itself.
    pub(crate) fn settle(&mut self) {
        while let Some(caller) = self.waiters.next_to_ask() {
            match &self.held {
                Held::Memory(store) => match would(store, caller) {
                    Ok(Outcome::Busy { blocker }) => self.waiters.is_busy(caller.number, blocker),
                    _ => self.waiters.may_go(caller.number),
                },
                Held::Remote(_) => self.waiters.wake(caller.number, Woken::Again),
            }
        }
    }

    /// A transaction has ended.
    #[inline]
    pub(crate) fn ended(&mut self, ticket: Ticket) {
        self.ends += 1;
        if !self.waiters.is_empty() {
            self.waiters.ended(self.held.number(ticket.id), ticket.touched);
            self.settle();
        }
    }

    /// A transaction has taken back operations.
    pub(crate) fn took_back(&mut self, ticket: Ticket) {
        self.waiters.took_back(self.held.number(ticket.id), ticket.touched);
        self.settle();
    }

    /// A call waits no more.
    pub(crate) fn leaves(&mut self, number: u64) {
        self.waiters.leave(number);
        self.settle();
    }

    /// All transactions of a store in memory have ended.
    pub(crate) fn all_ended(&mut self) {
        self.ends += 1;
        self.waiters.epoch_ended();
        self.settle();
    }

    /// Any transaction over a child may have ended, which may have held anything: whoever waits asks once more.
    pub(crate) fn all_let_go(&mut self) {
        if let Ok(remote_state) = self.remote_state() {
            remote_state.let_go.all_let_go();
        }
        self.ends += 1;
        self.waiters.all_again();
        self.settle();
    }

    /// The child is lost.
    pub(crate) fn lost(&mut self) {
        self.waiters.lost();
        self.settle();
    }

    /// The store in memory.
    #[inline]
    pub(crate) fn memory(&mut self) -> Result<&mut Store, Error> {
        match &mut self.held {
            Held::Memory(store) => Ok(store),
            Held::Remote(_) => Err(Error::InMemoryOnly),
        }
    }

    /// Writes a request to the child, whose answer comes into the slot.
    pub(crate) fn send(&mut self, request: Request<'_>) -> Result<Arc<Slot>, Error> {
        self.remote_state()?.send(request)
    }

    /// The store behind a child.
    pub(crate) fn remote_state(&mut self) -> Result<&mut RemoteState, Error> {
        match &mut self.held {
            Held::Remote(remote_state) => Ok(remote_state),
            Held::Memory(_) => Err(Error::ConnectionLost("the store is in memory".to_string())),
        }
    }

    /// A transaction has begun over a child.
    pub(crate) fn began(&mut self, id: TransactionId) {
        self.told_life(id.life);
        if let Held::Remote(remote_state) = &mut self.held {
            remote_state.open.insert(id, 0);
        }
    }

    /// Whether the transaction can still be open: why not, if not. Over a child its end or a refusal says that it isn't.
    #[inline]
    pub(crate) fn can_be_open(&self, ticket: Ticket) -> Result<(), Error> {
        match &self.held {
            Held::Memory(_) if ticket.id.life == self.life => Ok(()),
            Held::Memory(_) => Err(Error::NotOpen),
            Held::Remote(remote_state) if remote_state.open.contains_key(&ticket.id) => Ok(()),
            Held::Remote(_) => Err(Error::EpochEnded),
        }
    }

    /// Whether those that wait know nobody else by the number of a transaction. In memory each life has the same numbers.
    pub(crate) fn has_own_number(&self, ticket: Ticket) -> bool {
        matches!(self.held, Held::Remote(_)) || ticket.id.life == self.life
    }

    /// Whether a transaction is open, over a child as far as is known.
    pub(crate) fn is_open(&self, id: TransactionId) -> bool {
        match &self.held {
            Held::Memory(store) => id.life == self.life && store.is_open(id.number),
            Held::Remote(remote_state) => remote_state.open.contains_key(&id),
        }
    }

    /// A child answered a life. Where it is a new one an epoch has ended. Whether that aborted what was open isn't known.
    pub(crate) fn told_life(&mut self, life: u64) {
        if matches!(self.held, Held::Remote(_)) && life > self.life {
            self.life = life;
            self.all_let_go();
        }
    }

    /// A child answered a line of a transaction. One that isn't open there, and hasn't ended here, was aborted by the end of an epoch.
    pub(crate) fn sees_answer<T>(&mut self, ticket: Ticket, told: &Result<T, Error>) {
        if let (Held::Remote(remote_state), Err(Error::EpochEnded)) = (&mut self.held, told) {
            let was_open = remote_state.open.remove(&ticket.id).is_some();
            self.epoch_ended(was_open);
        }
    }

    /// The end of an epoch has aborted a transaction, which is counted if it wasn't before. It may have aborted others too.
    pub(crate) fn epoch_ended(&mut self, is_new: bool) {
        self.stats.aborts += u64::from(is_new);
        self.all_let_go();
    }
}

/// A transaction of a store in memory, which isn't aborted where this is dropped.
#[inline]
pub(crate) fn resumed(store: &Store, worker: u8, number: u64) -> ManuallyDrop<Transaction<'_>> {
    ManuallyDrop::new(Transaction::of(store, worker, number))
}

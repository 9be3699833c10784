//! Random commands, and the histories that they make.

use crate::random::Random;
use crate::recovery::Recovery;
use crate::store::{Object, Store};
use crate::types::Type;
use std::sync::Arc;

/// The most events of a history: few, so that long ones come to it.
const MOST_EVENTS: usize = 48;
/// The fewest and the most commands of a history.
const COMMANDS: (u32, u32) = (5, 60);

/// What is asked of the store.
#[derive(Clone, Copy)]
pub enum Command {
    Begin,
    Call { t: u32, x: u32, c: u8 },
    Commit { t: u32 },
    Abort { t: u32 },
    Rollback { t: u32, n: u32 },
}

/// A new store with an object of each type.
pub fn new_store<R: Recovery>(types: &[Arc<Type>]) -> Store<R> {
    let objects = types.iter().map(|table| Object::new(Arc::clone(table)));
    Store::new(objects.collect(), MOST_EVENTS)
}

/// Gives a store a command of a worker. A command that is refused leaves no event.
pub fn give<R: Recovery>(store: &mut Store<R>, (w, command): (u8, Command)) {
    let _ = match command {
        Command::Begin => store.begin(w).map(|_| ()),
        Command::Call { t, x, c } => store.call_op(w, t, x, c).map(|_| ()),
        Command::Commit { t } => store.commit(w, t),
        Command::Abort { t } => store.abort(w, t),
        Command::Rollback { t, n } => store.rollback(w, t, n),
    };
}

/// What commands are drawn from: a generator, the objects' types, and the worker of each transaction
/// that began.
struct Drawing<'a> {
    random: &'a mut Random,
    types: &'a [Arc<Type>],
    workers: Vec<u8>,
}

impl Drawing<'_> {
    /// Mostly an open transaction, else one that began or that would be next.
    fn transaction(&mut self, open: &[u32]) -> u32 {
        if self.random.one_of(16) {
            return self.random.below(self.workers.len() as u32 + 2);
        }
        open[self.random.below(open.len() as u32) as usize]
    }

    /// A call of t, mostly of an object that is there and of a call that it has.
    fn call(&mut self, t: u32) -> Command {
        let x = self.random.below(self.types.len() as u32);
        let calls = &self.types[x as usize].calls;
        let c = calls[self.random.below(calls.len() as u32) as usize].first;
        match self.random.below(32) {
            0 => Command::Call {
                t,
                x: x + self.types.len() as u32,
                c,
            },
            1 => Command::Call {
                t,
                x,
                c: self.random.below(8) as u8,
            },
            _ => Command::Call { t, x, c },
        }
    }

    /// What some worker asks for where these transactions are open: the fewer there are, the likelier
    /// another begins.
    fn command(&mut self, open: &[u32]) -> (u8, Command) {
        if self.random.one_of(2 * open.len() as u32 + 1) {
            return (self.random.below(256) as u8, Command::Begin);
        }
        let t = self.transaction(open);
        let command = match self.random.below(100) {
            0..72 => self.call(t),
            72..82 => Command::Commit { t },
            82..88 => Command::Abort { t },
            _ => Command::Rollback {
                t,
                n: self.random.below(4),
            },
        };
        let worker = self.workers.get(t as usize).copied();
        (worker.unwrap_or(0), command)
    }
}

/// Random commands, and the store that was given them: it has an event, as the first is a begin.
pub fn random_run<R: Recovery>(
    random: &mut Random,
    types: &[Arc<Type>],
) -> (Vec<(u8, Command)>, Store<R>) {
    let mut store = new_store(types);
    let mut commands = Vec::new();
    let count = COMMANDS.0 + random.below(COMMANDS.1 - COMMANDS.0 + 1);
    let mut drawing = Drawing {
        random,
        types,
        workers: Vec::new(),
    };
    for _ in 0..count {
        let (w, command) = drawing.command(&store.open());
        let before = store.history().len();
        give(&mut store, (w, command));
        if matches!(command, Command::Begin) && store.history().len() > before {
            drawing.workers.push(w);
        }
        commands.push((w, command));
    }
    (commands, store)
}

/// A store that was given these commands up to this many events.
pub fn run_up_to<R: Recovery>(
    types: &[Arc<Type>],
    commands: &[(u8, Command)],
    events: usize,
) -> Store<R> {
    let mut store = new_store(types);
    for &command in commands {
        if store.history().len() == events {
            break;
        }
        give(&mut store, command);
    }
    store
}

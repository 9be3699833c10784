//! A plain store of transactions over shared objects, to compare with: the same answers from the same
//! structures, with neither proofs nor the tests that they make needless.
//!
//! `plain_store KIND FILE OBJECTS OPEN CALLS MODE COMMANDS ROUNDS` prints the least nanoseconds of a
//! run of COMMANDS commands, and what came of them. `plain_store commits FILE CALL` does commits whose
//! instructions are counted.

mod commits;
mod escrow;
mod intentions;
mod locks;
mod outcome;
mod recovery;
// plain_run has some uses of its own.
#[allow(dead_code)]
mod store;
mod transactions;
#[allow(dead_code)]
mod types;
mod undo;
mod workload;

use std::sync::Arc;
use std::time::Instant;

use escrow::Numeric;
use intentions::Intentions;
use outcome::{Outcome, folded};
use recovery::Recovery;
use store::{Event, EventKind, Object, Store};
use types::Type;
use undo::Undo;
use workload::{Command, Mode, Workload, commands_of};

/// The most events of a history.
const MOST_EVENTS: usize = 1_000_000;

impl Outcome {
    /// Takes an event in: which kind it is of, and its numbers.
    fn note(&mut self, event: &Event) {
        match event.kind {
            EventKind::Op { .. } => self.ops += 1,
            EventKind::Busy { .. } => self.busy += 1,
            EventKind::None { .. } => self.none += 1,
            EventKind::Commit { .. } => self.commits += 1,
            _ => {}
        }
        self.history = words_of(event.kind).into_iter().fold(self.history, folded);
        self.history = folded(self.history, u32::from(event.worker));
    }
}

/// The kind of an event and its numbers.
fn words_of(kind: EventKind) -> [u32; 5] {
    match kind {
        EventKind::Begin { t } => [0, t, 0, 0, 0],
        EventKind::Op { t, x, k } => [1, t, x, u32::from(k), 0],
        EventKind::Busy { t, x, c, u } => [2, t, x, u32::from(c), u],
        EventKind::None { t, x, c } => [3, t, x, u32::from(c), 0],
        EventKind::Commit { t } => [4, t, 0, 0, 0],
        EventKind::Abort { t } => [5, t, 0, 0, 0],
        EventKind::Rollback { t, n } => [6, t, n, 0, 0],
    }
}

/// Gives a store the commands, and answers how many of them it refused.
#[inline(never)]
fn run<R: Recovery>(store: &mut Store<R>, commands: &[Command]) -> u32 {
    let mut refused = 0;
    for command in commands {
        let accepted = match *command {
            Command::Begin => store.begin(0).is_ok(),
            Command::Call { t, x, c } => store.call_op(0, t, x, c).is_ok(),
            Command::Commit { t } => store.commit(0, t).is_ok(),
            Command::Abort { t } => store.abort(0, t).is_ok(),
            Command::Rollback { t, n } => store.rollback(0, t, n).is_ok(),
        };
        refused += u32::from(!accepted);
    }
    refused
}

/// The nanoseconds of a run in a new store, and what came of it.
fn round<R: Recovery>(table: &Arc<Type>, objects: u32, commands: &[Command]) -> (u128, Outcome) {
    let fresh = (0..objects)
        .map(|_| Object::<R>::new(Arc::clone(table)))
        .collect();
    let mut store = Store::new(fresh, MOST_EVENTS);
    let start = Instant::now();
    let refused = run(&mut store, commands);
    let time = start.elapsed().as_nanos();
    let states = (0..objects).map(|x| u32::from(store.kept(x as usize)));
    let mut outcome = Outcome {
        refused,
        kept: states.fold(0, folded),
        ..Outcome::default()
    };
    store.close().iter().for_each(|event| outcome.note(event));
    (time, outcome)
}

fn measure<R: Recovery>(table: Type, workload: &Workload, rounds: u32) {
    let table = Arc::new(table);
    let numbers: Vec<u8> = table.calls.iter().map(|call| call.first).collect();
    let commands = commands_of(workload, &numbers);
    let (mut least, mut last) = (u128::MAX, Outcome::default());
    for _ in 0..rounds {
        let (time, outcome) = round::<R>(&table, workload.objects, &commands);
        (least, last) = (least.min(time), outcome);
    }
    last.print(least, size_of::<Event>());
}

fn number(word: &str) -> u32 {
    word.parse().expect("a number")
}

fn main() {
    let words: Vec<String> = std::env::args().skip(1).collect();
    if let [what, path, call] = words.as_slice()
        && what == "commits"
    {
        commits::write_rows(&std::fs::read_to_string(path).expect("a file"), call);
        return;
    }
    let [kind, path, objects, open, calls, mode, commands, rounds] = words.as_slice() else {
        panic!("KIND FILE OBJECTS OPEN CALLS MODE COMMANDS ROUNDS")
    };
    let text = std::fs::read_to_string(path).expect("a file");
    let mode = match mode.as_str() {
        "plain" => Mode::Plain,
        "old" => Mode::Old,
        _ => Mode::Rollback,
    };
    let workload = Workload {
        objects: number(objects),
        open: number(open),
        calls: number(calls),
        mode,
        commands: number(commands) as usize,
    };
    let table = Type::read(&text, kind);
    match kind.as_str() {
        "undo" => measure::<Undo>(table, &workload, number(rounds)),
        "intentions" => measure::<Intentions>(table, &workload, number(rounds)),
        _ => measure::<Numeric>(table, &workload, number(rounds)),
    }
}

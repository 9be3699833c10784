//! Runs of the commands of a workload.

use crate::outcome::{Outcome, folded};
use crate::workload::{Command, Mode, Workload, commands_of};
use crate::{Told, number};
use colock::{Error, Event, Store, Transaction, Type};
use std::io::{BufWriter, Write, stdout};
use std::time::Instant;

const MOST_EVENTS: u64 = 1_000_000;

impl Outcome {
    fn note(&mut self, event: &Event) {
        match event {
            Event::Operation { .. } => self.ops += 1,
            Event::Busy { .. } => self.busy += 1,
            Event::None { .. } => self.none += 1,
            Event::Commit { .. } => self.commits += 1,
            _ => {}
        }
        self.history = words_of(event).into_iter().fold(self.history, folded);
    }
}

/// The kind of an event, its numbers and its worker.
fn words_of(event: &Event) -> [u32; 6] {
    let low = |number: u64| number as u32;
    match *event {
        Event::Begin {
            worker,
            transaction,
        } => [0, low(transaction), 0, 0, 0, worker.into()],
        Event::Operation {
            worker,
            transaction,
            object,
            operation,
        } => [
            1,
            low(transaction),
            object,
            operation.place.into(),
            0,
            worker.into(),
        ],
        Event::Busy {
            worker,
            transaction,
            object,
            call,
            blocker,
        } => [
            2,
            low(transaction),
            object,
            call.into(),
            low(blocker),
            worker.into(),
        ],
        Event::None {
            worker,
            transaction,
            object,
            call,
        } => [3, low(transaction), object, call.into(), 0, worker.into()],
        Event::Commit {
            worker,
            transaction,
        } => [4, low(transaction), 0, 0, 0, worker.into()],
        Event::Abort {
            worker,
            transaction,
        } => [5, low(transaction), 0, 0, 0, worker.into()],
        Event::Rollback {
            worker,
            transaction,
            operations,
        } => [6, low(transaction), low(operations), 0, 0, worker.into()],
        _ => panic!("an event of another kind"),
    }
}

/// A command, and the place of its transaction among those that are open.
struct Step {
    place: usize,
    command: Command,
}

/// The steps of commands: who begins takes a place that is free.
fn steps_of(commands: Vec<Command>, open: u32) -> Vec<Step> {
    let mut free: Vec<usize> = (0..=open as usize).rev().collect();
    let mut places = Vec::new();
    let step = |command| {
        let place = match command {
            Command::Begin => {
                places.push(free.pop().expect("a place"));
                places[places.len() - 1]
            }
            Command::Call { t, .. } | Command::Rollback { t, .. } => places[t as usize],
            Command::Commit { t } | Command::Abort { t } => {
                free.push(places[t as usize]);
                places[t as usize]
            }
        };
        Step { place, command }
    };
    commands.into_iter().map(step).collect()
}

/// Gives a store the commands, and answers how many of them it refused. What is open then is in its place.
#[inline(never)]
fn run<'s>(store: &'s Store, steps: &[Step], running: &mut [Option<Transaction<'s>>]) -> u32 {
    let mut refused = 0;
    for step in steps {
        let it = &mut running[step.place];
        let accepted = match step.command {
            Command::Begin => store
                .begin()
                .map(|transaction| *it = Some(transaction))
                .is_ok(),
            Command::Call { x, c, .. } => it.as_mut().is_some_and(|it| it.call_op(x, c).is_ok()),
            Command::Commit { .. } => it.take().is_some_and(|it| it.commit().is_ok()),
            Command::Abort { .. } => it.take().is_some_and(|it| it.abort().is_ok()),
            Command::Rollback { n, .. } => {
                it.as_mut().is_some_and(|it| it.rollback(n.into()).is_ok())
            }
        };
        refused += u32::from(!accepted);
    }
    refused
}

/// The nanoseconds of a run in a new store, and what came of it.
fn round(of: &Type, workload: &Workload, steps: &[Step]) -> Result<(u128, Outcome), Error> {
    let objects = workload.objects;
    let mut store = Store::new((0..objects).map(|_| of), MOST_EVENTS)?;
    let mut running: Vec<Option<Transaction<'_>>> = (0..=workload.open).map(|_| None).collect();
    let start = Instant::now();
    let refused = run(&store, steps, &mut running);
    let time = start.elapsed().as_nanos();
    for transaction in running.into_iter().flatten() {
        transaction.leave();
    }
    let mut outcome = Outcome {
        refused,
        ..Outcome::default()
    };
    for x in 0..objects {
        outcome.kept = folded(outcome.kept, store.kept(x)? as u32);
    }
    store.abort_all();
    store
        .events(0)?
        .iter()
        .for_each(|event| outcome.note(event));
    Ok((time, outcome))
}

/// The number of each call of the type: that of the first operation that has it.
fn numbers_of(of: &Type) -> Result<Vec<u8>, Error> {
    let store = Store::new([of], MOST_EVENTS)?;
    let mut numbers = Vec::new();
    for k in 0..of.operations() {
        if store.call_number(0, &of.call_name(k)?)? == k.into() {
            numbers.push(k);
        }
    }
    Ok(numbers)
}

/// The workload of these words.
fn workload_of(words: &[&str]) -> Workload {
    let [objects, open, calls, mode, commands] = words else {
        panic!("OBJECTS OPEN CALLS MODE COMMANDS")
    };
    let mode = match *mode {
        "plain" => Mode::Plain,
        "old" => Mode::Old,
        "rollback" => Mode::Rollback,
        other => panic!("no mode {other}"),
    };
    Workload {
        objects: number(objects),
        open: number(open),
        calls: number(calls),
        mode,
        commands: number(commands),
    }
}

/// Writes the commands of a workload: what is asked for, a transaction, and an object and a call or how many operations
/// are rolled back.
pub fn write_commands(of: &Type, words: &[&str]) -> Told {
    let mut output = BufWriter::new(stdout());
    for command in commands_of(&workload_of(words), &numbers_of(of)?) {
        let [what, t, x, c] = match command {
            Command::Begin => [0, 0, 0, 0],
            Command::Call { t, x, c } => [1, t, x, c.into()],
            Command::Commit { t } => [2, t, 0, 0],
            Command::Abort { t } => [3, t, 0, 0],
            Command::Rollback { t, n } => [4, t, n, 0],
        };
        writeln!(output, "{what} {t} {x} {c}")?;
    }
    Ok(output.flush()?)
}

/// Prints the least nanoseconds of a run of a workload, and what came of it.
pub fn measure(of: &Type, words: &[&str], rounds: u32) -> Told {
    let workload = workload_of(words);
    let steps = steps_of(commands_of(&workload, &numbers_of(of)?), workload.open);
    let (mut least, mut last) = (u128::MAX, Outcome::default());
    for _ in 0..rounds {
        let (time, outcome) = round(of, &workload, &steps)?;
        (least, last) = (least.min(time), outcome);
    }
    last.print(least, size_of::<Event>());
    Ok(())
}

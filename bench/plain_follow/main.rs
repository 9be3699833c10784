//! Random histories of a plain store, and what it makes of one event that is changed, to compare with
//! stores that follow them: no proofs.
//!
//! `plain_follow KIND SEED HISTORIES FILE..` writes for each history, at a store with one object of each
//! type file, the number of events; for each event its worker, its kind and four numbers; the place of an
//! event; six numbers of another one; 1 where a command makes that one at this place, and 0 where none
//! does; and the state that each object keeps at the end.

mod changes;
mod commands;
#[path = "../plain_store/intentions.rs"]
mod intentions;
#[path = "../plain_store/locks.rs"]
mod locks;
mod random;
#[path = "../plain_store/recovery.rs"]
mod recovery;
#[allow(dead_code)]
#[path = "../plain_store/store.rs"]
mod store;
#[path = "../plain_store/transactions.rs"]
mod transactions;
#[allow(dead_code)]
#[path = "../plain_store/types.rs"]
mod types;
#[path = "../plain_store/undo.rs"]
mod undo;

use changes::{Words, changed, is_made, words_of};
use commands::{random_run, run_up_to};
use intentions::Intentions;
use random::Random;
use recovery::Recovery;
use std::io::{BufWriter, Result, Stdout, Write, stdout};
use std::sync::Arc;
use types::Type;
use undo::Undo;

/// Where numbers are written to.
type Output = BufWriter<Stdout>;

fn write_event(output: &mut Output, [w, kind, numbers @ ..]: Words) -> Result<()> {
    write!(output, "{w} {kind}")?;
    for number in numbers {
        write!(output, " {number}")?;
    }
    writeln!(output)
}

/// Makes a history, changes one of its events, and writes what came of them.
fn write_history<R: Recovery>(
    output: &mut Output,
    random: &mut Random,
    types: &[Arc<Type>],
) -> Result<()> {
    let (commands, store) = random_run::<R>(random, types);
    let events: Vec<Words> = store.history().iter().map(words_of).collect();
    let place = random.below(events.len() as u32) as usize;
    let other = changed(random, events[place], types.len() as u32);
    let made = is_made(run_up_to::<R>(types, &commands, place), types, other);
    writeln!(output, "{}", events.len())?;
    for event in events {
        write_event(output, event)?;
    }
    writeln!(output, "{place}")?;
    write_event(output, other)?;
    writeln!(output, "{}", u32::from(made))?;
    for x in 0..types.len() {
        writeln!(output, "{}", store.kept(x))?;
    }
    Ok(())
}

/// Writes this many histories of a seed.
fn write_histories<R: Recovery>(seed: u32, histories: u32, types: &[Arc<Type>]) -> Result<()> {
    let mut output = BufWriter::new(stdout());
    let mut random = Random::of_seed(u64::from(seed));
    for _ in 0..histories {
        write_history::<R>(&mut output, &mut random, types)?;
    }
    output.flush()
}

fn number(word: &str) -> u32 {
    word.parse().expect("a number")
}

fn main() -> Result<()> {
    let words: Vec<String> = std::env::args().skip(1).collect();
    let [kind, seed, histories, paths @ ..] = words.as_slice() else {
        panic!("KIND SEED HISTORIES FILE..")
    };
    let read = |path: &String| {
        let text = std::fs::read_to_string(path).expect("a file");
        Arc::new(Type::read(&text, kind))
    };
    let types: Vec<Arc<Type>> = paths.iter().map(read).collect();
    let (seed, histories) = (number(seed), number(histories));
    if kind == "undo" {
        write_histories::<Undo>(seed, histories, &types)
    } else {
        write_histories::<Intentions>(seed, histories, &types)
    }
}

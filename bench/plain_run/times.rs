//! How long the parts take.

use crate::audit::{audit, write_audit};
use crate::output::Output;
use crate::run::{finish, run_commands, step, write_objects};
use crate::{Plan, Record, bytes};
use std::hint::black_box;
use std::io::{Result, sink};
use std::time::Instant;

const ROUNDS: usize = 15;

/// The least nanoseconds of a piece of work, and what it answered last.
fn least<T>(mut work: impl FnMut() -> T) -> (u128, T) {
    let mut timed = || {
        let start = Instant::now();
        let done = black_box(work());
        (start.elapsed().as_nanos(), done)
    };
    let (mut time, mut last) = timed();
    for _ in 1..ROUNDS {
        let (next, done) = timed();
        (time, last) = (time.min(next), done);
    }
    (time, last)
}

pub fn of_run(path: &str, words: &[String]) -> Result<bool> {
    let (loading, _) = least(|| bytes(path));
    let (reading, plan) = least(|| Plan::read(path, words));
    let (running, _) = least(|| {
        let mut store = plan.store();
        let run = |&command| step(&mut store, &plan.calls, command).is_ok();
        plan.script
            .entries
            .iter()
            .map(run)
            .filter(|&ran| ran)
            .count()
    });
    let (both, store) = least(|| {
        let (mut store, mut output) = (plan.store(), Output::new(sink()));
        write_objects(&plan.script.head.objects, &mut output)?;
        run_commands(&mut store, &plan.calls, &plan.script.entries, &mut output)?;
        finish(&mut store, plan.script.head.objects.len(), &mut output).map(|()| store)
    });
    let (store, tables) = (store?, plan.types.of_objects());
    let (auditing, outcome) = least(|| audit(store.history(), &tables));
    let (telling, is_serial) = least(|| write_audit(&outcome, &mut Output::new(sink())));
    println!(
        "loading {loading}\nreading {}\nrunning {running}\nwriting {}",
        reading.saturating_sub(loading),
        both.saturating_sub(running)
    );
    println!("auditing {auditing}\nauditlines {telling}");
    is_serial
}

pub fn of_audit(path: &str, words: &[String]) -> Result<bool> {
    let (loading, _) = least(|| bytes(path));
    let (reading, record) = least(|| Record::read(path, words));
    let tables = record.types.of_objects();
    let (auditing, outcome) = least(|| audit(&record.history.entries, &tables));
    let (telling, is_serial) = least(|| write_audit(&outcome, &mut Output::new(sink())));
    println!(
        "loading {loading}\nreading {}",
        reading.saturating_sub(loading)
    );
    println!("auditing {auditing}\nauditlines {telling}");
    is_serial
}

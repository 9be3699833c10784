//! The run of a script on a store.

use crate::either::Either;
use crate::lines::{Kind, ObjectLine};
use crate::output::Output;
use crate::script::Command;
use crate::store::{Answer, Refusal, Store};
use crate::types::Type;
use std::io::{Result, Write};

/// In place of a call: no operation of the type has this name.
const NO_CALL: u8 = u8::MAX;

/// For each type of the script's objects, the place of each name of the script among its calls.
pub struct Resolved {
    /// Where the names of an object's type begin.
    rows: Vec<usize>,
    calls: Vec<u8>,
}

impl Resolved {
    /// Finds each name in each type; `objects` says for each object which type it has.
    pub fn new(names: &[Box<[u8]>], types: &[&Type], objects: &[usize]) -> Resolved {
        let mut calls = Vec::with_capacity(names.len() * types.len());
        for table in types {
            calls.extend(names.iter().map(|name| {
                let found = table
                    .calls
                    .iter()
                    .position(|call| call.name.as_bytes() == &**name);
                found.map_or(NO_CALL, |place| place as u8)
            }));
        }
        let rows = objects.iter().map(|place| place * names.len()).collect();
        Resolved { rows, calls }
    }

    /// The place of a name among the calls of an object's type.
    #[inline]
    fn place(&self, x: u32, name: u32) -> u8 {
        let row = self.rows.get(x as usize).copied().unwrap_or(0);
        self.calls[row + name as usize]
    }
}

/// Gives the store a command.
#[inline(always)]
pub fn step(
    store: &mut Store<Either>,
    calls: &Resolved,
    command: Command,
) -> std::result::Result<(), Refusal> {
    match command {
        Command::Begin => store.begin(0).map(|_| ()),
        Command::Call { t, x, name } => {
            let place = calls.place(x, name);
            let answer = store.call(0, t, x, |table| table.calls.get(place as usize));
            answer.map(|_: Answer| ())
        }
        Command::Commit { t } => store.commit(0, t),
        Command::Abort { t } => store.abort(0, t),
        Command::Rollback { t, n } => store.rollback(0, t, n),
    }
}

#[cold]
fn refused<W: Write>(output: &mut Output<W>, refusal: Refusal) -> Result<()> {
    match refusal {
        Refusal::NotOpen => output.text(b"# refused 1 NotOpen"),
        Refusal::NoObject => output.text(b"# refused 2 NoObject"),
        Refusal::NoCall => output.text(b"# refused 3 NoCall"),
        Refusal::TooManyOpen => output.text(b"# refused 4 TooManyOpen"),
        Refusal::HistoryFull => output.text(b"# refused 5 HistoryFull"),
        Refusal::BadRollback => output.text(b"# refused 7 BadRollback"),
    }
    output.end_line()
}

/// The line of the last event.
#[inline(always)]
fn last<W: Write>(store: &Store<Either>, output: &mut Output<W>) -> Result<()> {
    store
        .history()
        .last()
        .map_or(Ok(()), |event| output.event(event))
}

/// Gives the store a command and writes its line.
#[inline(always)]
pub fn step_and_tell<W: Write>(
    store: &mut Store<Either>,
    calls: &Resolved,
    command: Command,
    output: &mut Output<W>,
) -> Result<()> {
    match step(store, calls, command) {
        Ok(()) => last(store, output),
        Err(refusal) => refused(output, refusal),
    }
}

/// Runs the commands and writes a line for each.
#[inline(never)]
pub fn run_commands<W: Write>(
    store: &mut Store<Either>,
    calls: &Resolved,
    commands: &[Command],
    output: &mut Output<W>,
) -> Result<()> {
    commands
        .iter()
        .try_for_each(|&command| step_and_tell(store, calls, command, output))
}

/// The line of each object.
pub fn write_objects<W: Write>(objects: &[ObjectLine], output: &mut Output<W>) -> Result<()> {
    for object in objects {
        let file = u32::from(object.file);
        match object.kind {
            Kind::Undo => output.line(b"object undo", [file])?,
            Kind::Intentions => output.line(b"object intentions", [file])?,
            Kind::Escrow => output.line(b"object escrow", [file])?,
        }
    }
    Ok(())
}

/// Aborts what is open, and writes what comes after the commands.
pub fn finish<W: Write>(
    store: &mut Store<Either>,
    objects: usize,
    output: &mut Output<W>,
) -> Result<()> {
    for t in store.open() {
        let _ = store.abort(0, t);
        last(store, output)?;
    }
    output.line(b"end", [])?;
    for x in 0..objects {
        output.line(b"# kept", [x as u32, u32::from(store.kept(x))])?;
    }
    Ok(())
}

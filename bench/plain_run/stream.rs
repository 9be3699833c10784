//! The same texts in one pass: what is read is done and told at once, and neither commands nor events are held. So a fault
//! of the text is seen too late.

use crate::audit::{Audit, Outcome, write_audit};
use crate::history::Events;
use crate::lines::{Entries, Head, Kind, TextFault, padded, read_each};
use crate::output::Output;
use crate::script::{Command, Commands};
use crate::streamed::{Answer, Refusal, Streamed};
use crate::telling::{Telling, Text, small_text};
use crate::{Types, types_of};
use std::io::{Error, Result, Write};

fn no_text(fault: TextFault) -> Error {
    Error::other(format!("line {}: {:?}", fault.line, fault.kind))
}

/// What comes before the entries of a text.
fn head_of<E: Entries>(text: &[u8], grammar: &mut E) -> Result<Head> {
    read_each(text, grammar, |_, _| false).map_err(no_text)
}

/// For each type and each name of the script that was read so far the bits of the call's operations.
struct Named<'a> {
    types: &'a Types,
    names: usize,
    operations: Vec<u64>,
}

impl Named<'_> {
    #[cold]
    fn resolve(&mut self, names: &[Box<[u8]>]) {
        let found = |calls: &[crate::types::Call], name: &[u8]| {
            let call = calls.iter().find(|call| call.name.as_bytes() == name);
            call.map_or(0, |call| call.operations)
        };
        self.names = names.len();
        let each = self.types.each().into_iter();
        self.operations = each
            .flat_map(|of| names.iter().map(move |name| found(&of.calls, name)))
            .collect();
    }

    #[inline]
    fn operations(&self, x: usize, name: u32) -> u64 {
        self.operations[self.types.of[x] * self.names + name as usize]
    }
}

#[cold]
fn refused<W: Write>(told: &mut Telling<W>, refusal: Refusal) -> Result<()> {
    let words = match refusal {
        Refusal::NotOpen => "1 NotOpen",
        Refusal::NoObject => "2 NoObject",
        Refusal::NoCall => "3 NoCall",
        Refusal::TooManyOpen => "4 TooManyOpen",
        Refusal::HistoryFull => "5 HistoryFull",
        Refusal::BadRollback => "7 BadRollback",
    };
    told.text(&format!("# refused {words}\n"))
}

/// Does a command, and writes its line.
#[inline(always)]
fn step<W: Write>(
    store: &mut Streamed,
    named: &Named,
    command: Command,
    told: &mut Telling<W>,
) -> Result<()> {
    let done = match command {
        Command::Call { t, x, name } => match store.call(t, x, |x| named.operations(x, name)) {
            Ok((text, operations, answer)) => {
                let object = small_text(x as u8);
                let call = || small_text(operations.trailing_zeros() as u8);
                return match answer {
                    Answer::Reply(op) => told.line(b"op 0", [text, object, small_text(op)]),
                    Answer::Busy(other) => told.line(b"busy 0", [text, object, call(), other]),
                    Answer::None => told.line(b"none 0", [text, object, call()]),
                };
            }
            Err(refusal) => Err(refusal),
        },
        Command::Begin => match store.begin() {
            Ok(text) => return told.line(b"begin 0", [text]),
            Err(refusal) => Err(refusal),
        },
        Command::Commit { t } => match store.commit(t) {
            Ok(text) => return told.line(b"commit 0", [text]),
            Err(refusal) => Err(refusal),
        },
        Command::Abort { t } => store.abort(t).map(|text| told.line(b"abort 0", [text])),
        Command::Rollback { t, n } => store
            .rollback(t, n)
            .map(|text| told.line(b"rollback 0", [text, Text::of(n)])),
    };
    done.unwrap_or_else(|refusal| refused(told, refusal))
}

/// Aborts what is open, and writes what comes after the commands. Whether the audit is a yes.
fn finish<W: Write>(store: &mut Streamed, told: &mut Telling<W>) -> Result<bool> {
    for t in store.open() {
        if let Ok(text) = store.abort(t) {
            told.line(b"abort 0", [text])?;
        }
    }
    told.text("end\n")?;
    for (x, [kept, _]) in store.states().into_iter().enumerate() {
        told.line(b"# kept", [small_text(x as u8), Text::of(kept.into())])?;
    }
    match store.illegal {
        Some(numbers) => told.line(b"# audit no IllegalOp", numbers.map(Text::of))?,
        None => write_yes(store, told)?,
    }
    told.flush().map(|()| store.illegal.is_none())
}

fn write_yes<W: Write>(store: &Streamed, told: &mut Telling<W>) -> Result<()> {
    told.text("# audit yes\n")?;
    for &text in &store.order {
        told.line(b"# commit", [text])?;
    }
    for (x, [_, serial]) in store.states().into_iter().enumerate() {
        told.line(b"# serial", [small_text(x as u8), Text::of(serial.into())])?;
    }
    Ok(())
}

pub fn run<W: Write>(path: &str, words: &[String], writer: W) -> Result<bool> {
    let text = padded(path)?;
    let head = head_of(&text, &mut Commands::new())?;
    let types = types_of(path, &head.objects, words, true);
    let tables = types.of_objects();
    let mut store = Streamed::new(&head.objects, &tables, head.max as usize);
    let mut named = Named {
        types: &types,
        names: 0,
        operations: Vec::new(),
    };
    let (mut told, mut result) = (Telling::new(writer), Ok(()));
    for object in &head.objects {
        match object.kind {
            Kind::Undo => told.line(b"object undo", [small_text(object.file)])?,
            Kind::Intentions => told.line(b"object intentions", [small_text(object.file)])?,
            Kind::Escrow => told.line(b"object escrow", [small_text(object.file)])?,
        }
    }
    let each = |commands: &Commands, command| {
        if named.names != commands.names.len() {
            named.resolve(&commands.names);
        }
        result = step(&mut store, &named, command, &mut told);
        result.is_ok()
    };
    read_each(&text, &mut Commands::new(), each).map_err(no_text)?;
    result?;
    finish(&mut store, &mut told)
}

pub fn audit<W: Write>(path: &str, words: &[String], writer: W) -> Result<bool> {
    let text = padded(path)?;
    let head = head_of(&text, &mut Events)?;
    let types = types_of(path, &head.objects, words, false);
    let tables = types.of_objects();
    let (mut audit, mut at, mut is_bad) = (Audit::new(&tables), 0, false);
    let each = |_: &Events, event| {
        is_bad = audit.take(&event).is_none();
        at += usize::from(!is_bad);
        !is_bad
    };
    read_each(&text, &mut Events, each).map_err(no_text)?;
    let outcome = if is_bad {
        Outcome::BadEvent(at)
    } else {
        audit.outcome()
    };
    let mut output = Output::new(writer);
    let is_serial = write_audit(&outcome, &mut output)?;
    output.flush().map(|()| is_serial)
}

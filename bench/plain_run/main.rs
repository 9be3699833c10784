//! A plain program that does what `colock run` and `colock audit` do, to compare with: no proofs.
//!
//! `plain_run run SCRIPT TYPE...` and `plain_run audit HISTORY TYPE...` write the same text.
//! `plain_run times-run SCRIPT TYPE...` and `plain_run times-audit HISTORY TYPE...` write the
//! nanoseconds of each part, least of some rounds; `stream-run` and `stream-audit` write the same in one
//! pass. Type files are taken to be right as texts, and for escrow to be numeric.

mod audit;
mod check;
mod either;
#[path = "../plain_store/escrow.rs"]
mod escrow;
mod history;
#[path = "../plain_store/intentions.rs"]
mod intentions;
mod lines;
#[path = "../plain_store/locks.rs"]
mod locks;
mod output;
#[path = "../plain_store/recovery.rs"]
mod recovery;
mod run;
mod script;
#[allow(dead_code)]
#[path = "../plain_store/store.rs"]
mod store;
mod stream;
mod streamed;
mod telling;
mod times;
#[allow(dead_code)]
#[path = "../plain_store/transactions.rs"]
mod transactions;
#[allow(dead_code)]
#[path = "../plain_store/types.rs"]
mod types;
#[path = "../plain_store/undo.rs"]
mod undo;

use audit::{audit, write_audit};
use check::TypeFile;
use either::Either;
use history::Events;
use lines::{Entries, Head, Kind, ObjectLine, PADDING, Parts, padded};
use output::Output;
use run::{Resolved, finish, run_commands, write_objects};
use script::{Command, Commands};
use std::fs::File;
use std::io::{Result, Write};
use std::os::fd::AsFd;
use std::process::exit;
use std::sync::Arc;
use store::{Event, Object, Store};
use types::Type;

fn fail(status: i32, text: String) -> ! {
    eprintln!("colock: {text}");
    exit(status)
}

fn bytes(path: &str) -> Vec<u8> {
    padded(path).unwrap_or_else(|_| fail(3, format!("{path}: cannot read")))
}

/// The value of the text of a file.
fn parts_of<E: Entries>(path: &str, grammar: &mut E) -> Parts<E::Entry> {
    let text = bytes(path);
    lines::read(&text, grammar)
        .unwrap_or_else(|fault| fail(2, format!("{path}: line {}: {:?}", fault.line, fault.kind)))
}

fn type_text(path: &str) -> String {
    let mut text = bytes(path);
    text.truncate(text.len() - PADDING);
    String::from_utf8(text).unwrap_or_else(|_| fail(2, format!("{path}: line 1: NotAscii")))
}

/// The types of a store's objects, each once, and for each object which of them it has.
pub struct Types {
    tables: Vec<Arc<Type>>,
    of: Vec<usize>,
}

impl Types {
    fn each(&self) -> Vec<&Type> {
        self.tables.iter().map(|table| &**table).collect()
    }

    fn of_objects(&self) -> Vec<&Type> {
        self.of.iter().map(|&place| &*self.tables[place]).collect()
    }
}

/// The types of the objects, each of which is accepted for its kind where that is asked for.
fn types_of(path: &str, objects: &[ObjectLine], words: &[String], is_checked: bool) -> Types {
    let texts: Vec<String> = words.iter().map(|word| type_text(word)).collect();
    let (mut seen, mut types) = (
        Vec::new(),
        Types {
            tables: Vec::new(),
            of: Vec::new(),
        },
    );
    for (x, &ObjectLine { kind, file }) in objects.iter().enumerate() {
        let place = seen.iter().position(|&other| other == (kind, file));
        types.of.push(place.unwrap_or(seen.len()));
        if place.is_some() {
            continue;
        }
        let Some(text) = texts.get(file as usize) else {
            fail(2, format!("{path}: object {x}: no type {file}"))
        };
        if is_checked && let Some(fault) = TypeFile::read(text).fault(kind) {
            println!("# object {x} no {fault}");
            exit(1)
        }
        seen.push((kind, file));
        let word = match kind {
            Kind::Undo => "undo",
            Kind::Intentions => "intentions",
            Kind::Escrow => "escrow",
        };
        types.tables.push(Arc::new(Type::read(text, word)));
    }
    types
}

/// A new store.
fn store_of(head: &Head, types: &Types) -> Store<Either> {
    let objects = head.objects.iter().zip(&types.of).map(|(object, &place)| {
        let table = &types.tables[place];
        Object::of(Arc::clone(table), Either::of(object.kind, table))
    });
    Store::new(objects.collect(), head.max as usize)
}

/// A script that can be run: its values, its types and where its names are among their calls.
pub struct Plan {
    script: Parts<Command>,
    types: Types,
    calls: Resolved,
}

impl Plan {
    fn read(path: &str, words: &[String]) -> Plan {
        let mut commands = Commands::new();
        let script = parts_of(path, &mut commands);
        let types = types_of(path, &script.head.objects, words, true);
        let calls = Resolved::new(&commands.names, &types.each(), &types.of);
        Plan {
            script,
            types,
            calls,
        }
    }

    fn store(&self) -> Store<Either> {
        store_of(&self.script.head, &self.types)
    }

    /// Runs the script, and answers whether the audit is a yes.
    fn run<W: Write>(&self, output: &mut Output<W>) -> Result<bool> {
        let mut store = self.store();
        write_objects(&self.script.head.objects, output)?;
        run_commands(&mut store, &self.calls, &self.script.entries, output)?;
        finish(&mut store, self.script.head.objects.len(), output)?;
        let outcome = audit(store.history(), &self.types.of_objects());
        let is_serial = write_audit(&outcome, output)?;
        output.flush()?;
        Ok(is_serial)
    }
}

/// A history that can be audited.
pub struct Record {
    history: Parts<Event>,
    types: Types,
}

impl Record {
    fn read(path: &str, words: &[String]) -> Record {
        let history = parts_of(path, &mut Events);
        let types = types_of(path, &history.head.objects, words, false);
        Record { history, types }
    }

    /// Audits the history, and answers whether that is a yes.
    fn audit<W: Write>(&self, output: &mut Output<W>) -> Result<bool> {
        let outcome = audit(&self.history.entries, &self.types.of_objects());
        let is_serial = write_audit(&outcome, output)?;
        output.flush()?;
        Ok(is_serial)
    }
}

fn main() {
    let words: Vec<String> = std::env::args().skip(1).collect();
    let [task, path, types @ ..] = words.as_slice() else {
        fail(2, "run|audit FILE TYPE...".to_string())
    };
    // Not through the line buffer of std's own.
    let Ok(stdout) = std::io::stdout().as_fd().try_clone_to_owned() else {
        exit(3)
    };
    let output = File::from(stdout);
    let done = match task.as_str() {
        "run" => Plan::read(path, types).run(&mut Output::new(output)),
        "audit" => Record::read(path, types).audit(&mut Output::new(output)),
        "stream-run" => stream::run(path, types, output),
        "stream-audit" => stream::audit(path, types, output),
        "times-run" => times::of_run(path, types),
        _ => times::of_audit(path, types),
    };
    match done {
        Ok(is_serial) => exit(i32::from(!is_serial)),
        Err(_) => exit(3),
    }
}

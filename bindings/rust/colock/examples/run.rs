//! `run SCRIPT TYPE..`: runs a script, and writes what `colock run` writes of it up to the kept states.

use colock::{Error, Kind, LeftOpen, Store, Transaction, Type};
use std::error::Error as AnyError;
use std::io::{self, Write};

const REFUSALS: [(Error, &str); 7] = [
    (Error::NotOpen, "NotOpen"),
    (Error::NoObject, "NoObject"),
    (Error::NoCall, "NoCall"),
    (Error::TooManyOpen, "TooManyOpen"),
    (Error::HistoryFull, "HistoryFull"),
    (Error::NoMemory, "NoMemory"),
    (Error::BadRollback, "BadRollback"),
];

/// The transaction of a number. One that never began is as one that ended.
fn resumed<'s>(store: &'s Store, begun: &[LeftOpen], number: &str) -> Result<Transaction<'s>, Error> {
    let id = number.parse::<usize>().ok().and_then(|number| begun.get(number)).ok_or(Error::NotOpen)?;
    store.resume(*id)
}

fn command(store: &Store, begun: &mut Vec<LeftOpen>, words: &[&str]) -> Result<(), Error> {
    match *words {
        ["begin"] => {
            begun.push(store.begin()?.leave());
            Ok(())
        }
        ["call", t, x, name] => {
            let mut t = resumed(store, begun, t)?;
            let done = t.call(x.parse().unwrap_or(u32::MAX), name).map(drop);
            t.leave();
            done
        }
        ["rollback", t, n] => {
            let mut t = resumed(store, begun, t)?;
            let done = t.rollback(n.parse().unwrap_or(0));
            t.leave();
            done
        }
        ["commit", t] => resumed(store, begun, t)?.commit(),
        ["abort", t] => resumed(store, begun, t)?.abort(),
        _ => panic!("no command: {words:?}"),
    }
}

fn kind_of(word: &str) -> Option<Kind> {
    [Kind::Undo, Kind::Intentions, Kind::Escrow].into_iter().find(|kind| kind.to_string() == word)
}

fn write_events(store: &Store, told: &mut u64, out: &mut impl Write) -> Result<(), Box<dyn AnyError>> {
    for event in store.events(*told)? {
        writeln!(out, "{event}")?;
        *told += 1;
    }
    Ok(())
}

fn main() -> Result<(), Box<dyn AnyError>> {
    let words: Vec<String> = std::env::args().skip(1).collect();
    let script = std::fs::read_to_string(&words[0])?;
    let lines: Vec<Vec<&str>> = script.lines().filter(|line| !line.starts_with('#')).map(|line| line.split(' ').collect()).collect();
    let mut out = io::BufWriter::new(io::stdout().lock());
    let (mut max_events, mut types, mut begun, mut told) = (0, Vec::new(), Vec::new(), 0);
    for line in lines.iter().filter(|line| matches!(line[0], "max" | "object")) {
        match line[..] {
            ["object", kind, file] => {
                let kind = kind_of(kind).ok_or("no kind")?;
                types.push(Type::read(std::fs::read(&words[1 + file.parse::<usize>()?])?, kind)?);
                writeln!(out, "{}", line.join(" "))?;
            }
            _ => max_events = line[1].parse()?,
        }
    }
    let mut store = Store::new(&types, max_events)?;
    for line in lines.iter().filter(|line| !matches!(line[0], "max" | "object" | "end")) {
        let done = command(&store, &mut begun, line);
        write_events(&store, &mut told, &mut out)?;
        if let Err(error) = done {
            let number = REFUSALS.iter().position(|(refusal, _)| *refusal == error).ok_or(error)?;
            writeln!(out, "# refused {} {}", number + 1, REFUSALS[number].1)?;
        }
    }
    store.abort_all();
    write_events(&store, &mut told, &mut out)?;
    writeln!(out, "end")?;
    for x in 0..types.len() {
        writeln!(out, "# kept {x} {}", store.kept(x as u32)?)?;
    }
    Ok(out.flush()?)
}

//! What is measured of the store by its library, `libcolock`, over the crate `colock`:
//!
//! - `library commands KIND FILE OBJECTS OPEN CALLS MODE COMMANDS` writes the commands of a workload, four numbers for
//!   each, as `bench/store` and `bench/library.c` read them.
//! - `library store KIND FILE OBJECTS OPEN CALLS MODE COMMANDS ROUNDS` prints the least nanoseconds of a run of these
//!   commands, and what came of them.
//! - `library types KIND FILE ROUNDS` prints whether a type file is accepted, how many lines it has, and the least
//!   nanoseconds in which it is read, and in which it is read and checked.
//! - `library followed KIND NUMBERS FILE..` has stores follow the histories of `bench/plain_follow`.
//! - `library lasting KIND FILE MILLIONS` goes on for this many million events, and forgets them.
//! - `library workers KIND FILE WORKERS JOBS TRIES MICROSECONDS CALL..` prints the nanoseconds of workers at one object,
//!   and what came of their jobs.

mod followed;
mod lasting;
mod runs;
mod types;
// `bench/plain_workers` waits in the same manner.
#[allow(dead_code)]
#[path = "../../plain_workers/waiting.rs"]
mod waiting;
mod workers;
// `bench/plain_store` makes the same commands, and says the same of what came of them.
#[path = "../../plain_store/outcome.rs"]
mod outcome;
#[path = "../../plain_store/workload.rs"]
mod workload;

use colock::{Kind, Type};
use std::error::Error;
use std::str::FromStr;

type Told = Result<(), Box<dyn Error>>;

fn number<N: FromStr>(word: &str) -> N {
    word.parse().ok().expect("a number")
}

fn kind_of(word: &str) -> Kind {
    match word {
        "undo" => Kind::Undo,
        "intentions" => Kind::Intentions,
        "escrow" => Kind::Escrow,
        other => panic!("no kind {other}"),
    }
}

/// The type of the file at a path, where it is accepted for a kind.
fn type_at(kind: &str, path: &str) -> Result<Type, Box<dyn Error>> {
    Ok(Type::read(std::fs::read(path)?, kind_of(kind))?)
}

fn main() -> Told {
    let words: Vec<String> = std::env::args().skip(1).collect();
    let words: Vec<&str> = words.iter().map(String::as_str).collect();
    match words.as_slice() {
        ["commands", kind, path, workload @ ..] => {
            runs::write_commands(&type_at(kind, path)?, workload)
        }
        ["store", kind, path, workload @ .., rounds] => {
            runs::measure(&type_at(kind, path)?, workload, number(rounds))
        }
        ["types", kind, path, rounds] => {
            types::measure(kind_of(kind), &std::fs::read(path)?, number(rounds))
        }
        ["followed", kind, numbers, paths @ ..] => followed::measure(kind, numbers, paths),
        ["lasting", kind, path, millions] => {
            lasting::measure(&type_at(kind, path)?, number(millions))
        }
        [
            "workers",
            kind,
            path,
            workers,
            jobs,
            tries,
            sleep,
            calls @ ..,
        ] => {
            let work = workers::Work::new(number(tries), number(sleep), calls);
            work.measure(&type_at(kind, path)?, number(workers), number(jobs))
        }
        _ => panic!("commands, store, types, followed, lasting or workers, with their words"),
    }
}

//! The schedules of `bindings/schedules`, written by hand from the rules.
//!
//! A schedule is a line of prose, then the calls that there are, then which ones each keeps out, then events. After `->`
//! are the decisions that must come of an event, or the answer to a question; none where there is no `->`. A transaction
//! is said with its number, its age, the object and the call.

use colock_waiting::{Age, Asker, Class, Decision, Number, ObjectIndex, OnlookerId, Touched, Verdict, Waiting};
use std::fs;
use std::path::Path;

type Gate = Waiting<Box<dyn Fn(ObjectIndex, Class, Class) -> bool>>;

/// The calls of a schedule, and which keep out which.
#[derive(Clone, Default)]
struct Calls {
    names: Vec<String>,
    blocks: Vec<(Class, Class)>,
}

impl Calls {
    fn class(&self, name: &str) -> Class {
        let place = self.names.iter().position(|other| other == name);
        Class(place.unwrap_or_else(|| panic!("no call {name}")) as u8)
    }

    /// Reads a line that isn't an event.
    fn read(&mut self, words: &[&str]) -> bool {
        match words {
            ["calls", names @ ..] => self.names.extend(names.iter().map(|name| name.to_string())),
            ["blocks", call, others @ ..] => {
                let call = self.class(call.trim_end_matches(':'));
                let others: Vec<Class> = others.iter().map(|other| self.class(other)).collect();
                self.blocks.extend(others.into_iter().map(|other| (call, other)));
            }
            _ => return false,
        }
        true
    }

    fn asker(&self, number: &str, age: &str, object: &str, call: &str) -> Asker {
        Asker { number: number_of(number), age: Age(parsed(age)), object: ObjectIndex(parsed(object) as u32), call: self.class(call) }
    }

    fn waiting(&self) -> Gate {
        let blocks = self.blocks.clone();
        Waiting::new(Box::new(move |_, call, other| blocks.contains(&(call, other))))
    }
}

fn parsed(word: &str) -> u64 {
    word.parse().unwrap_or_else(|_| panic!("no number: {word}"))
}

fn number_of(word: &str) -> Number {
    Number(parsed(word))
}

fn touched(words: &[&str]) -> Touched {
    words.iter().map(|word| ObjectIndex(parsed(word) as u32)).collect()
}

/// Does an event, or answers a question.
fn told(waiting: &mut Gate, calls: &Calls, words: &[&str]) -> Option<String> {
    match words {
        ["gate", number, age, object, call] => {
            let ahead = waiting.gate(calls.asker(number, age, object, call));
            return Some(ahead.map_or("free".into(), |ahead| format!("behind {}", ahead.0)));
        }
        ["edge", number] => {
            let edge = waiting.edge(number_of(number));
            return Some(edge.map_or("none".into(), |edge| format!("{} {}", if edge.by_gate { "gate" } else { "store" }, edge.to.0)));
        }
        ["look_on_any"] => return Some(format!("onlooker {}", waiting.look_on_any().0)),
        ["look_on", number] => return Some(format!("onlooker {}", waiting.look_on(number_of(number)).0)),
        ["enter", number, age, object, call] => waiting.enter(calls.asker(number, age, object, call)),
        ["busy", number, blocker] => waiting.busy(number_of(number), number_of(blocker)),
        ["may_go", number] => waiting.may_go(number_of(number)),
        ["again", number] => waiting.again(number_of(number)),
        ["leave", number] => waiting.leave(number_of(number)),
        ["ended", number, objects @ ..] => waiting.ended(number_of(number), touched(objects)),
        ["took_back", number, objects @ ..] => waiting.took_back(number_of(number), touched(objects)),
        ["all_again"] => waiting.all_again(),
        ["epoch_ended"] => waiting.epoch_ended(),
        ["lost"] => waiting.lost(),
        ["look_away", id] => waiting.look_away(OnlookerId(parsed(id))),
        _ => panic!("no event: {words:?}"),
    }
    None
}

fn decisions(waiting: &mut Gate) -> String {
    let decisions: Vec<String> = std::iter::from_fn(|| waiting.next_decision()).map(said).collect();
    decisions.join(", ")
}

fn said(decision: Decision) -> String {
    match decision {
        Decision::Ask(asker) => format!("ask {}", asker.number.0),
        Decision::Wake(number) => format!("wake {}", number.0),
        Decision::Abort { number, waited_for } => format!("abort {} for {}", number.0, waited_for.0),
        Decision::End { number, verdict } => format!("end {} {}", number.0, reason(verdict)),
        Decision::OnlookerFree(id) => format!("free {}", id.0),
    }
}

fn reason(verdict: Verdict) -> &'static str {
    match verdict {
        Verdict::Gone => "gone",
        Verdict::EpochEnded => "epoch",
        Verdict::Lost => "lost",
    }
}

/// Follows a schedule, and says where it comes out differently.
fn followed(schedule: &str) -> Result<(), String> {
    let mut lines = schedule.lines();
    let prose = lines.next().unwrap_or_default();
    let (mut calls, mut waiting) = (Calls::default(), None);
    for line in lines {
        let (event, wanted) = line.split_once(" -> ").unwrap_or((line, ""));
        let words: Vec<&str> = event.split_whitespace().collect();
        if calls.read(&words) {
            continue;
        }
        let waiting = waiting.get_or_insert_with(|| calls.waiting());
        let answer = told(waiting, &calls, &words);
        let found = answer.unwrap_or_else(|| decisions(waiting));
        if found != wanted {
            return Err(format!("{prose}\n  {line}\n  but: {found:?}"));
        }
    }
    waiting.map(drop).ok_or_else(|| format!("{prose}: no event"))
}

/// The schedules of a file, which blank lines part.
fn read(path: &Path) -> Vec<String> {
    let text = fs::read_to_string(path).unwrap();
    text.split("\n\n").map(|schedule| schedule.trim().to_string()).filter(|schedule| !schedule.is_empty()).collect()
}

#[test]
fn schedules_come_out_as_written() {
    let folder = Path::new(env!("CARGO_MANIFEST_DIR")).join("../../schedules");
    let mut paths: Vec<_> = fs::read_dir(folder).unwrap().map(|entry| entry.unwrap().path()).collect();
    paths.sort();
    let schedules: Vec<String> = paths.iter().filter(|path| path.extension().is_some_and(|ending| ending == "txt")).flat_map(|path| read(path)).collect();
    let faults: Vec<String> = schedules.iter().filter_map(|schedule| followed(schedule).err()).collect();
    assert!(schedules.len() >= 30, "{} schedules", schedules.len());
    assert!(faults.is_empty(), "{} faults:\n{}", faults.len(), faults.join("\n"));
}

#[test]
fn a_schedule_that_comes_out_differently_is_told() {
    let schedule = "Wrong.\ncalls write\nblocks write: write\nenter 10 1 0 write -> ask 10\nbusy 10 90 -> wake 10";
    assert_eq!(followed(schedule), Err("Wrong.\n  busy 10 90 -> wake 10\n  but: \"\"".into()));
    assert_eq!(followed("Nothing.\ncalls write"), Err("Nothing.: no event".into()));
}

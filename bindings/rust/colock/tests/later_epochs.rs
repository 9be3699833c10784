//! What became of transactions that went over into later epochs, by the cases of `bindings/cases/epochs.txt`: over a child that is a
//! program in shell, and archives that are written by hand.
//!
//! A case is a line of prose, what a store finds, and names of transactions. Behind `->` is what is said of each. `opened` has the life
//! with which the child greets, how many events it found and how many it aborted; `history` the life of an archived history and its
//! events, as that of `cut`, which isn't whole; `present` the present life and the events of its epoch; `later` the life in which the
//! store is once they were read.

mod common;

use colock::{OpenOptions, SharedStore};
use common::{id, write_program, write_store_id, Folder, COUNTER_ARMS};
use std::fs;
use std::time::Duration;

const CASES: &str = include_str!("../../../cases/epochs.txt");

/// The id of the store.
const STORE: [u8; 16] = *b"id of this store";

/// A program that serves a counter. It says what it was told in files: the life with which it greets, what it found, the present life, and that
/// after its events were read.
const PROGRAM: [&str; 3] = [
    r#"#!/bin/sh
read -r greeted events aborted < "$0.opened"
read -r life later < "$0.lives"
echo "colock: a.db: $events events, $aborted aborted, 1 ms" >&2
echo "colock 5 $greeted"
while read -r tag verb rest; do
    case "$verb" in"#,
    COUNTER_ARMS,
    r#"    committed) echo "$tag seen $life.0 0" ;;
    events)
        tail -n "+$((${rest%% *} + 1))" "$0.events" | sed "s/^/$tag /"
        echo "$tag ok"
        life=$later ;;
    end) echo "$tag ok"; exit 0 ;;
    esac
done
"#,
];

/// A store as a case says, and its folder.
struct Case {
    store: SharedStore,
    _folder: Folder,
}

impl Case {
    /// By the lines before those of transactions.
    fn of(lines: &[&str]) -> Case {
        let folder = Folder::new();
        let write = |name: &str, text: &str| fs::write(folder.file(name), text).unwrap();
        fs::create_dir(folder.file("old")).unwrap();
        write_store_id(&folder.file("a.db"), STORE);
        write_program(&folder.file("child"), &PROGRAM.join("\n"));
        let mut lives = (String::new(), String::new());
        for line in lines {
            let (head, events) = events_of(line);
            match head.split_once(' ').unwrap() {
                ("opened", found) => write("child.opened", &format!("{found}\n")),
                ("history", life) => write(&history(life), &format!("object undo 0\n{events}end\n")),
                ("cut", life) => write(&history(life), &format!("object undo 0\n{events}")),
                ("present", life) => {
                    write("child.events", &events);
                    lives = (life.to_string(), life.to_string());
                }
                ("later", life) => lives.1 = life.to_string(),
                other => panic!("{other:?}"),
            }
        }
        write("child.lives", &format!("{} {}\n", lives.0, lives.1));
        let options = OpenOptions::new().program(folder.file("child")).archive(folder.file("old")).limit(Duration::from_secs(20));
        Case { store: options.open(folder.file("a.db")).unwrap(), _folder: folder }
    }

    fn says(&self, name: &str) -> &'static str {
        match self.store.committed(id(name)).unwrap() {
            Some(true) => "committed",
            Some(false) => "aborted",
            None => "nothing",
        }
    }
}

/// The child has ended before the folder goes away.
impl Drop for Case {
    fn drop(&mut self) {
        let _ = self.store.close();
    }
}

/// What a line is of, and its events, a line each.
fn events_of(line: &str) -> (&str, String) {
    let mut parts = line.split(" | ");
    (parts.next().unwrap(), parts.map(|event| format!("{event}\n")).collect())
}

/// The file of the history of an epoch that ended in this life.
fn history(life: &str) -> String {
    let store: String = STORE.iter().map(|byte| format!("{byte:02x}")).collect();
    format!("old/{store}-{life}.history")
}

#[test]
fn cases_come_out() {
    let cases: Vec<&str> = CASES.trim_end().split("\n\n").collect();
    assert!(cases.len() >= 20);
    for case in cases {
        let (prose, lines) = case.split_once('\n').unwrap();
        let (asked, found): (Vec<&str>, Vec<&str>) = lines.lines().partition(|line| line.contains(" -> "));
        assert!(!asked.is_empty(), "{prose}");
        let case = Case::of(&found);
        for line in asked {
            let (name, wanted) = line.split_once(" -> ").unwrap();
            assert_eq!(case.says(name), wanted, "{prose} {name}");
        }
    }
}

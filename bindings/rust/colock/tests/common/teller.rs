//! A child that is a program in shell, which a test tells what to answer.

use super::{write_program, Folder, COUNTER_ARMS};
use colock::{OpenOptions, SharedStore};
use std::fs;
use std::time::Duration;

/// A program that serves a counter from 0 to 2, and writes down what it is asked. The first two transactions are 1.0 and
/// 1.1; a test says what is answered after them: the third begin, the call after it, and so on, a line each.
fn told() -> String {
    [
        "#!/bin/sh\necho \"colock 5 1\"\nexec 3< \"$0.answers\"\nwhile read -r tag verb rest; do",
        "    echo \"$verb $rest\" >> \"$0.asked\"\n    case \"$verb\" in",
        COUNTER_ARMS,
        "    end) echo \"$tag ok\"; exit 0 ;;\n    *) read -r answer <&3; echo \"$tag $answer\" ;;\n    esac\ndone\n",
    ]
    .join("\n")
}

/// The program, in a folder of its own.
pub struct Teller(Folder);

impl Teller {
    /// A program that answers so.
    pub fn of(answers: &[&str]) -> Teller {
        let folder = Folder::new();
        write_program(&folder.file("teller"), &told());
        fs::write(folder.file("teller.answers"), answers.join("\n") + "\n").unwrap();
        fs::write(folder.file("a.db"), "").unwrap();
        Teller(folder)
    }

    /// A store of a child that answers so.
    pub fn open(&self) -> SharedStore {
        OpenOptions::new().program(self.0.file("teller")).limit(Duration::from_secs(20)).open(self.0.file("a.db")).unwrap()
    }

    /// What it was asked after the opening.
    pub fn asked(&self) -> Vec<String> {
        let asked = fs::read_to_string(self.0.file("teller.asked")).unwrap();
        asked.lines().skip(2).map(|line| line.trim_end().to_string()).collect()
    }
}

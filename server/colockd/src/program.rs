//! The program `colock` as it is run for one answer.

use crate::store::recovery::Recovery;
use std::fmt;
use std::io;
use std::path::{Path, PathBuf};
use std::process::{Output, Stdio};
use std::time::Duration;
use tokio::process::Command;
use tokio::sync::Semaphore;
use tokio::time::timeout;

/// How long it may take.
const LONGEST_RUN: Duration = Duration::from_secs(60);

/// How many run at the same time.
const MOST_RUNS: usize = 2;

/// The most lines of what mends a type.
const MOST_MENDS: usize = 64;

/// Whether a type may be used.
#[derive(Clone, Debug, PartialEq, Eq)]
pub enum Verdict {
    /// It may; and the checker's line.
    Yes(String),
    /// It may not; the checker's line, and the lines that mend it.
    No(String, Vec<String>),
    /// The text has a fault of a kind, at a line.
    Fault(u32, String),
    /// A number is for escrow alone.
    NeedsEscrow,
}

/// Why the program gave no answer.
#[derive(Debug)]
pub enum ProgramFault {
    /// It can't be run.
    NotRun(io::Error),
    /// It took too long.
    TooSlow,
    /// It failed, and said this.
    Failed(String),
}

impl fmt::Display for ProgramFault {
    fn fmt(&self, f: &mut fmt::Formatter<'_>) -> fmt::Result {
        match self {
            ProgramFault::NotRun(error) => write!(f, "the program can't be run: {error}"),
            ProgramFault::TooSlow => write!(f, "the program took more than {} seconds", LONGEST_RUN.as_secs()),
            ProgramFault::Failed(said) => write!(f, "the program failed: {said}"),
        }
    }
}

/// The program.
#[derive(Debug)]
pub struct Program {
    path: PathBuf,
    folder: PathBuf,
    runs: Semaphore,
}

impl Program {
    /// The program at a path, which is run in a folder.
    pub fn new(path: PathBuf, folder: PathBuf) -> Program {
        Program { path, folder, runs: Semaphore::new(MOST_RUNS) }
    }

    /// Its path.
    pub fn path(&self) -> &Path {
        &self.path
    }

    /// Runs it with some words.
    async fn run(&self, words: &[&str]) -> Result<Output, ProgramFault> {
        let _run = self.runs.acquire().await;
        let mut command = Command::new(&self.path);
        command.args(words).current_dir(&self.folder).stdin(Stdio::null()).kill_on_drop(true);
        let output = timeout(LONGEST_RUN, command.output()).await.map_err(|_| ProgramFault::TooSlow)?;
        output.map_err(ProgramFault::NotRun)
    }

    /// Makes a store.
    ///
    /// # Errors
    ///
    /// [`ProgramFault`] where it doesn't.
    pub async fn create(&self, database: &str, objects: &str, of: &str) -> Result<(), ProgramFault> {
        let output = self.run(&["create", database, objects, of]).await?;
        if output.status.success() {
            return Ok(());
        }
        Err(failed(&output))
    }

    /// Whether the type of a file may be used for a kind of recovery.
    ///
    /// # Errors
    ///
    /// [`ProgramFault`] where it doesn't say.
    pub async fn check(&self, recovery: Recovery, file: &str) -> Result<Verdict, ProgramFault> {
        let output = self.run(&["check", recovery.word(), file]).await?;
        let told = String::from_utf8_lossy(&output.stdout);
        let first = told.lines().next().unwrap_or("").to_string();
        match output.status.code() {
            Some(0) => Ok(Verdict::Yes(first)),
            Some(1) => Ok(Verdict::No(first, self.mends(recovery, file).await)),
            Some(2) => fault_in(&String::from_utf8_lossy(&output.stderr)).ok_or_else(|| failed(&output)),
            _ => Err(failed(&output)),
        }
    }

    /// The lines that mend a type, as far as they can be found.
    async fn mends(&self, recovery: Recovery, file: &str) -> Vec<String> {
        let Ok(output) = self.run(&["explain", recovery.word(), file]).await else { return Vec::new() };
        let told = String::from_utf8_lossy(&output.stdout);
        told.lines().filter_map(|line| line.strip_prefix("mend ")).map(str::to_string).take(MOST_MENDS).collect()
    }
}

fn failed(output: &Output) -> ProgramFault {
    let said = if output.stderr.is_empty() { &output.stdout } else { &output.stderr };
    ProgramFault::Failed(String::from_utf8_lossy(said).lines().next().unwrap_or("nothing was said").chars().take(300).collect())
}

/// What `colock: FILE: line N: Kind` says, or that a number needs escrow.
fn fault_in(said: &str) -> Option<Verdict> {
    let line = said.lines().next()?;
    if line.ends_with(": number needs escrow") {
        return Some(Verdict::NeedsEscrow);
    }
    let (rest, kind) = line.rsplit_once(": ")?;
    let (_, number) = rest.rsplit_once(": line ")?;
    Some(Verdict::Fault(number.parse().ok()?, kind.to_string()))
}

#[cfg(test)]
mod tests {
    use super::{fault_in, Verdict};

    #[test]
    fn faults_are_read() {
        assert_eq!(fault_in("colock: types/a.type: line 18: OutOfOrder\n"), Some(Verdict::Fault(18, "OutOfOrder".to_string())));
        assert_eq!(fault_in("colock: types/a.type: number needs escrow\n"), Some(Verdict::NeedsEscrow));
        assert_eq!(fault_in("colock: no memory\n"), None);
    }
}

//! The child `colock serve`: how it starts, what it says of itself, and how it ends.

use crate::names::number_of;
use std::fmt;
use std::io;
use std::os::unix::process::CommandExt;
use std::path::PathBuf;
use std::process::Stdio;
use std::time::Duration;
use tokio::io::{AsyncBufRead, AsyncBufReadExt, AsyncRead, AsyncReadExt, BufReader};
use tokio::process::{Child, ChildStdin, ChildStdout, Command};
use tokio::sync::oneshot;
use tokio::time::timeout;
use tracing::info;

/// The most bytes of a line of an answer.
pub const LONGEST_ANSWER: u64 = 4_096;

/// The version of what is spoken.
const SPOKEN: &str = "5";

/// How long a child may take to open its file.
const LONGEST_OPENING: Duration = Duration::from_secs(300);

/// How long what it says on standard error is waited for, once it has greeted.
const LONGEST_SAYING: Duration = Duration::from_secs(2);

/// How long a child that was asked for its end may take, with its epoch's end.
const LONGEST_END: Duration = Duration::from_secs(120);

/// Which program has which file.
#[derive(Clone, Debug)]
pub struct Plan {
    /// The program `colock`.
    pub program: PathBuf,
    /// The folder that the words are relative to.
    pub folder: PathBuf,
    /// The words of `serve`.
    pub words: Vec<String>,
}

/// What an opening found in the file.
#[derive(Clone, Copy, Debug, PartialEq, Eq)]
pub struct Found {
    /// How many events there were.
    pub events: u32,
    /// How many transactions were open, each of which was aborted.
    pub aborted: u32,
}

/// What a child says as it begins.
#[derive(Clone, Copy, Debug, PartialEq, Eq)]
pub struct Greeting {
    /// The life of the store.
    pub life: u32,
    /// What was in the file, where it said so.
    pub found: Option<Found>,
}

/// Why there is no child.
#[derive(Debug)]
pub enum NoChild {
    /// The program can't be started.
    NoProgram(io::Error),
    /// It didn't greet, or otherwise than it should.
    NoGreeting(String),
    /// It took too long.
    TooSlow,
}

impl fmt::Display for NoChild {
    fn fmt(&self, f: &mut fmt::Formatter<'_>) -> fmt::Result {
        match self {
            NoChild::NoProgram(error) => write!(f, "the program can't be started: {error}"),
            NoChild::NoGreeting(line) => write!(f, "no greeting of a store: {}", line.escape_debug()),
            NoChild::TooSlow => write!(f, "the program didn't greet in time"),
        }
    }
}

/// A child that greeted.
#[derive(Debug)]
pub struct Started {
    /// What it said.
    pub greeting: Greeting,
    /// What it is asked by.
    pub input: ChildStdin,
    /// What it answers by.
    pub output: BufReader<ChildStdout>,
    child: Child,
}

impl Started {
    /// Starts a child in a process group of its own, so that an interrupt from the keyboard reaches the server alone.
    ///
    /// # Errors
    ///
    /// [`NoChild`] where it doesn't greet.
    pub async fn start(plan: &Plan) -> Result<Started, NoChild> {
        let mut command = std::process::Command::new(&plan.program);
        command.args(&plan.words).current_dir(&plan.folder).process_group(0);
        command.stdin(Stdio::piped()).stdout(Stdio::piped()).stderr(Stdio::piped());
        let mut child = Command::from(command).kill_on_drop(true).spawn().map_err(NoChild::NoProgram)?;
        let no_pipe = || NoChild::NoProgram(io::ErrorKind::BrokenPipe.into());
        let input = child.stdin.take().ok_or_else(no_pipe)?;
        let mut output = BufReader::with_capacity(65_536, child.stdout.take().ok_or_else(no_pipe)?);
        let (found, said) = oneshot::channel();
        tokio::spawn(listen(child.stderr.take().ok_or_else(no_pipe)?, found));
        let life = timeout(LONGEST_OPENING, greeted(&mut output)).await.map_err(|_| NoChild::TooSlow)??;
        let found = timeout(LONGEST_SAYING, said).await.ok().and_then(Result::ok);
        Ok(Started { greeting: Greeting { life, found }, input, output, child })
    }

    /// The number of its process.
    pub fn process(&self) -> Option<u32> {
        self.child.id()
    }

    /// Its parts: how it ends, what it is asked by, and what it answers by.
    pub fn parts(self) -> (Child, ChildStdin, BufReader<ChildStdout>) {
        (self.child, self.input, self.output)
    }
}

/// Waits for the end of a child that was asked for it, and kills it where it takes too long.
pub async fn reap(mut child: Child) {
    match timeout(LONGEST_END, child.wait()).await {
        Ok(Ok(status)) => info!(%status, "the store has ended"),
        _ => kill(child).await,
    }
}

/// Kills a child.
pub async fn kill(mut child: Child) {
    // it fails only where the child has ended
    let _ = child.kill().await;
}

/// The next line, without its LF; nothing at the end of the output, and at half a line.
///
/// # Errors
///
/// Where the output can't be read, isn't text, or a line is too long.
pub async fn next_line<'b>(output: &mut (impl AsyncBufRead + Unpin), room: &'b mut Vec<u8>) -> io::Result<Option<&'b str>> {
    room.clear();
    let count = output.take(LONGEST_ANSWER).read_until(b'\n', room).await?;
    match room.strip_suffix(b"\n") {
        Some(line) => std::str::from_utf8(line).map(Some).map_err(|_| io::ErrorKind::InvalidData.into()),
        None if count as u64 == LONGEST_ANSWER => Err(io::ErrorKind::InvalidData.into()),
        None => Ok(None),
    }
}

/// The life with which a child greets.
async fn greeted(output: &mut BufReader<ChildStdout>) -> Result<u32, NoChild> {
    let mut room = Vec::new();
    let line = next_line(output, &mut room).await.map_err(NoChild::NoProgram)?.unwrap_or("");
    life_of(line).ok_or_else(|| NoChild::NoGreeting(line.chars().take(80).collect()))
}

fn life_of(line: &str) -> Option<u32> {
    let (version, life) = line.strip_prefix("colock ")?.split_once(' ')?;
    (version == SPOKEN).then(|| number_of(life))?
}

/// Logs what a child says, and tells what it found.
async fn listen(output: impl AsyncRead + Unpin, found: oneshot::Sender<Found>) {
    let mut found = Some(found);
    let mut output = BufReader::with_capacity(4_096, output);
    let mut room = Vec::new();
    while let Ok(Some(line)) = next_line(&mut output, &mut room).await {
        info!(line, "the store says");
        if let (Some(known), true) = (found_in(line), found.is_some()) {
            // nobody waits any more where the start was given up
            let _ = found.take().map(|found| found.send(known));
        }
    }
}

/// What `colock: FILE: N events, A aborted, T ms` says.
fn found_in(line: &str) -> Option<Found> {
    let (rest, time) = line.rsplit_once(", ")?;
    time.strip_suffix(" ms")?;
    let (rest, aborted) = rest.rsplit_once(", ")?;
    let (_, events) = rest.rsplit_once(": ")?;
    let events = number_of(events.strip_suffix(" events")?)?;
    Some(Found { events, aborted: number_of(aborted.strip_suffix(" aborted")?)? })
}

#[cfg(test)]
mod tests {
    use super::{found_in, life_of, next_line, Found};

    #[test]
    fn greetings_are_of_one_version() {
        assert_eq!(["colock 5 17", "colock 4 1", "colock 5", "colock 5 x", ""].map(life_of), [Some(17), None, None, None, None]);
    }

    #[test]
    fn what_was_found_is_read() {
        assert_eq!(found_in("colock: a, b: hall.db: 5 events, 1 aborted, 7 ms"), Some(Found { events: 5, aborted: 1 }));
        for line in ["", "colock: hall.db: in use", "colock: hall.db: 5 events, 1 aborted", "5 events, 1 aborted, 7 ms"] {
            assert_eq!(found_in(line), None, "{line}");
        }
    }

    #[tokio::test]
    async fn lines_are_whole_and_not_too_long() {
        let mut room = Vec::new();
        let mut output = &b"1 ok\n2"[..];
        assert_eq!(next_line(&mut output, &mut room).await.unwrap(), Some("1 ok"));
        assert_eq!(next_line(&mut output, &mut room).await.unwrap(), None);
        let long = [b'a'; 5_000];
        assert!(next_line(&mut &long[..], &mut room).await.is_err());
        assert!(next_line(&mut &b"\xff\n"[..], &mut room).await.is_err());
    }
}

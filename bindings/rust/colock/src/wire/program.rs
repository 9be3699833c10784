//! The program `colock`: where it is, and what it does for a store that is opened.

use crate::error::Error;
use crate::failure::Failure;
use crate::wire::past::Found;
use std::env;
use std::fs::{self, File, OpenOptions};
use std::io;
use std::os::unix::fs::FileExt;
use std::os::unix::process::CommandExt;
use std::path::{Path, PathBuf};
use std::process::{self, Child, Command, ExitStatus, Stdio};
use std::sync::atomic::{AtomicU64, Ordering};
use std::thread;
use std::time::{Duration, Instant};

/// The name of the program.
const NAME: &str = "colock";

/// How long it is waited between two looks whether a command has ended.
const BETWEEN_LOOKS: Duration = Duration::from_millis(1);

/// The most bytes that are read of what a program says on standard error.
const MOST_SAID: usize = 4096;

/// The program: the one that is given, else that of the environment, else one beside the present executable, else
/// one on the path of the environment.
pub(crate) fn find(given: Option<&Path>) -> Result<PathBuf, Error> {
    if let Some(given) = given {
        return Ok(given.to_path_buf());
    }
    if let Some(named) = env::var_os("COLOCK").filter(|named| !named.is_empty()) {
        return Ok(PathBuf::from(named));
    }
    let beside = env::current_exe().ok().and_then(|executable| executable.parent().map(|folder| folder.join(NAME)));
    let folders = env::var_os("PATH").unwrap_or_default();
    let on_path = env::split_paths(&folders).map(|folder| folder.join(NAME));
    let found = beside.iter().cloned().chain(on_path).find(|program| program.is_file());
    found.ok_or_else(|| {
        let beside = beside.map(|program| program.display().to_string()).unwrap_or_default();
        Error::CannotOpen(format!("no program: no COLOCK in the environment, no {beside}, and no {NAME} on the path").into())
    })
}

/// A name that no other call gets.
fn fresh_name(what: &str) -> String {
    static COUNT: AtomicU64 = AtomicU64::new(0);
    let moment = std::time::SystemTime::UNIX_EPOCH.elapsed().unwrap_or_default().subsec_nanos();
    format!("colock-{what}-{}-{}-{moment}", process::id(), COUNT.fetch_add(1, Ordering::Relaxed))
}

/// Where files may be whose path goes over as a word, if the folder for temporary files isn't such a path.
const PLACES: [&str; 3] = ["/tmp", "/var/tmp", "/dev/shm"];

/// A file that goes away with the last who has it open.
pub(crate) fn nameless_file() -> io::Result<File> {
    let path = env::temp_dir().join(fresh_name("said"));
    let file = OpenOptions::new().read(true).append(true).create_new(true).open(&path)?;
    fs::remove_file(&path)?;
    Ok(file)
}

/// A folder that goes away where this is dropped.
#[derive(Debug)]
pub(crate) struct Room(PathBuf);

impl Room {
    pub(crate) fn new() -> io::Result<Room> {
        Room::in_folder(&env::temp_dir())
    }

    fn in_folder(folder: &Path) -> io::Result<Room> {
        let path = folder.join(fresh_name("types"));
        fs::create_dir(&path)?;
        Ok(Room(path))
    }

    /// One whose path is a word of a request; nothing where there is none.
    pub(crate) fn for_words() -> Option<Room> {
        Room::in_first_word([env::temp_dir()].into_iter().chain(PLACES.map(PathBuf::from)))
    }

    fn in_first_word(folders: impl IntoIterator<Item = PathBuf>) -> Option<Room> {
        folders.into_iter().filter(|folder| is_word(folder)).find_map(|folder| Room::in_folder(&folder).ok())
    }

    pub(crate) fn file(&self, name: &str) -> PathBuf {
        self.0.join(name)
    }
}

/// Whether a path is a word of a request.
fn is_word(path: &Path) -> bool {
    path.to_str().is_some_and(|path| path.bytes().all(|byte| byte.is_ascii_graphic()))
}

impl Drop for Room {
    fn drop(&mut self) {
        // what can't be removed stays among the temporary files
        let _ = fs::remove_dir_all(&self.0);
    }
}

/// The bytes of a file from its beginning, at most this many. The place at which it is written isn't moved.
fn beginning(file: &File, most: usize) -> Vec<u8> {
    let mut room = vec![0; most];
    let mut count = 0;
    while let Ok(more @ 1..) = file.read_at(&mut room[count..], count as u64) {
        count += more;
    }
    room.truncate(count);
    room
}

/// What a program said on standard error, without the line that says what a service found.
pub(crate) fn said_in(file: &File) -> String {
    let bytes = beginning(file, MOST_SAID);
    let text = String::from_utf8_lossy(&bytes);
    let lines: Vec<&str> = text.lines().filter(|line| found(line).is_none()).collect();
    lines.join("\n").trim().to_string()
}

/// What a service says that it found.
pub(crate) fn found_in(file: &File) -> Option<Found> {
    let bytes = beginning(file, MOST_SAID);
    String::from_utf8_lossy(&bytes).lines().find_map(found)
}

/// What a line `colock: PATH: E events, A aborted, T ms` says.
fn found(line: &str) -> Option<Found> {
    let (_, told) = line.strip_prefix("colock: ")?.rsplit_once(": ")?;
    let words: Vec<&str> = told.split(' ').collect();
    match words[..] {
        [events, "events,", aborted, "aborted,", time, "ms"] => {
            time.parse::<u64>().ok()?;
            Some(Found { events: events.parse().ok()?, aborted: aborted.parse().ok()? })
        }
        _ => None,
    }
}

/// Runs a command of the program to its end, and returns what it wrote.
pub(crate) fn output_of(program: &Path, words: &[&Path], limit: Duration) -> Result<Vec<u8>, Error> {
    let no_file = |error| Error::CannotOpen(Failure::of("no temporary file", error));
    let (wrote, said) = (nameless_file().map_err(no_file)?, nameless_file().map_err(no_file)?);
    let (output, error) = (wrote.try_clone().map_err(no_file)?, said.try_clone().map_err(no_file)?);
    let mut command = Command::new(program);
    command.args(words).stdin(Stdio::null()).stdout(output).stderr(error).process_group(0);
    let mut child = command.spawn().map_err(|error| Error::CannotOpen(Failure::of(program.display(), error)))?;
    let late = || Error::CannotOpen(format!("{}: it didn't end within {limit:?}", program.display()).into());
    let status = ended(&mut child, limit).ok_or_else(late)?;
    let length = wrote.metadata().map_err(no_file)?.len();
    let written = beginning(&wrote, usize::try_from(length).unwrap_or(0));
    if status.success() {
        return Ok(written);
    }
    let told = format!("{}{}", said_in(&said), String::from_utf8_lossy(&written).trim());
    let words = if told.is_empty() { format!("{}: {status}", program.display()) } else { told };
    Err(Error::CannotOpen(words.into()))
}

/// How a child ended. Where it doesn't end within the limit, it is killed.
fn ended(child: &mut Child, limit: Duration) -> Option<ExitStatus> {
    let start = Instant::now();
    while start.elapsed() < limit {
        match child.try_wait() {
            Ok(None) => thread::sleep(BETWEEN_LOOKS),
            Ok(Some(status)) => return Some(status),
            Err(_) => break,
        }
    }
    let _ = child.kill();
    let _ = child.wait();
    None
}

#[cfg(test)]
mod tests {
    use super::{found, is_word, nameless_file, said_in, Room};
    use crate::wire::past::Found;
    use std::env;
    use std::fs;
    use std::io::Write;
    use std::path::{Path, PathBuf};

    #[test]
    fn what_was_found_is_read() {
        assert_eq!(found("colock: a: b.db: 12 events, 3 aborted, 4 ms"), Some(Found { events: 12, aborted: 3 }));
        for other in ["colock: a.db: in use", "colock: a.db: 1 events, 2 aborted, 3 s", "a.db: 12 events, 3 aborted, 4 ms", ""] {
            assert_eq!(found(other), None, "{other}");
        }
    }

    #[test]
    fn paths_are_words() {
        assert!(is_word(Path::new("/tmp/~a-b")) && ["/tmp/a b", "/tmp/\u{e4}", "/tmp/a\n"].iter().all(|path| !is_word(Path::new(path))));
        let outer = Room::new().unwrap();
        let spaced = outer.file("a b");
        fs::create_dir(&spaced).unwrap();
        let made = Room::in_first_word([spaced.clone(), PathBuf::from("/nothing/is/there"), env::temp_dir()]).unwrap();
        assert!(made.file("x").starts_with(env::temp_dir()) && !made.file("x").starts_with(&spaced));
        assert!(Room::in_first_word([spaced]).is_none());
    }

    #[test]
    fn what_was_found_is_no_fault() {
        let mut file = nameless_file().unwrap();
        file.write_all(b"colock: a.db: 12 events, 3 aborted, 4 ms\ncolock: old: file exists\n").unwrap();
        assert_eq!(said_in(&file), "colock: old: file exists");
    }
}

//! The files of stores that were dropped, whose children are about to end: who opens one waits until it is free.

use crate::fork::with_ending;
use std::fs;
use std::os::unix::fs::MetadataExt;
use std::path::Path;
use std::thread;
use std::time::{Duration, Instant};

/// How long it is waited between two looks whether a file is free.
const BETWEEN_LOOKS: Duration = Duration::from_millis(1);

/// A file, by whatever path.
#[derive(Clone, Copy, Debug, PartialEq, Eq)]
pub(crate) struct FileId {
    device: u64,
    number: u64,
}

impl FileId {
    /// The file at a path, where one is there.
    pub(crate) fn of(path: &Path) -> Option<FileId> {
        let found = fs::metadata(path).ok()?;
        Some(FileId { device: found.dev(), number: found.ino() })
    }

    fn is_ending(self) -> bool {
        with_ending(|files| files.contains(&self))
    }
}

/// A file counts as one of a child that is about to end until this is dropped.
#[derive(Debug)]
pub(crate) struct Ending(FileId);

impl Ending {
    pub(crate) fn of(file: FileId) -> Ending {
        with_ending(|files| files.push(file));
        Ending(file)
    }
}

impl Drop for Ending {
    fn drop(&mut self) {
        // each has one of its own
        with_ending(|files| files.iter().position(|file| *file == self.0).map(|place| files.swap_remove(place)));
    }
}

/// Waits until no child of this process is about to end that has the file at a path, at most this long.
pub(crate) fn wait_for_end(path: &Path, limit: Duration) {
    let Some(file) = FileId::of(path) else { return };
    let start = Instant::now();
    while file.is_ending() && start.elapsed() < limit {
        thread::sleep(BETWEEN_LOOKS);
    }
}

#[cfg(test)]
mod tests {
    use super::{wait_for_end, Ending, FileId};
    use std::path::Path;
    use std::time::{Duration, Instant};

    #[test]
    fn a_file_is_waited_for_until_it_is_free() {
        let (path, limit) = (std::env::current_exe().unwrap(), Duration::from_millis(200));
        let file = FileId::of(&path).unwrap();
        let waits = || {
            let start = Instant::now();
            wait_for_end(&path, limit);
            start.elapsed() >= limit
        };
        assert!(!waits());
        let (one, other) = (Ending::of(file), Ending::of(file));
        drop(one);
        assert!(waits());
        drop(other);
        assert!(!waits());
        assert_eq!(FileId::of(Path::new("/nothing is there")), None);
    }
}

//! The histories of epochs that have ended, of which the newest are kept.

use crate::data_folder::{write_whole, ARCHIVE};
use crate::names::number_of;
use std::fs;
use std::io::{self, ErrorKind};
use std::path::{Path, PathBuf};
use std::sync::atomic::{AtomicU32, Ordering};

/// The archive of a store.
#[derive(Debug)]
pub struct Archive {
    folder: PathBuf,
    kept: usize,
    /// The last life whose history was removed.
    gone: AtomicU32,
    /// The life in which it was looked last.
    looked: AtomicU32,
}

impl Archive {
    /// That of a data folder, of which so many histories are kept.
    ///
    /// # Errors
    ///
    /// Where it can't be read.
    pub fn read(data: &Path, kept: usize) -> io::Result<Archive> {
        let folder = data.join(ARCHIVE);
        let gone = match fs::read_to_string(folder.join("gone")) {
            Ok(text) => number_of(text.trim()).unwrap_or(0),
            Err(error) if error.kind() == ErrorKind::NotFound => 0,
            Err(error) => return Err(error),
        };
        Ok(Archive { folder, kept, gone: AtomicU32::new(gone), looked: AtomicU32::new(0) })
    }

    /// The last life of which nothing is kept.
    pub fn gone(&self) -> u32 {
        self.gone.load(Ordering::Relaxed)
    }

    /// The histories, by the lives in which their epochs ended, the oldest first.
    ///
    /// # Errors
    ///
    /// Where the folder can't be read.
    pub fn histories(&self) -> io::Result<Vec<(u32, PathBuf)>> {
        let mut all = Vec::new();
        for entry in fs::read_dir(&self.folder)? {
            let path = entry?.path();
            let name = path.file_name().and_then(|name| name.to_str()).and_then(|name| name.strip_suffix(".history"));
            if let Some(life) = name.and_then(|name| name.rsplit_once('-')).and_then(|(_, life)| number_of(life)) {
                all.push((life, path));
            }
        }
        all.sort_unstable();
        Ok(all)
    }

    /// Removes the oldest histories beyond those that are kept, where another life has begun.
    ///
    /// # Errors
    ///
    /// Where one can't be removed.
    pub fn prune(&self, life: u32) -> io::Result<()> {
        if self.looked.swap(life, Ordering::Relaxed) == life {
            return Ok(());
        }
        let all = self.histories()?;
        for (life, path) in all.iter().take(all.len().saturating_sub(self.kept)) {
            write_whole(&self.folder.join("gone"), life.to_string().as_bytes())?;
            self.gone.store(*life, Ordering::Relaxed);
            fs::remove_file(path)?;
        }
        Ok(())
    }
}

#[cfg(test)]
mod tests {
    use super::Archive;
    use std::fs;

    #[test]
    fn the_newest_histories_are_kept() {
        let data = std::env::temp_dir().join(format!("colockd-archive-{}", std::process::id()));
        fs::create_dir_all(data.join("archive")).unwrap();
        for name in ["ab-10.history", "ab-9.history", "ab-11.part", "else"] {
            fs::write(data.join("archive").join(name), "").unwrap();
        }
        let archive = Archive::read(&data, 1).unwrap();
        let lives = || archive.histories().unwrap().into_iter().map(|(life, _)| life).collect::<Vec<_>>();
        assert_eq!((lives(), archive.gone()), (vec![9, 10], 0));
        archive.prune(11).unwrap();
        assert_eq!((lives(), archive.gone()), (vec![10], 9));
        assert_eq!(Archive::read(&data, 1).unwrap().gone(), 9);
        fs::remove_dir_all(data).unwrap();
    }
}

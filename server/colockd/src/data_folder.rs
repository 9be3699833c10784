//! The folder of a server: the file of its store, the texts of its types, its archive, and a lock.

use fs2::FileExt;
use std::fmt;
use std::fs::{self, File, OpenOptions};
use std::io::{self, Write};
use std::path::{Path, PathBuf};

/// The file of the store, in the folder.
pub const DATABASE: &str = "store.db";

/// The folder of types.
pub const TYPES: &str = "types";

/// The folder of the histories of epochs that have ended.
pub const ARCHIVE: &str = "archive";

/// The folder of files that are there for a moment.
pub const ROOM: &str = "room";

/// Why a folder can't be had.
#[derive(Debug)]
pub enum NoFolder {
    /// Another server has it.
    InUse(PathBuf),
    /// Something failed at a path.
    Failed(PathBuf, io::Error),
}

impl fmt::Display for NoFolder {
    fn fmt(&self, f: &mut fmt::Formatter<'_>) -> fmt::Result {
        match self {
            NoFolder::InUse(path) => write!(f, "{}: another server has it", path.display()),
            NoFolder::Failed(path, error) => write!(f, "{}: {error}", path.display()),
        }
    }
}

/// A folder that this server alone has.
#[derive(Debug)]
pub struct DataFolder {
    path: PathBuf,
    _lock: File,
}

impl DataFolder {
    /// Takes a folder, which is made where it isn't there.
    ///
    /// # Errors
    ///
    /// [`NoFolder`] where it can't be had.
    pub fn take(path: &Path) -> Result<DataFolder, NoFolder> {
        let failed = |path: &Path| {
            let path = path.to_path_buf();
            move |error| NoFolder::Failed(path, error)
        };
        for name in [TYPES, ARCHIVE, ROOM] {
            let folder = path.join(name);
            fs::create_dir_all(&folder).map_err(failed(&folder))?;
        }
        let path = fs::canonicalize(path).map_err(failed(path))?;
        let lock = path.join("lock");
        let file = OpenOptions::new().create(true).truncate(false).write(true).open(&lock).map_err(failed(&lock))?;
        file.try_lock_exclusive().map_err(|_| NoFolder::InUse(path.clone()))?;
        let folder = DataFolder { path, _lock: file };
        folder.clear_room().map_err(failed(&folder.path.join(ROOM)))?;
        Ok(folder)
    }

    /// Its path.
    pub fn path(&self) -> &Path {
        &self.path
    }

    /// Whether the file of the store is there.
    pub fn has_store(&self) -> bool {
        self.path.join(DATABASE).exists()
    }

    /// Files that were left there by a server that was killed.
    fn clear_room(&self) -> io::Result<()> {
        for entry in fs::read_dir(self.path.join(ROOM))? {
            fs::remove_file(entry?.path())?;
        }
        Ok(())
    }
}

/// Writes a file that is there whole or not at all, also after a crash.
///
/// # Errors
///
/// Where that fails.
pub fn write_whole(path: &Path, bytes: &[u8]) -> io::Result<()> {
    let new = path.with_extension("new");
    let mut file = File::create(&new)?;
    file.write_all(bytes)?;
    file.sync_all()?;
    fs::rename(&new, path)?;
    path.parent().map_or(Ok(()), |folder| File::open(folder)?.sync_all())
}

#[cfg(test)]
mod tests {
    use super::{write_whole, DataFolder, NoFolder};
    use std::fs;

    #[test]
    fn a_folder_is_one_servers() {
        let path = std::env::temp_dir().join(format!("colockd-folder-{}", std::process::id()));
        let folder = DataFolder::take(&path).unwrap();
        fs::write(path.join("room/left"), "").unwrap();
        assert!(!folder.has_store());
        assert!(matches!(DataFolder::take(&path), Err(NoFolder::InUse(_))));
        drop(folder);
        let folder = DataFolder::take(&path).unwrap();
        assert!(!path.join("room/left").exists());
        write_whole(&path.join("types/a.type"), b"text").unwrap();
        assert_eq!(fs::read(path.join("types/a.type")).unwrap(), b"text");
        drop(folder);
        fs::remove_dir_all(path).unwrap();
    }
}

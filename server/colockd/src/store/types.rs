//! The types that objects may have, by name, with what the checker said of them. Each is a file of the data folder.

use crate::data_folder::{write_whole, ROOM, TYPES};
use crate::limits::{LARGEST_TYPES, MOST_TYPES};
use crate::locks::locked;
use crate::names::is_name;
use crate::problem::{Problem, ProblemKind};
use crate::program::{Program, Verdict};
use crate::store::recovery::Recovery;
use crate::store::type_text::{Form, TypeText};
use std::collections::{BTreeMap, HashMap};
use std::fs;
use std::io;
use std::path::{Path, PathBuf};
use std::sync::atomic::{AtomicU64, Ordering};
use std::sync::{Arc, Mutex};

/// Whether a type was there before.
#[derive(Clone, Copy, Debug, PartialEq, Eq)]
pub enum Put {
    /// It is new.
    New,
    /// It was there.
    Same,
}

/// All types.
#[derive(Debug)]
pub struct Types {
    folder: PathBuf,
    program: Arc<Program>,
    by_name: Mutex<BTreeMap<String, Arc<TypeText>>>,
    verdicts: Mutex<HashMap<(String, Recovery), Verdict>>,
    drafts: AtomicU64,
}

impl Types {
    /// Those of a data folder.
    ///
    /// # Errors
    ///
    /// Where it can't be read.
    pub fn read(folder: &Path, program: Arc<Program>) -> io::Result<Types> {
        let mut by_name = BTreeMap::new();
        for entry in fs::read_dir(folder.join(TYPES))? {
            let path = entry?.path();
            let name = path.file_name().and_then(|name| name.to_str()).and_then(|name| name.strip_suffix(".type"));
            if let Some(name) = name.filter(|name| is_name(name)) {
                by_name.insert(name.to_string(), Arc::new(TypeText::read(&fs::read_to_string(&path)?)));
            }
        }
        Ok(Types { folder: folder.to_path_buf(), program, by_name: Mutex::new(by_name), verdicts: Mutex::default(), drafts: AtomicU64::new(0) })
    }

    /// The type of a name.
    pub fn named(&self, name: &str) -> Option<Arc<TypeText>> {
        locked(&self.by_name).get(name).cloned()
    }

    /// All types, in the order of their names.
    pub fn all(&self) -> Vec<Arc<TypeText>> {
        locked(&self.by_name).values().cloned().collect()
    }

    /// The file of a type, from the data folder on.
    pub fn file(name: &str) -> String {
        format!("{TYPES}/{name}.type")
    }

    /// The types of a store that come from elsewhere get files too.
    ///
    /// # Errors
    ///
    /// Where one can't be written.
    pub fn adopt(&self, of_store: &[Arc<TypeText>]) -> io::Result<()> {
        for of in of_store.iter().filter(|of| is_name(of.name())) {
            if self.named(of.name()).is_none() {
                self.keep(of)?;
            }
        }
        Ok(())
    }

    fn keep(&self, of: &Arc<TypeText>) -> io::Result<()> {
        write_whole(&self.folder.join(Types::file(of.name())), of.text().as_bytes())?;
        locked(&self.by_name).insert(of.name().to_string(), Arc::clone(of));
        Ok(())
    }

    /// Takes the text of a type under a name, which takes the place of that in the text, where it may be used for some kinds of
    /// recovery.
    ///
    /// # Errors
    ///
    /// A [`Problem`] where it isn't taken.
    pub async fn put(&self, name: &str, text: &[u8], kinds: &[Recovery]) -> Result<Put, Problem> {
        if !is_name(name) {
            return Err(Problem::new(ProblemKind::BadName, format!("{name:?} isn't the name of a type: 1 to 32 of a-z 0-9 _ : -")));
        }
        self.is_read(text).await?;
        let of = Arc::new(TypeText::read(&String::from_utf8_lossy(text)).named(name));
        if let Some(other) = self.named(name) {
            if *other != *of {
                return Err(Problem::new(ProblemKind::NameTaken, format!("another type has the name {name}")));
            }
        }
        for kind in kinds {
            let draft = self.draft(of.text().as_bytes())?;
            let verdict = self.program.check(*kind, &draft.file).await.map_err(|fault| Problem::new(ProblemKind::Internal, fault))?;
            accepted(name, *kind, &verdict)?;
            locked(&self.verdicts).insert((name.to_string(), *kind), verdict);
        }
        self.keep_new(&of)
    }

    fn keep_new(&self, of: &Arc<TypeText>) -> Result<Put, Problem> {
        match self.named(of.name()) {
            Some(other) if *other == **of => Ok(Put::Same),
            Some(_) => Err(Problem::new(ProblemKind::NameTaken, format!("another type has the name {}", of.name()))),
            None if self.are_full(of) => {
                let words = format!("there are {MOST_TYPES} types at most, with {LARGEST_TYPES} bytes in all");
                Err(Problem::new(ProblemKind::StoreFull, words))
            }
            None => self.keep(of).map(|()| Put::New).map_err(|error| Problem::new(ProblemKind::Internal, error)),
        }
    }

    /// Whether there is no room for another type.
    fn are_full(&self, new: &TypeText) -> bool {
        let by_name = locked(&self.by_name);
        let bytes: usize = by_name.values().map(|of| of.text().len()).sum();
        by_name.len() >= MOST_TYPES || bytes + new.text().len() > LARGEST_TYPES
    }

    /// Whether a text can be read.
    async fn is_read(&self, text: &[u8]) -> Result<(), Problem> {
        let kind = if *TypeText::read(&String::from_utf8_lossy(text)).form() == Form::Table { Recovery::Undo } else { Recovery::Escrow };
        let draft = self.draft(text)?;
        match self.program.check(kind, &draft.file).await.map_err(|fault| Problem::new(ProblemKind::Internal, fault))? {
            Verdict::Fault(line, fault) => {
                let words = format!("line {line}: {fault}");
                Err(Problem::new(ProblemKind::TypeFault, words).with("line", line).with("fault", fault))
            }
            Verdict::Yes(_) | Verdict::No(..) | Verdict::NeedsEscrow => Ok(()),
        }
    }

    fn draft(&self, text: &[u8]) -> Result<Draft, Problem> {
        let number = self.drafts.fetch_add(1, Ordering::Relaxed);
        let file = format!("{ROOM}/draft-{number}.type");
        let path = self.folder.join(&file);
        fs::write(&path, text).map_err(|error| Problem::new(ProblemKind::Internal, error))?;
        Ok(Draft { file, path })
    }

    /// What the checker says of a type for a kind.
    ///
    /// # Errors
    ///
    /// A [`Problem`] where there is no such type, or the checker gives no answer.
    pub async fn verdict(&self, name: &str, kind: Recovery) -> Result<Verdict, Problem> {
        let key = (name.to_string(), kind);
        if let Some(verdict) = locked(&self.verdicts).get(&key) {
            return Ok(verdict.clone());
        }
        if self.named(name).is_none() {
            return Err(Problem::new(ProblemKind::NoType, format!("there is no type {name}")).with("object_type", name));
        }
        let checked = self.program.check(kind, &Types::file(name)).await;
        let verdict = checked.map_err(|fault| Problem::new(ProblemKind::Internal, fault))?;
        locked(&self.verdicts).insert(key, verdict.clone());
        Ok(verdict)
    }
}

/// A file that is there until this is dropped.
struct Draft {
    file: String,
    path: PathBuf,
}

impl Drop for Draft {
    fn drop(&mut self) {
        // what is left is removed at the next start
        let _ = fs::remove_file(&self.path);
    }
}

/// A no is a problem.
///
/// # Errors
///
/// A [`Problem`] where the verdict is another one than yes.
pub fn accepted(name: &str, kind: Recovery, verdict: &Verdict) -> Result<(), Problem> {
    let refused = |words: String| Problem::new(ProblemKind::TypeRefused, words).with("recovery", kind.word());
    match verdict {
        Verdict::Yes(_) => Ok(()),
        Verdict::No(why, mends) => Err(refused(format!("{name} for {kind}: {why}")).with("check", why.as_str()).with("mend", mends.clone())),
        Verdict::NeedsEscrow => Err(refused(format!("{name} is a number, which is for escrow alone")).with("check", "no NeedsEscrow")),
        Verdict::Fault(line, fault) => Err(Problem::new(ProblemKind::TypeFault, format!("line {line}: {fault}")).with("line", *line)),
    }
}

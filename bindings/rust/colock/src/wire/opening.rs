use crate::error::Error;
use crate::failure::Failure;
use crate::object::NewObject;
use crate::objects::{Known, Objects, MOST_OBJECTS};
use crate::operation_id::OperationId;
use crate::shared::SharedStore;
use crate::types::bounds::Bounds;
use crate::types::{Kind, Type};
use crate::wire::child::{listed, Conversation, Link};
use crate::wire::creating;
use crate::wire::ending::{wait_for_end, FileId};
use crate::wire::extending::Extending;
use crate::wire::identity::store_id;
use crate::wire::past::{Archive, Past};
use crate::wire::program;
use crate::wire::remote::{Remote, RemoteState};
use crate::wire::request::Request;
use crate::wire::slot::Slot;
use std::fs;
use std::io;
use std::path::{Path, PathBuf};
use std::process::Command;
use std::sync::Arc;
use std::time::Duration;

/// The version of what is spoken with a child.
const VERSION: &str = "5";

/// How a store in a file is opened. A child process serves it, the program `colock serve`, in a process group of its
/// own.
///
/// The program is the one that is given, else the one that `COLOCK` names in the environment, else a file `colock`
/// in the folder of the present executable, else the `colock` on the path.
///
/// ```no_run
/// use colock::{Kind, OpenOptions, Type};
///
/// let seats = Type::set(&["a1", "a2", "b1"], Kind::Undo)?;
/// let path = std::env::temp_dir().join("seats.db");
/// let store = OpenOptions::new().objects([("stalls", &seats)]).create(true).open(path)?;
/// let mut transaction = store.begin()?;
/// transaction.expect("stalls", "insert:a1", "ok")?;
/// transaction.commit()?; // it is durable
/// store.close()?;
/// # Ok::<(), colock::Error>(())
/// ```
///
/// With all that can be said:
///
/// ```no_run
/// use colock::OpenOptions;
/// use std::time::Duration;
///
/// let options = OpenOptions::new().archive("old").fast(true).drain(1).outcomes(10_000);
/// let store = options.program("/usr/bin/colock").limit(Duration::from_secs(10)).open("seats.db")?;
/// # Ok::<(), colock::Error>(())
/// ```
#[derive(Clone, Debug)]
pub struct OpenOptions<'t> {
    objects: Vec<NewObject<'t>>,
    creates: bool,
    archive: Option<PathBuf>,
    is_fast: bool,
    drain: Option<u32>,
    outcomes: Option<u32>,
    program: Option<PathBuf>,
    limit: Duration,
}

impl Default for OpenOptions<'_> {
    fn default() -> Self {
        OpenOptions::new()
    }
}

impl<'t> OpenOptions<'t> {
    /// A file that has to be there, with any objects; a limit of 60 seconds.
    pub fn new() -> OpenOptions<'t> {
        let limit = Duration::from_secs(60);
        OpenOptions { objects: Vec::new(), creates: false, archive: None, is_fast: false, drain: None, outcomes: None, program: None, limit }
    }

    /// The objects, by their types, or by names and types: those of a new file, and those that a file has to have, with these
    /// names. Where none are given, a file may have any.
    pub fn objects(mut self, objects: impl IntoIterator<Item = impl Into<NewObject<'t>>>) -> OpenOptions<'t> {
        self.objects = objects.into_iter().map(Into::into).collect();
        self
    }

    /// Whether the file is made where nothing is at its path.
    pub fn create(mut self, creates: bool) -> OpenOptions<'t> {
        self.creates = creates;
        self
    }

    /// The folder that keeps the history of each epoch that ends. It has to be there. Several stores may share it.
    pub fn archive(mut self, folder: impl Into<PathBuf>) -> OpenOptions<'t> {
        self.archive = Some(folder.into());
        self
    }

    /// Whether it is supposed that a write which is torn where the machine stops leaves each byte old or new: then a
    /// commit syncs once, and else twice.
    pub fn fast(mut self, is_fast: bool) -> OpenOptions<'t> {
        self.is_fast = is_fast;
        self
    }

    /// How many seconds what is open may go on where an epoch has to end and a yes of the checker is one-way; 5 where it isn't said. Where
    /// each yes is strong, all that is open goes on in the next epoch.
    pub fn drain(mut self, seconds: u32) -> OpenOptions<'t> {
        self.drain = Some(seconds);
        self
    }

    /// How many of the last outcomes of keys stay at least, as long as this client has the file; 1,000,000 where it isn't said. Where an
    /// epoch ends older ones go: their keys are [unknown](crate::KeyOutcome::Unknown) then, and free. What is prepared stays.
    pub fn outcomes(mut self, least: u32) -> OpenOptions<'t> {
        self.outcomes = Some(least);
        self
    }

    /// The program.
    pub fn program(mut self, program: impl Into<PathBuf>) -> OpenOptions<'t> {
        self.program = Some(program.into());
        self
    }

    /// How long an answer may take before the child is lost. What a transaction waits for another one isn't part of
    /// it.
    pub fn limit(mut self, limit: Duration) -> OpenOptions<'t> {
        self.limit = limit;
        self
    }

    /// Opens the store at a path. What was open in it is aborted, unless it is [prepared](crate::SharedTransaction::prepare).
    ///
    /// ```no_run
    /// use colock::{Error, Kind, OpenOptions, Type};
    ///
    /// let counter = Type::counter(5, &[1], Kind::Undo)?;
    /// let account = Type::account(5, &[1], Kind::Undo)?;
    /// let path = std::env::temp_dir().join("counter.db");
    /// OpenOptions::new().objects([&counter]).create(true).open(&path)?.close()?;
    /// let other = OpenOptions::new().objects([&account]).open(&path);
    /// assert_eq!(other.err(), Some(Error::OtherObjects));
    /// # Ok::<(), Error>(())
    /// ```
    ///
    /// # Errors
    ///
    /// [`Error::CannotOpen`], as of a file that isn't there, of another process that has it, of a program that
    /// isn't found or doesn't answer within the limit; [`Error::OtherObjects`]; [`Error::NoObjects`] where a file is
    /// to be made of none; [`Error::BadName`], [`Error::NameTaken`], [`Error::TooManyObjects`]; and what [`Type::read`] says of a
    /// type of the file.
    pub fn open(self, path: impl AsRef<Path>) -> Result<SharedStore, Error> {
        let given = Objects::none().checked(self.objects.iter().cloned())?;
        if given.len() > MOST_OBJECTS {
            return Err(Error::TooManyObjects);
        }
        let path = whole(path.as_ref())?;
        wait_for_end(&path, self.limit);
        let archive = self.archive.as_deref().map(whole).transpose()?;
        let program = program::find(self.program.as_deref())?;
        let is_missing = || matches!(fs::symlink_metadata(&path), Err(error) if error.kind() == io::ErrorKind::NotFound);
        if self.creates && is_missing() {
            creating::create(&program, &path, &given, self.limit)?;
        }
        let (link, greeting) = Link::start(self.command(&program, archive.as_deref(), &path), self.limit).map_err(Error::CannotOpen)?;
        let opened = greeted(&link, &greeting, &path, archive, &given, program);
        opened.map_err(|error| {
            link.lose("it wasn't opened");
            as_not_opened(error)
        })
    }

    /// What starts the child: the program, by these paths.
    fn command(&self, program: &Path, archive: Option<&Path>, path: &Path) -> Command {
        let mut command = Command::new(program);
        command.arg("serve").args(self.is_fast.then_some("--fast"));
        if let Some(folder) = archive {
            command.arg("--archive").arg(folder);
        }
        for (word, number) in [("--drain", self.drain), ("--outcomes", self.outcomes)] {
            if let Some(number) = number {
                command.arg(word).arg(number.to_string());
            }
        }
        command.arg(path);
        command
    }
}

/// The store of a child that was started, when it has greeted and listed its objects.
fn greeted(link: &Arc<Link>, greeting: &Slot, path: &Path, folder: Option<PathBuf>, given: &[Known], program: PathBuf) -> Result<SharedStore, Error> {
    let life = life_of(&link.answered(greeting)?)?;
    let archive = folder.map(|folder| store_id(path).map(|store| Archive { folder, store })).transpose()?;
    let mut conversation = Conversation::new(Arc::clone(link));
    let lines = conversation.ask(Request::Objects)?;
    let listed_objects = objects_of(listed(link, &lines)?, link)?;
    let texts = texts_of(listed(link, &conversation.ask(Request::Types)?)?);
    let made = Made::of(&listed_objects, &texts).map_err(|wrong| wrong.unwrap_or_else(|| link.broken("objects without types")))?;
    let found = listed_objects.iter().filter_map(|object| Some((object.name, made.of_object(object)?)));
    let found = Objects::none().checked(found).map_err(|wrong| link.broken(&wrong.to_string()))?;
    if !given.is_empty() && !are_same(given, &found) {
        return Err(Error::OtherObjects);
    }
    let past = Past { greeted: life, found: link.found(), archive };
    let remote = Remote::new(Arc::clone(link), past, FileId::of(path), Extending::by(program));
    Ok(SharedStore::of_remote(RemoteState::new(conversation, life), found, life, remote))
}

/// A path that doesn't begin with a hyphen, and means the same whatever the working folder becomes.
fn whole(path: &Path) -> Result<PathBuf, Error> {
    std::path::absolute(path).map_err(|error| Error::CannotOpen(Failure::of(path.display(), error)))
}

/// A child that was lost before the store was open.
fn as_not_opened(error: Error) -> Error {
    match error {
        Error::ConnectionLost(words) => Error::CannotOpen(words.into()),
        other => other,
    }
}

/// The life with which a child greets.
fn life_of(greeting: &str) -> Result<u64, Error> {
    let words: Vec<&str> = greeting.split(' ').collect();
    let told = match words[..] {
        ["colock", VERSION, life] => return life.parse().map_err(|_| Error::CannotOpen(format!("no greeting: {greeting}").into())),
        ["colock", version, ..] => format!("the program speaks version {version}, and this client version {VERSION}"),
        _ => format!("no greeting: {greeting}"),
    };
    Err(Error::CannotOpen(told.into()))
}

/// Of which kind an object is, and the place of its type.
type KindAndPlace = (Kind, usize);

/// An object as a child lists it.
#[derive(Clone, Copy, Debug, PartialEq, Eq)]
struct ObjectLine<'l> {
    of: KindAndPlace,
    name: Option<&'l str>,
}

fn objects_of<'l>(lines: &'l str, link: &Link) -> Result<Vec<ObjectLine<'l>>, Error> {
    lines.lines().map(|line| object_of(line).ok_or_else(|| link.broken(line))).collect()
}

fn object_of(line: &str) -> Option<ObjectLine<'_>> {
    let (kind, rest) = line.strip_prefix("object ")?.split_once(' ')?;
    let (place, name) = rest.split_once(' ').map_or((rest, None), |(place, name)| (place, Some(name)));
    Some(ObjectLine { of: (Kind::of_word(kind)?, place.parse().ok()?), name })
}

/// The texts of types, each of which ends in an empty line.
fn texts_of(lines: &str) -> Vec<String> {
    let mut texts = Vec::new();
    let mut text = String::new();
    for line in lines.lines() {
        if line.is_empty() {
            texts.push(std::mem::take(&mut text));
        } else {
            text.push_str(line);
            text.push('\n');
        }
    }
    texts
}

/// The types of objects, one for each kind and text.
struct Made(Vec<(KindAndPlace, Type)>);

impl Made {
    /// Makes them. No error is given where a text is missing.
    fn of(objects: &[ObjectLine<'_>], texts: &[String]) -> Result<Made, Option<Error>> {
        let mut made = Made(Vec::new());
        for object in objects {
            if made.of_object(object).is_none() {
                let (kind, place) = object.of;
                let text = texts.get(place).ok_or(None::<Error>)?;
                made.0.push((object.of, Type::read(text, kind).map_err(Some)?));
            }
        }
        Ok(made)
    }

    fn of_object(&self, object: &ObjectLine<'_>) -> Option<&Type> {
        self.0.iter().find(|(of, _)| *of == object.of).map(|(_, made)| made)
    }
}

/// Whether objects have the same names and types.
fn are_same(given: &[Known], found: &[Known]) -> bool {
    let mut compared: Vec<(&Type, &Type)> = Vec::new();
    for (one, other) in given.iter().map(Known::of).zip(found.iter().map(Known::of)) {
        if compared.iter().any(|known| known.0.is(one) && known.1.is(other)) {
            continue;
        }
        if !one.is_same(other) {
            return false;
        }
        compared.push((one, other));
    }
    given.iter().map(Known::name).eq(found.iter().map(Known::name))
}

impl Type {
    /// Whether it has the kind, the name, the states, the operations, the steps and the conflicts of another one.
    fn is_same(&self, other: &Type) -> bool {
        let shape = |of: &Type| (of.kind(), of.name(), of.states(), of.initial(), of.operations());
        let operations = self.operations();
        let name = |of: &Type, k| (of.call_name(k), of.reply_name(k));
        let mut pairs = (0..operations).flat_map(|requested| (0..operations).map(move |held| (requested, held)));
        shape(self) == shape(other)
            && (0..operations).all(|k| name(self, k) == name(other, k) && self.has_steps_of(other, OperationId::listed(k)))
            && pairs.all(|(requested, held)| self.conflicts(requested, held) == other.conflicts(requested, held))
    }

    /// Whether an operation has the steps that it has in another type of as many states. Of a number its bounds say so; and
    /// where it has an amount its names do.
    fn has_steps_of(&self, other: &Type, operation: OperationId) -> bool {
        match self.kind() {
            Kind::Escrow => Bounds::of(self, operation) == Bounds::of(other, operation),
            Kind::Undo | Kind::Intentions => (0..self.states()).all(|state| self.step(state, operation) == other.step(state, operation)),
        }
    }
}

#[cfg(test)]
mod tests {
    use super::{life_of, object_of, texts_of, ObjectLine};
    use crate::object::NewObject;
    use crate::objects::Objects;
    use crate::{Error, Kind, OpenOptions, Type};
    use std::path::Path;

    fn are_same<'t>(given: impl IntoIterator<Item = impl Into<NewObject<'t>>>, found: impl IntoIterator<Item = impl Into<NewObject<'t>>>) -> bool {
        super::are_same(&Objects::none().checked(given).unwrap(), &Objects::none().checked(found).unwrap())
    }

    /// What the program is given where a store is opened.
    fn words_of(options: &OpenOptions<'_>, archive: Option<&str>) -> Vec<String> {
        let command = options.command(Path::new("/bin/colock"), archive.map(Path::new), Path::new("/a.db"));
        assert_eq!(command.get_program(), "/bin/colock");
        command.get_args().map(|word| word.to_str().unwrap().to_string()).collect()
    }

    #[test]
    fn options_are_handed_over() {
        assert_eq!(words_of(&OpenOptions::new(), None), ["serve", "/a.db"]);
        let (fast, slow) = (OpenOptions::new().fast(true).drain(0).outcomes(0), OpenOptions::new().fast(false).outcomes(u32::MAX));
        assert_eq!(words_of(&fast, Some("/old")), ["serve", "--fast", "--archive", "/old", "--drain", "0", "--outcomes", "0", "/a.db"]);
        assert_eq!(words_of(&slow, None), ["serve", "--outcomes", "4294967295", "/a.db"]);
    }

    #[test]
    fn greetings_are_read() {
        assert_eq!(life_of("colock 5 12"), Ok(12));
        for other in ["1", "2", "3", "4", "30"] {
            let told = format!("the program speaks version {other}, and this client version 5");
            assert_eq!(life_of(&format!("colock {other} 12")), Err(Error::CannotOpen(told.into())));
        }
        for wrong in ["colock 5 x", "hello", "colock", "", "colock 5 1 1"] {
            assert!(matches!(life_of(wrong), Err(Error::CannotOpen(_))), "{wrong}");
        }
    }

    #[test]
    fn objects_and_texts_are_read() {
        for (line, kind, place, name) in [
            ("object undo 0", Kind::Undo, 0, None),
            ("object intentions 12", Kind::Intentions, 12, None),
            ("object escrow 65535 stalls:A12", Kind::Escrow, 65_535, Some("stalls:A12")),
        ] {
            assert_eq!(object_of(line), Some(ObjectLine { of: (kind, place), name }));
        }
        assert_eq!((object_of("object redo 0"), object_of("object undo"), object_of("undo 0")), (None, None, None));
        assert_eq!(texts_of("type a\nend\n\ntype b\nend\n\n"), ["type a\nend\n", "type b\nend\n"]);
    }

    #[test]
    fn types_are_compared() {
        let make = |cap, kind| Type::counter(cap, &[1], kind).unwrap();
        let (five, again, six, deferred) = (make(5, Kind::Undo), make(5, Kind::Undo), make(6, Kind::Undo), make(5, Kind::Intentions));
        let (escrow, another) = (make(5, Kind::Escrow), make(5, Kind::Escrow));
        assert!(are_same([("a", &five), ("b", &five)], [("a", &again), ("b", &again)]));
        assert!(!are_same([("a", &five)], [("b", &again)]) && !are_same([("a", &five)], [&again]) && !are_same([&five], [("a", &again)]));
        assert!(are_same([&five, &five], [&again, &again]));
        assert!(!are_same([&five], [&again, &again]));
        assert!(!are_same([&five, &five], [&again, &six]));
        assert!(!are_same([&five], [&deferred]) && !are_same([&deferred], [&escrow]));
        assert!(are_same([&escrow], [&another]) && !are_same([&escrow], [&make(6, Kind::Escrow)]));
        let large = |take: u32| Type::read(format!("number large\nmax 4294967295\ninitial 7\ntake {take}\nend\n"), Kind::Escrow).unwrap();
        assert!(are_same([&large(5)], [&large(5)]) && !are_same([&large(5)], [&large(6)]));
        let any = |lines: &str| Type::read(format!("number purse\nmax 100\ninitial 7\n{lines}\nend\n"), Kind::Escrow).unwrap();
        assert!(are_same([&any("take any\nvalue")], [&any("take any\nvalue")]) && !are_same([&any("take any")], [&any("give any")]));
        assert!(!are_same([&any("take 5\ntake any")], [&any("take 6\ntake any")]) && !are_same([&any("value")], [&any("take any")]));
        let moved = |step: &str| Type::read(format!("type c\nstates 3\ninitial 0\nop a b\nstep {step}\nend\n"), Kind::Escrow).unwrap();
        assert!(are_same([&moved("0 0 1")], [&moved("0 0 1")]) && !are_same([&moved("0 0 1")], [&moved("1 0 2")]));
        let all = "type c\nstates 2\ninitial 0\nop a b\nstep 0 0 1\nconflict undo 0 0\nend\n";
        let none = all.replace("conflict undo 0 0\n", "");
        let other = all.replace("step 0 0 1", "step 1 0 0");
        let read = |text: &str| Type::read(text, Kind::Undo).unwrap();
        assert!(are_same([&read(all)], [&read(all)]));
        assert!(!are_same([&read(all)], [&read(&none)]) && !are_same([&read(all)], [&read(&other)]));
    }
}

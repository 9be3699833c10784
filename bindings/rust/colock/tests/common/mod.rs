//! What the tests of shared stores have in common: a store in memory or in a file, from one list of types.
#![allow(dead_code, unused_macros)] // each file of tests uses a part

pub mod teller;

use colock::{Error, Kind, OpenOptions, OperationId, Reply, SharedStore, SharedTransaction, TransactionId, Type};
use std::env;
use std::fs;
use std::io::Write;
use std::ops::Deref;
use std::path::{Path, PathBuf};
use std::process::{self, Command, Stdio};
use std::sync::atomic::{AtomicU64, Ordering};
use std::thread;
use std::time::{Duration, Instant};

/// More than any wait that ends takes.
pub const LONG: Duration = Duration::from_secs(60);

/// The program. The tests over a child can't do without.
pub fn program() -> PathBuf {
    let named = env::var_os("COLOCK").expect("COLOCK has to name the program `colock`: the tests over a child need it");
    fs::canonicalize(&named).expect("the program that COLOCK names has to be there")
}

/// A folder that goes away where this is dropped.
pub struct Folder(PathBuf);

impl Folder {
    pub fn new() -> Folder {
        static COUNT: AtomicU64 = AtomicU64::new(0);
        let path = env::temp_dir().join(format!("colock-test-{}-{}", process::id(), COUNT.fetch_add(1, Ordering::Relaxed)));
        fs::create_dir(&path).unwrap();
        Folder(path)
    }

    pub fn file(&self, name: &str) -> PathBuf {
        self.0.join(name)
    }

    pub fn path(&self) -> &Path {
        &self.0
    }
}

impl Drop for Folder {
    fn drop(&mut self) {
        let _ = fs::remove_dir_all(&self.0);
    }
}

/// What a program in shell says of its objects, one counter from 0 to 2, and of their types: arms of its `case` of a verb.
pub const COUNTER_ARMS: &str = r#"    objects) echo "$tag object undo 0"; echo "$tag ok" ;;
    types)
        for line in "type counter" "states 3" "initial 0" "op inc:1 ok" "op dec:1 ok" \
            "step 0 0 1" "step 1 0 2" "step 1 1 0" "step 2 1 1" "conflict undo 0 1" "conflict undo 1 0" "end" ""; do
            echo "$tag $line"
        done
        echo "$tag ok" ;;"#;

/// Writes a program in shell. Another process does: what this one has open to be written can't be started, and each program
/// that another thread starts meanwhile has it open for a moment.
pub fn write_program(path: &Path, text: &str) {
    let mut writer = Command::new("sh").args(["-c", "cat > \"$0\" && chmod 755 \"$0\""]).arg(path).stdin(Stdio::piped()).spawn().unwrap();
    writer.stdin.take().unwrap().write_all(text.as_bytes()).unwrap();
    assert!(writer.wait().unwrap().success());
}

/// Writes a file of which nothing is there but the table with the id of a store: a page that names the table, and one with its row.
pub fn write_store_id(path: &Path, id: [u8; 16]) {
    const SIZE: usize = 512;
    let mut pages = [0; 2 * SIZE];
    pages[16..18].copy_from_slice(&512_u16.to_be_bytes());
    // the columns of a row have their kinds in a header: text of 5 bytes is 23, 16 bytes are 44
    let table = b"\x15\x01\x05\x17\x17\x17\x01tablestorestore\x02";
    let row = [&[23, 1, 5, 0, 1, 44, 1, 3][..], &id, &[5]].concat();
    for (page, leaf, cell) in [(0, 100, &table[..]), (SIZE, 0, &row)] {
        let at = SIZE - cell.len();
        pages[page + leaf] = 13;
        pages[page + leaf + 4] = 1;
        pages[page + leaf + 8..][..2].copy_from_slice(&(at as u16).to_be_bytes());
        pages[page + at..][..cell.len()].copy_from_slice(cell);
    }
    fs::write(path, pages).unwrap();
}

/// A store, with the folder of its file where it has one.
pub struct Fixture {
    store: SharedStore,
    _folder: Option<Folder>,
}

impl Fixture {
    /// The store without its gate.
    pub fn without_gate(self) -> Fixture {
        self.store.take_gate_out();
        self
    }
}

/// The child has ended before the folder goes away.
impl Drop for Fixture {
    fn drop(&mut self) {
        let _ = self.store.close();
    }
}

impl Deref for Fixture {
    type Target = SharedStore;

    fn deref(&self) -> &SharedStore {
        &self.store
    }
}

/// How a store is made of its objects.
pub type Make = fn(&[&Type]) -> Fixture;

pub fn in_memory(objects: &[&Type]) -> Fixture {
    Fixture { store: SharedStore::new(objects.iter().copied(), u32::MAX.into()).unwrap(), _folder: None }
}

pub fn over_a_child(objects: &[&Type]) -> Fixture {
    let folder = Folder::new();
    let store = OpenOptions::new().objects(objects).create(true).program(program()).open(folder.file("a.db")).unwrap();
    Fixture { store, _folder: Some(folder) }
}

/// Each of these tests over both: a function of how a store is made.
macro_rules! over_both {
    ($($name:ident),* $(,)?) => {
        mod in_memory {
            $(#[test] fn $name() { super::$name($crate::common::in_memory) })*
        }
        mod over_a_child {
            $(#[test] fn $name() { super::$name($crate::common::over_a_child) })*
        }
    };
}

/// A counter up to 1,000, by 1 and by 500.
pub fn counter() -> Type {
    Type::counter(1000, &[1, 500], Kind::Undo).unwrap()
}

/// A type whose yes is one-way in place, as the checker says (cases/verdicts.cases). A store of a file that has an object of it aborts
/// what is open where an epoch ends.
pub fn one_way() -> Type {
    Type::read(include_str!("../../../../../cases/files/oneway.type"), Kind::Undo).unwrap()
}

/// A store of this many counters, each at 500.
pub fn filled(make: Make, objects: u32) -> Fixture {
    let of = counter();
    let store = make(&vec![&of; objects as usize]);
    for object in 0..objects {
        store.transact(|turn| turn.expect(object, "inc:500", "ok")).unwrap();
    }
    store
}

/// Waits until something is so, and fails where it isn't in a long time.
pub fn until(is_so: impl Fn() -> bool) {
    let start = Instant::now();
    while !is_so() {
        assert!(start.elapsed() < LONG, "it didn't come to that");
        thread::sleep(Duration::from_millis(1));
    }
}

/// Waits until this many sleeps were begun.
pub fn until_asleep(store: &SharedStore, sleeps: u64) {
    until(|| store.stats().waits >= sleeps);
}

/// Two numbers from 0 to 20 at 3, to the first of which an open transaction has given 2; and a call there that waits for its end.
pub fn with_a_gift(make: Make, act: impl FnOnce(&SharedStore, SharedTransaction<'_>, &dyn Fn() -> bool)) {
    let of = Type::stock(20, &[2, 3, 5], Kind::Escrow).unwrap();
    let store = make(&[&of, &of]);
    let _done = store.attempt([(0, "give:3"), (1, "give:3")]).unwrap().executed().unwrap();
    let mut giver = store.begin().unwrap();
    giver.expect(0, "give:2", "ok").unwrap();
    thread::scope(|scope| {
        let taker = scope.spawn(|| {
            let mut t = store.begin().unwrap();
            t.expect_within(0, "take:5", "ok", LONG).and_then(|_| t.commit())
        });
        until_asleep(&store, 1);
        act(&store, giver, &|| taker.is_finished());
        assert_eq!(taker.join().unwrap(), Ok(()));
    });
    assert_eq!(store.stats().waits, 1);
}

/// The lines of the events from a place on.
pub fn lines(store: &SharedStore, start: u64) -> Vec<String> {
    store.events(start).unwrap().iter().map(ToString::to_string).collect()
}

/// The text of a type, without conflicts.
pub fn text_of(of: &Type) -> String {
    let mut text = format!("type {}\nstates {}\ninitial {}\n", of.name(), of.states(), of.initial());
    for k in 0..of.operations() {
        text += &format!("op {} {}\n", of.call_name(k).unwrap(), of.reply_name(k).unwrap());
    }
    for (state, k) in (0..of.states()).flat_map(|state| (0..of.operations()).map(move |k| (state, k))) {
        if let Some(to) = of.step(state, k).unwrap() {
            text += &format!("step {state} {k} {to}\n");
        }
    }
    text + "end\n"
}

/// Numbers that look random, by a seed.
pub struct Drawn(u64);

impl Drawn {
    pub fn new(seed: u64) -> Drawn {
        Drawn(seed.wrapping_mul(0x9e37_79b9_7f4a_7c15) ^ 0x5851_f42d_4c95_7f2d)
    }

    /// A number below this one.
    pub fn below(&mut self, most: u64) -> u64 {
        self.0 = self.0.wrapping_mul(6_364_136_223_846_793_005).wrapping_add(1_442_695_040_888_963_407);
        (self.0 >> 33) % most
    }
}

/// The id of a text.
pub fn id(text: &str) -> TransactionId {
    text.parse().unwrap()
}

/// The number of a transaction, which begins for that.
pub fn number(t: &SharedTransaction<'_>) -> u64 {
    t.begun().unwrap().number
}

/// What a call was answered, by numbers.
#[derive(Clone, Copy, Debug, PartialEq, Eq)]
pub enum Told {
    Operation(OperationId),
    Busy { blocker: u64 },
    Illegal,
}

/// A reply as `Told`.
pub trait Telling {
    fn told(self) -> Result<Told, Error>;
}

impl Telling for Result<Reply, Error> {
    fn told(self) -> Result<Told, Error> {
        Ok(match self? {
            Reply::Operation(operation) => Told::Operation(operation.id),
            Reply::Busy { blocker } => Told::Busy { blocker: blocker.number },
            Reply::Illegal => Told::Illegal,
        })
    }
}

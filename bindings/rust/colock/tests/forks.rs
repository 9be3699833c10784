//! A process that forks: the fork hasn't the pipes nor the store, and its calls fail; its parent goes on. The tests are alone in their process.

mod common;

use colock::{Error, OpenOptions, SharedStore};
use common::{counter, program, Folder, LONG};
use std::fs;
use std::io::{Read, Write};
use std::os::unix::net::UnixStream;
use std::path::PathBuf;
use std::sync::{Barrier, Mutex};
use std::thread;
use std::time::{Duration, Instant};

extern "C" {
    fn fork() -> i32;
    fn waitpid(process: i32, status: *mut i32, options: i32) -> i32;
    fn _exit(status: i32) -> !;
    fn alarm(seconds: u32) -> u32;
}

/// After how many seconds a fork that hangs is killed.
const HANGS: u32 = 60;

/// A fork of this process.
struct Fork(i32);

impl Fork {
    /// It does this, and ends with whether it was as it should be.
    fn doing(act: impl FnOnce() -> bool) -> Fork {
        // SAFETY: the fork doesn't come back from here.
        match unsafe { fork() } {
            0 => unsafe {
                alarm(HANGS);
                _exit(if act() { 7 } else { 1 })
            },
            process => Fork(process),
        }
    }

    /// Whether it was as it should be.
    fn ended_well(self) -> bool {
        let mut status = 0;
        // SAFETY: it is a child of this process, and nobody else waits for it.
        let waited = unsafe { waitpid(self.0, &mut status, 0) };
        waited == self.0 && status == 7 << 8
    }
}

/// What a process has open.
fn files(process: u32) -> Vec<PathBuf> {
    let files = fs::read_dir(format!("/proc/{process}/fd")).unwrap();
    files.filter_map(|file| fs::read_link(file.unwrap().path()).ok()).collect()
}

/// The pipes of the child of a store.
fn pipes(store: &SharedStore) -> Vec<PathBuf> {
    let process = store.child_process().unwrap();
    (0..2).map(|file| fs::read_link(format!("/proc/{process}/fd/{file}")).unwrap()).collect()
}

fn open(folder: &Folder) -> SharedStore {
    OpenOptions::new().objects([&counter()]).create(true).program(program()).open(folder.file("a.db")).unwrap()
}

fn is_told<T>(done: Result<T, Error>) -> bool {
    matches!(done, Err(Error::ConnectionLost(words)) if words.contains("a fork of the one that opened"))
}

/// One test at a time: a fork of one has what another one has just opened.
static TURN: Mutex<()> = Mutex::new(());

#[test]
fn a_fork_is_told_that_it_is_one() {
    let _turn = TURN.lock();
    let folder = Folder::new();
    let store = open(&folder);
    store.transact(|turn| turn.expect(0, "inc:1", "ok")).unwrap();
    let (mut t, put_off) = (store.begin().unwrap(), store.begin().unwrap());
    t.call(0, "inc:1").unwrap().expected("ok").unwrap();
    let fork = Fork::doing(|| {
        let mut are_told = [is_told(store.begin()), is_told(store.kept(0)), is_told(store.events(0)), is_told(store.committed(common::id("1.0")))].to_vec();
        are_told.push(is_told(store.transact(|turn| turn.expect(0, "inc:1", "ok"))));
        are_told.extend([is_told(store.extend([&counter()])), is_told(store.find("a")), are_attempts_told(&store)]);
        // SAFETY: a fork has copies of its own, and doesn't come back to those that the test drops
        let (copy, mut of_t, of_put_off) = unsafe { (std::ptr::read(&store), std::ptr::read(&t), std::ptr::read(&put_off)) };
        are_told.push(is_told(of_t.call(0, "inc:1")));
        are_told.push(is_told(of_t.commit()));
        drop(of_put_off);
        are_told.push(copy.stats().commits == 0 && is_told(copy.close()));
        // a store of its own
        let folder = Folder::new();
        let own = open(&folder);
        are_told.push(own.transact(|turn| turn.expect(0, "inc:1", "ok")).is_ok() && own.close().is_ok());
        are_told.iter().all(|is_told| *is_told)
    });
    assert!(fork.ended_well());
    // nothing of that came here
    t.commit().unwrap();
    drop(put_off);
    assert_eq!((store.kept(0), store.event_count()), (Ok(2), Ok(8)));
    store.close().unwrap();
}

/// Whether each read and each attempt says that this is a fork.
fn are_attempts_told(store: &SharedStore) -> bool {
    let reads = [is_told(store.moment()), is_told(store.snapshot()), is_told(store.committed_states([0])), is_told(store.peek([(0, "inc:1")]))];
    let attempts = [
        is_told(store.attempt([(0, "inc:1")])),
        is_told(store.attempt_within([(0, "inc:1")], LONG)),
        is_told(store.attempt_op(0, 0)),
        is_told(store.attempt_op(0, 200)),
        is_told(store.attempt_op("a", 0)),
    ];
    let named = [is_told(store.peek([("a", "inc:1")])), is_told(store.attempt([("a", "inc:1")])), is_told(store.committed_states(["a"]))];
    [&reads[..], &attempts, &named].concat().iter().all(|is_told| *is_told)
}

/// Whether each call of a store that needs its lock says that this is a fork.
fn are_told(store: &SharedStore) -> bool {
    let read = [
        is_told(store.kept(0)),
        is_told(store.events(0)),
        is_told(store.event_count()),
        is_told(store.open_count()),
        is_told(store.committed(common::id("0.0"))),
    ];
    let done = [is_told(store.begin()), is_told(store.begin_as(1)), is_told(store.transact(|turn| turn.expect(0, "inc:1", "ok")))];
    let in_memory = [is_told(store.forgotten_count()), is_told(store.forget(1)), is_told(store.renew()), is_told(store.abort_all())];
    let named = [is_told(store.find("a")), is_told(store.kept("a")), is_told(store.extend([&counter()]))];
    let followed = store.follow(&[]).map_err(|followed| followed.error);
    [&read[..], &done, &in_memory, &named, &[is_told(followed), store.stats().commits == 0, are_attempts_told(store)]].concat().iter().all(|is_told| *is_told)
}

#[test]
fn a_fork_has_no_copy_of_a_store_in_memory() {
    let _turn = TURN.lock();
    let store = SharedStore::new([&counter()], 100).unwrap();
    let mut t = store.begin().unwrap();
    t.expect(0, "inc:1", "ok").unwrap();
    let fork = Fork::doing(|| {
        let all = are_told(&store);
        // SAFETY: a fork has copies of its own, and doesn't come back to those that the test drops
        let (copy, mut of_t) = unsafe { (std::ptr::read(&store), std::ptr::read(&t)) };
        let of_transaction = [is_told(of_t.call(0, "inc:1")), is_told(of_t.call_within(0, "inc:1", LONG)), is_told(of_t.commit()), is_told(copy.close())];
        let own = SharedStore::new([&counter()], 100).unwrap();
        all && of_transaction == [true; 4] && own.transact(|turn| turn.expect(0, "inc:1", "ok")).is_ok()
    });
    assert!(fork.ended_well());
    t.commit().unwrap();
    assert_eq!((store.kept(0), store.event_count()), (Ok(1), Ok(3)));
}

#[test]
fn a_fork_doesnt_wait_for_a_thread_that_it_hasnt() {
    let _turn = TURN.lock();
    let store = SharedStore::new([&counter()], 100).unwrap();
    let (is_held, is_over) = (Barrier::new(2), Barrier::new(2));
    let held = || {
        is_held.wait();
        is_over.wait();
        Ok::<(), Error>(())
    };
    thread::scope(|scope| {
        scope.spawn(|| store.transact(|_| held()).unwrap());
        is_held.wait();
        let fork = Fork::doing(|| are_told(&store));
        is_over.wait();
        assert!(fork.ended_well());
    });
}

/// A fork in a turn of a store, which ends the turn there.
fn fork_in_a_turn(store: &SharedStore) {
    let forked = || {
        store.transact(|turn| {
            turn.expect(0, "inc:1", "ok")?;
            let fork = Fork::doing(|| {
                let is_told = is_told(turn.call(0, "inc:1")) && is_told(turn.call_op(0, 0)) && is_told(turn.would(0, "inc:1")) && is_told(turn.rollback(1));
                // SAFETY: as above
                drop(unsafe { std::ptr::read(turn) });
                is_told
            });
            assert!(fork.ended_well());
            Ok::<(), Error>(())
        })
    };
    assert_eq!((forked(), store.kept(0), store.event_count()), (Ok(()), Ok(1), Ok(3)));
}

#[test]
fn a_fork_in_a_turn_is_told_too() {
    let _turn = TURN.lock();
    let folder = Folder::new();
    fork_in_a_turn(&open(&folder));
    fork_in_a_turn(&SharedStore::new([&counter()], 100).unwrap());
}

#[test]
fn a_fork_has_no_pipe() {
    let _turn = TURN.lock();
    let folders = [Folder::new(), Folder::new()];
    let (store, other) = (open(&folders[0]), open(&folders[1]));
    let all = [pipes(&store), pipes(&other)].concat();
    other.close().unwrap();
    let (mut here, mut there) = UnixStream::pair().unwrap();
    // the fork has both ends
    there.set_read_timeout(Some(LONG)).unwrap();
    let fork = Fork::doing(move || {
        let is_awake = there.write_all(b"!").is_ok();
        is_awake && there.read_exact(&mut [0]).is_ok()
    });
    here.read_exact(&mut [0]).unwrap();
    let held = |process: u32| files(process).into_iter().filter(|file| all.contains(file)).count();
    // the thread that reads what a closed store answers may end a moment later
    let start = Instant::now();
    while held(std::process::id()) > 2 && start.elapsed() < LONG {
        thread::sleep(Duration::from_millis(1));
    }
    assert_eq!((held(std::process::id()), held(fork.0 as u32)), (2, 0));
    here.write_all(b"!").unwrap();
    assert!(fork.ended_well());
}

//! Pipes that take little at once, which Linux gives to a user who has many of them. Many threads ask for more than that.

mod common;

use colock::{Error, OpenOptions, SharedStore};
use common::{counter, program, Folder};
use std::fs;
use std::os::fd::AsRawFd;
use std::sync::atomic::{AtomicUsize, Ordering};
use std::thread;
use std::time::Duration;

extern "C" {
    fn fcntl(file: i32, command: i32, ...) -> i32;
    fn kill(process: i32, number: i32) -> i32;
}

const STOP: i32 = 19;
const GO_ON: i32 = 18;

/// The command that sets how many bytes a pipe takes.
const SET_SIZE: i32 = 1031;

const THREADS: usize = 600;

/// Makes the pipes of the child of a store this small.
fn shrink_pipes(store: &SharedStore, bytes: i32) {
    let process = store.child_process().unwrap();
    let end = |file: u32| format!("/proc/{process}/fd/{file}");
    for pipe in [fs::File::open(end(0)).unwrap(), fs::OpenOptions::new().write(true).open(end(1)).unwrap()] {
        // SAFETY: the file is open.
        assert_eq!(unsafe { fcntl(pipe.as_raw_fd(), SET_SIZE, bytes) }, bytes);
    }
}

/// A call of a transaction that is aborted.
fn count_up(store: &SharedStore) -> Result<(), Error> {
    let mut t = store.begin()?;
    t.expect(0, "inc:1", "ok")?;
    t.abort()
}

/// What fails of many threads that ask while the child is stopped, so that it gets all of it at once.
fn asked_at_once(store: &SharedStore) -> Vec<Error> {
    let (process, asking) = (store.child_process().unwrap() as i32, AtomicUsize::new(0));
    let signal = |number: i32| unsafe { assert_eq!(kill(process, number), 0) };
    signal(STOP);
    thread::scope(|scope| {
        let ask = || {
            asking.fetch_add(1, Ordering::SeqCst);
            count_up(store)
        };
        let threads: Vec<_> = (0..THREADS).map(|_| scope.spawn(ask)).collect();
        common::until(|| asking.load(Ordering::SeqCst) == THREADS);
        thread::sleep(Duration::from_millis(300));
        signal(GO_ON);
        threads.into_iter().filter_map(|thread| thread.join().unwrap().err()).collect()
    })
}

#[test]
fn small_pipes_dont_stand_still() {
    for pages in [1, 2] {
        let folder = Folder::new();
        let options = OpenOptions::new().create(true).program(program()).limit(Duration::from_secs(10));
        let store = options.objects([&counter()]).open(folder.file("a.db")).unwrap();
        count_up(&store).unwrap(); // from now on a begin goes with its call
        shrink_pipes(&store, pages * 4096);
        let failed = asked_at_once(&store);
        assert_eq!((failed.len(), failed.first()), (0, None), "with {pages} pages");
        assert_eq!((store.kept(0), store.close()), (Ok(0), Ok(())));
    }
}

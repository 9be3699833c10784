//! A signal to the group of processes of a client. The client is this program again, in a group of its own.

mod common;

use colock::OpenOptions;
use common::{counter, program, Folder};
use std::env;
use std::os::unix::process::CommandExt;
use std::process::Command;
use std::sync::atomic::{AtomicBool, Ordering};

extern "C" {
    fn signal(number: i32, handler: extern "C" fn(i32)) -> usize;
    fn kill(process: i32, number: i32) -> i32;
}

const TERMINATE: i32 = 15;

/// What says in the environment that this is the client.
const IS_CLIENT: &str = "COLOCK_TEST_IS_CLIENT";

static IS_TOLD: AtomicBool = AtomicBool::new(false);

extern "C" fn is_told(_: i32) {
    IS_TOLD.store(true, Ordering::SeqCst);
}

/// A client that is told to end in the middle of a transaction, and ends in order.
fn client() {
    let folder = Folder::new();
    let store = OpenOptions::new().objects([&counter()]).create(true).program(program()).open(folder.file("a.db")).unwrap();
    let mut t = store.begin().unwrap();
    t.expect(0, "inc:1", "ok").unwrap();
    // SAFETY: the handler does nothing but store, and the group is that of this process.
    let is_sent = unsafe { signal(TERMINATE, is_told) != usize::MAX && kill(0, TERMINATE) == 0 };
    assert!(is_sent);
    common::until(|| IS_TOLD.load(Ordering::SeqCst));
    t.commit().unwrap();
    assert_eq!((store.kept(0), store.close()), (Ok(1), Ok(())));
}

#[test]
fn a_signal_to_the_group_reaches_the_client_alone() {
    if env::var_os(IS_CLIENT).is_some() {
        return client();
    }
    let mut again = Command::new(env::current_exe().unwrap());
    again.args(["--exact", "a_signal_to_the_group_reaches_the_client_alone", "--nocapture"]).env(IS_CLIENT, "1").process_group(0);
    let done = again.output().unwrap();
    assert!(done.status.success(), "{}", String::from_utf8_lossy(&done.stderr));
}

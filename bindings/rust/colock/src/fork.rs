//! A process that forks, and goes on without executing another program, doesn't have its stores there, nor their pipes.
//!
//! A fork that held the pipes would keep a child of its parent alive, and what it wrote would come between the parent's
//! lines. So in the fork `/dev/null` takes their places, before anything else is done there. Of a store in memory the fork
//! would have a copy, whose lock a thread may hold that isn't there. So the fork has a number of its own, by which a store
//! of the parent is known before its lock is taken.

use crate::error::Error;
use crate::wire::ending::FileId;
use std::cell::UnsafeCell;
use std::ffi::{c_char, c_int, CStr};
use std::mem::ManuallyDrop;
use std::ops::{Deref, DerefMut};
use std::os::fd::AsRawFd;
use std::sync::atomic::{AtomicBool, AtomicU32, Ordering};
use std::sync::Once;
use std::thread;

extern "C" {
    fn pthread_atfork(prepare: Option<extern "C" fn()>, parent: Option<extern "C" fn()>, child: Option<extern "C" fn()>) -> c_int;
    fn open(path: *const c_char, flags: c_int, ...) -> c_int;
    fn dup2(from: c_int, to: c_int) -> c_int;
    fn close(file: c_int) -> c_int;
    fn fcntl(file: c_int, command: c_int, ...) -> c_int;
}

const NOTHING: &CStr = c"/dev/null";
const READ_AND_WRITE: c_int = 2;
/// The command that sets the flags of a file, and the one flag that there is: it is closed where a program is executed.
const SET_FLAGS: c_int = 2;
const CLOSES: c_int = 1;

/// How often this process is a fork of one that had loaded this.
static FORKS: AtomicU32 = AtomicU32::new(0);

/// What a fork isn't to have. A fork waits for its lock, so that nothing is forgotten, and it is free in the fork.
static OURS: Ours = Ours { is_taken: AtomicBool::new(false), kept: UnsafeCell::new(Kept { pipes: Vec::new(), ending: Vec::new() }) };

struct Ours {
    is_taken: AtomicBool,
    kept: UnsafeCell<Kept>,
}

struct Kept {
    pipes: Vec<c_int>,
    /// The files of the stores whose children are about to end.
    ending: Vec<FileId>,
}

// SAFETY: what is kept is used by who has taken the lock alone.
unsafe impl Sync for Ours {}

impl Ours {
    fn take(&self) {
        // it is held for moments only
        while self.is_taken.swap(true, Ordering::Acquire) {
            thread::yield_now();
        }
    }

    fn give_back(&self) {
        self.is_taken.store(false, Ordering::Release);
    }

    /// Does something with what is kept, with the lock.
    fn with<T>(&self, act: impl FnOnce(&mut Kept) -> T) -> T {
        self.take();
        // SAFETY: the lock is taken, and nothing that is done with it comes here again.
        let done = act(unsafe { &mut *self.kept.get() });
        self.give_back();
        done
    }
}

/// Does something with the files of the stores of this process whose children are about to end. It may not use them again
/// meanwhile, nor wait.
pub(crate) fn with_ending<T>(act: impl FnOnce(&mut Vec<FileId>) -> T) -> T {
    watch();
    OURS.with(|kept| act(&mut kept.ending))
}

extern "C" fn before() {
    OURS.take();
}

extern "C" fn behind_in_parent() {
    OURS.give_back();
}

/// In the fork, where this is the only thread. What is called may be called there.
extern "C" fn behind_in_fork() {
    FORKS.fetch_add(1, Ordering::Relaxed);
    // SAFETY: `before` has taken the lock. The files are pipes of this process, whose owners don't use them any more.
    unsafe {
        let kept = &mut *OURS.kept.get();
        let nothing = open(NOTHING.as_ptr(), READ_AND_WRITE);
        for file in kept.pipes.iter() {
            if dup2(nothing, *file) == *file {
                fcntl(*file, SET_FLAGS, CLOSES);
            } else {
                close(*file);
            }
        }
        close(nothing);
        kept.pipes.clear();
        kept.ending.clear();
    }
    OURS.give_back();
}

/// Has each fork from now on counted, and without the pipes.
fn watch() {
    static AT_FORK: Once = Once::new();
    AT_FORK.call_once(|| {
        // SAFETY: these functions take nothing, and are there as long as the process is.
        let _ = unsafe { pthread_atfork(Some(before), Some(behind_in_parent), Some(behind_in_fork)) };
        // it fails only as memory was refused; then a fork isn't known as one
    });
}

/// The process in which a store was opened, by how often it is a fork.
#[derive(Clone, Copy, Debug)]
pub(crate) struct Origin(u32);

impl Origin {
    /// This process.
    pub(crate) fn here() -> Origin {
        watch();
        Origin(FORKS.load(Ordering::Relaxed))
    }

    /// Whether this process is it, and isn't a fork of it.
    #[inline]
    pub(crate) fn is_this(self) -> bool {
        FORKS.load(Ordering::Relaxed) == self.0
    }

    /// That this process is it.
    #[inline]
    pub(crate) fn is_here(self) -> Result<(), Error> {
        if self.is_this() {
            Ok(())
        } else {
            Err(forked())
        }
    }
}

#[cold]
fn forked() -> Error {
    Error::ConnectionLost("the process is a fork of the one that opened the store".to_string())
}

/// An end of a pipe that a fork of this process doesn't have.
#[derive(Debug)]
pub(crate) struct Unforked<P: AsRawFd>(ManuallyDrop<P>);

impl<P: AsRawFd> Unforked<P> {
    pub(crate) fn new(pipe: P) -> Unforked<P> {
        watch();
        OURS.with(|kept| kept.pipes.push(pipe.as_raw_fd()));
        Unforked(ManuallyDrop::new(pipe))
    }
}

impl<P: AsRawFd> Deref for Unforked<P> {
    type Target = P;

    fn deref(&self) -> &P {
        &self.0
    }
}

impl<P: AsRawFd> DerefMut for Unforked<P> {
    fn deref_mut(&mut self) -> &mut P {
        &mut self.0
    }
}

impl<P: AsRawFd> Drop for Unforked<P> {
    fn drop(&mut self) {
        let file = self.0.as_raw_fd();
        // it is closed with the lock: else its number could be another file's where a fork still finds it
        OURS.with(|kept| {
            kept.pipes.retain(|other| *other != file);
            // SAFETY: it isn't used after this.
            unsafe { ManuallyDrop::drop(&mut self.0) };
        });
    }
}

//! How a worker waits, for the lock and after a broken try. A program has one of the two manners: with
//! both in it, less of the store would be laid out in line.

use std::sync::{Mutex, MutexGuard, TryLockError};
use std::thread;

/// How often a worker looks whether the lock is free before it sleeps until it is.
const LOOKS: u32 = 10;
/// Pauses between looks double up to the one of this number.
const LONGEST_BETWEEN_LOOKS: u32 = 6;
/// Pauses before a try double up to the one of this number.
const LONGEST_BEFORE_A_TRY: u32 = 3;

pub trait Manner {
    /// Takes the lock.
    fn take<T>(mutex: &Mutex<T>) -> MutexGuard<'_, T>;

    /// What a worker does before a try where this many tries of its job were broken.
    fn wait_for_a_try(broken: u32);
}

/// Takes the lock by `lock`, and tries anew at once.
pub struct AtOnce;

impl Manner for AtOnce {
    fn take<T>(mutex: &Mutex<T>) -> MutexGuard<'_, T> {
        mutex.lock().expect("a lock")
    }

    fn wait_for_a_try(_broken: u32) {}
}

/// Pauses as `run_workers` does.
pub struct Pausing;

impl Manner for Pausing {
    fn take<T>(mutex: &Mutex<T>) -> MutexGuard<'_, T> {
        for look in 0..LOOKS {
            match mutex.try_lock() {
                Ok(held) => return held,
                Err(TryLockError::WouldBlock) => pause(look.min(LONGEST_BETWEEN_LOOKS)),
                Err(TryLockError::Poisoned(_)) => panic!("a lock"),
            }
        }
        mutex.lock().expect("a lock")
    }

    fn wait_for_a_try(broken: u32) {
        if broken > 0 {
            pause(broken.min(LONGEST_BEFORE_A_TRY));
        }
    }
}

/// Lets other threads run, twice as often as the pause before this one.
fn pause(number: u32) {
    for _ in 0..1u32 << number {
        thread::yield_now();
    }
}

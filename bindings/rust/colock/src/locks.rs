use std::hint::spin_loop;
use std::sync::{Mutex, MutexGuard, PoisonError, TryLockError};

/// How often a thread pauses for a lock before it sleeps, each time twice as long.
const MOST_PAUSES: u32 = 7;

/// The lock of a mutex. No panic of this crate leaves anything half done, and a panic in a caller's function, which
/// poisons the mutex, comes between two calls.
#[inline]
pub(crate) fn locked<T>(mutex: &Mutex<T>) -> MutexGuard<'_, T> {
    match tried(mutex) {
        Some(guard) => guard,
        None => awaited(mutex),
    }
}

/// The same, where somebody has it. A turn is short, so it is tried again after pauses that grow, before the thread sleeps.
#[cold]
fn awaited<T>(mutex: &Mutex<T>) -> MutexGuard<'_, T> {
    for doubled in 0..MOST_PAUSES {
        for _ in 0..1 << doubled {
            spin_loop();
        }
        if let Some(guard) = tried(mutex) {
            return guard;
        }
    }
    mutex.lock().unwrap_or_else(PoisonError::into_inner)
}

/// The same, where nobody has it.
pub(crate) fn tried<T>(mutex: &Mutex<T>) -> Option<MutexGuard<'_, T>> {
    match mutex.try_lock() {
        Ok(guard) => Some(guard),
        Err(TryLockError::Poisoned(poisoned)) => Some(poisoned.into_inner()),
        Err(TryLockError::WouldBlock) => None,
    }
}

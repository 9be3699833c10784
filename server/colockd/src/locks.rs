//! Locks that are held for moments only.

use std::sync::{Mutex, MutexGuard, PoisonError};

/// Takes a lock, also one in which somebody panicked: what it guards is whole between two of its calls.
pub fn locked<T>(mutex: &Mutex<T>) -> MutexGuard<'_, T> {
    mutex.lock().unwrap_or_else(PoisonError::into_inner)
}

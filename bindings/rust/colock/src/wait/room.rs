//! Room for one more transaction, where too many are open: who waits for it is told one by one, as others end.

use crate::error::Error;
use crate::shared::transaction::SharedTransaction;
use crate::shared::SharedStore;
use crate::wait::calling::{is_over, watched};
use std::time::{Duration, Instant};

impl SharedStore {
    /// Begins a transaction. Where too many are open it waits for the end of one, at most this long. No begin is put off
    /// there, so that none fails later.
    pub(crate) fn begin_within(&self, age: Option<u64>, limit: Duration) -> Result<SharedTransaction<'_>, Error> {
        match self.begin_aged(0, age) {
            Err(Error::TooManyOpen) => self.begin_in_room(age, limit),
            told => told,
        }
    }

    fn begin_in_room(&self, age: Option<u64>, limit: Duration) -> Result<SharedTransaction<'_>, Error> {
        let deadline = Instant::now().checked_add(limit);
        let mut ends = self.enter()?.ends;
        loop {
            match self.begin_aged(0, age) {
                Err(Error::TooManyOpen) if !is_over(deadline) => ends = self.wait_for_an_end(ends, deadline)?,
                told => return told,
            }
        }
    }

    /// Waits for another end than those that were when they were so many. It gives how many they are.
    pub(crate) fn wait_for_an_end(&self, seen: u64, deadline: Option<Instant>) -> Result<u64, Error> {
        let guard = self.enter()?;
        let waits = guard.ends == seen && self.lost().is_none();
        let guard = if waits { watched(guard, None, deadline) } else { guard };
        Ok(guard.ends)
    }
}

#[cfg(test)]
mod tests {
    use crate::{Error, Kind, SharedStore, Type};
    use std::time::{Duration, Instant};

    #[test]
    fn the_wait_for_room_has_a_limit() {
        let store = SharedStore::new([&Type::counter(5, &[1], Kind::Undo).unwrap()], 10_000).unwrap();
        let open: Vec<_> = (0..1024).map(|_| store.begin().unwrap()).collect();
        let (start, limit) = (Instant::now(), Duration::from_millis(20));
        assert_eq!(store.begin_within(None, limit).err(), Some(Error::TooManyOpen));
        assert!(start.elapsed() >= limit);
        drop(open);
        assert!(store.begin_within(None, Duration::ZERO).is_ok());
    }
}

//! How a shared store ends.

use crate::error::Error;
use crate::shared::in_memory::abort_all;
use crate::shared::{Guard, SharedStore};
use crate::wire::child::{ok, Link};
use crate::wire::ending::Ending;
use crate::wire::remote::Remote;
use crate::wire::request::Request;
use crate::wire::slot::Slot;
use std::sync::atomic::Ordering;
use std::sync::Arc;
use std::thread;

impl SharedStore {
    /// Closes it, whoever has it yet: what is open is aborted, and each later call of it, or of a transaction of it, fails by
    /// [`Error::Closed`]. Over a child the epoch ends, all of it durable, and the child is reaped; what is
    /// [prepared](crate::SharedTransaction::prepare) stays so in the file.
    ///
    /// ```
    /// # use colock::{Error, Kind, SharedStore, Type};
    /// # let store = SharedStore::new([&Type::counter(5, &[1], Kind::Undo)?], 100)?;
    /// let transaction = store.begin()?;
    /// store.close()?;
    /// assert_eq!((transaction.commit(), store.close()), (Err(Error::Closed), Err(Error::Closed)));
    /// # Ok::<(), Error>(())
    /// ```
    ///
    /// # Errors
    ///
    /// [`Error::Closed`] where it was closed before. [`Error::ConnectionLost`] over a child that is lost, or doesn't end as it
    /// was asked.
    pub fn close(&self) -> Result<(), Error> {
        let guard = self.enter()?;
        match self.remote() {
            None => self.close_in_memory(guard),
            Some(remote) => {
                let slot = self.tell_end(remote, guard)?;
                ended(&remote.link, &slot)
            }
        }
    }

    fn close_in_memory(&self, mut guard: Guard<'_>) -> Result<(), Error> {
        self.is_closed.store(true, Ordering::Relaxed);
        abort_all(&mut guard)
    }

    /// Tells a child to end, after which nothing is asked any more. Its answer comes into the slot.
    fn tell_end(&self, remote: &Remote, mut guard: Guard<'_>) -> Result<Arc<Slot>, Error> {
        self.is_closed.store(true, Ordering::Relaxed);
        let told = guard.send(Request::End);
        guard.lost(); // nobody waits any more
        drop(guard);
        remote.link.write();
        told
    }

    /// Tells a child to end, and has a thread wait for that.
    fn leave_to_end(&self, remote: &Remote) -> Result<(), Error> {
        let slot = self.tell_end(remote, self.enter()?)?;
        let (link, ending) = (Arc::clone(&remote.link), remote.file.map(Ending::of));
        let waiting = move || {
            let _ = ended(&link, &slot);
            drop(ending);
        };
        // where no thread can be had, the child ends all the same, and is killed with the last who has the link
        let _ = thread::Builder::new().name("colock end".to_string()).spawn(waiting);
        Ok(())
    }
}

/// Waits for the end of a child that was told so.
fn ended(link: &Link, slot: &Slot) -> Result<(), Error> {
    ok(link, &link.answered(slot)?)?;
    link.reap()
}

impl Drop for SharedStore {
    fn drop(&mut self) {
        if let Some(remote) = self.remote() {
            // it fails where it was closed, or the child is lost, which is reaped then
            let _ = self.leave_to_end(remote);
        }
    }
}

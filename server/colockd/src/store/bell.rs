//! How somebody who waits is woken.

use crate::locks::locked;
use colock_waiting::{Number, Verdict};
use std::sync::Mutex;
use tokio::sync::Notify;
use tokio::time::{timeout_at, Instant};

/// Why somebody is woken.
#[derive(Clone, Copy, Debug, PartialEq, Eq)]
pub enum Woken {
    /// It may be free now.
    Again,
    /// It is the victim of a circle, and waited for this one.
    Victim(Number),
    /// There is nothing to wait for any more.
    Over(Verdict),
}

/// A bell that is rung for one who waits.
#[derive(Debug, Default)]
pub struct Bell {
    /// The line that asks what the call would be answered; empty where none does.
    would: String,
    rung: Mutex<Option<Woken>>,
    notify: Notify,
}

impl Bell {
    /// A bell of a call that is asked for by this line.
    pub fn asked_by(would: String) -> Bell {
        Bell { would, ..Bell::default() }
    }

    /// The line that asks for the call.
    pub fn would(&self) -> &str {
        &self.would
    }

    /// Wakes whoever waits. What is final stays.
    pub fn ring(&self, woken: Woken) {
        let mut rung = locked(&self.rung);
        if matches!(*rung, None | Some(Woken::Again)) {
            *rung = Some(woken);
        }
        self.notify.notify_one();
    }

    /// Waits until it is rung; nothing where that isn't before this moment.
    pub async fn wait(&self, deadline: Instant) -> Option<Woken> {
        loop {
            if let Some(woken) = locked(&self.rung).take() {
                return Some(woken);
            }
            // boxed since timers are large, and what waits is moved
            if Box::pin(timeout_at(deadline, self.notify.notified())).await.is_err() {
                return locked(&self.rung).take();
            }
        }
    }
}

#[cfg(test)]
mod tests {
    use super::{Bell, Woken};
    use colock_waiting::{Number, Verdict};
    use std::time::Duration;
    use tokio::time::Instant;

    fn soon() -> Instant {
        Instant::now() + Duration::from_millis(5)
    }

    #[tokio::test]
    async fn a_bell_that_was_rung_before_wakes() {
        let bell = Bell::default();
        bell.ring(Woken::Again);
        assert_eq!(bell.wait(soon()).await, Some(Woken::Again));
        assert_eq!(bell.wait(soon()).await, None);
    }

    #[tokio::test]
    async fn what_is_final_stays() {
        let bell = Bell::default();
        for woken in [Woken::Again, Woken::Victim(Number(1)), Woken::Again, Woken::Over(Verdict::Gone)] {
            bell.ring(woken);
        }
        assert_eq!(bell.wait(soon()).await, Some(Woken::Victim(Number(1))));
    }
}

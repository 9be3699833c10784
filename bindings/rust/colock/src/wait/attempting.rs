//! Attempts that wait. Each try is a whole transaction, so between two tries nothing is held, and nobody waits for one that
//! sleeps but by the gate. So there is no circle of which it would be the victim.

use crate::asked::Asked;
use crate::attempt::{Attempt, Came, Ending};
use crate::error::Error;
use crate::object::ObjectRef;
use crate::operation_id::OperationId;
use crate::shared::attempts::Tried;
use crate::shared::state::{Held, State};
use crate::shared::SharedStore;
use crate::transaction_id::TransactionId;
use crate::wait::calling::is_over;
use crate::wait::waiters::{Blocker, Caller, Woken};
use colock_waiting::Verdict;
use std::time::{Duration, Instant};

/// An attempt that may wait, up to a moment.
struct Waits {
    deadline: Option<Instant>,
    /// What it is among those that wait, where it has slept.
    caller: Option<Caller>,
}

/// What was in the way of a try.
struct Obstacle {
    object: u32,
    call: OperationId,
    blocker: TransactionId,
    /// As of [`Tried`].
    since: u64,
}

impl SharedStore {
    /// As [`SharedStore::attempt`], and where a call is busy it is tried again, for at most this long in all. Between two tries
    /// it sleeps until who was in the way has ended or taken operations back, or another one that worked at the object has. It
    /// holds nothing then, so that there is no deadlock with it. Where too many transactions are open it waits for an end.
    ///
    /// It never ends as [`Ending::Busy`]. Each try is a transaction of its own in the history. A younger call that would keep
    /// this one waiting goes after it, and is [busy](crate::Reply::Busy) by a number that is no transaction's.
    ///
    /// ```
    /// use colock::{Error, Kind, SharedStore, Type};
    /// use std::time::Duration;
    ///
    /// let seat = Type::seats(1, Kind::Undo)?;
    /// let store = SharedStore::new([("A12", &seat)], 1_000)?;
    /// let mut holder = store.begin()?;
    /// holder.expect("A12", "hold:1", "ok")?;
    /// assert_eq!(store.attempt_within([("A12", "hold:1")], Duration::from_millis(5)), Err(Error::TimedOut));
    /// std::thread::scope(|scope| {
    ///     scope.spawn(|| {
    ///         let held = store.attempt_within([("A12", "hold:1"), ("A12", "book:1")], Duration::from_secs(60));
    ///         assert!(held.and_then(|attempt| attempt.executed()).is_ok());
    ///     });
    ///     holder.abort()
    /// })?;
    /// assert_eq!(store.peek([("A12", "free")])?.value[0].reply, "0");
    /// # Ok::<(), Error>(())
    /// ```
    ///
    /// # Errors
    ///
    /// As of [`SharedStore::attempt`]; [`Error::TimedOut`] where the limit is over: nothing stays of it.
    pub fn attempt_within(&self, calls: impl IntoIterator<Item = (impl ObjectRef, impl AsRef<str>)>, limit: Duration) -> Result<Attempt, Error> {
        let asked = Asked::of(calls, |object| self.number_of(object));
        Came::of(asked, self.objects(), |asked| self.tried_within(asked, limit))
    }

    fn tried_within(&self, asked: &Asked, limit: Duration) -> Result<Came, Error> {
        let mut waits = Waits { deadline: Instant::now().checked_add(limit), caller: None };
        let told = self.tried_until_done(asked, &mut waits);
        if let Some(caller) = waits.caller {
            self.lock().leaves(caller.number);
        }
        if told == Err(Error::TimedOut) {
            self.lock().stats.timeouts += 1;
        }
        told
    }

    /// Tries, and sleeps where somebody is in the way.
    fn tried_until_done(&self, asked: &Asked, waits: &mut Waits) -> Result<Came, Error> {
        loop {
            let tried = self.tried_in_room(asked, waits.deadline)?;
            match self.obstacle(asked, &tried)? {
                None => return Ok(tried.came),
                Some(obstacle) => self.rest_before(tried, &obstacle, waits)?,
            }
        }
    }

    /// One try, where there is room for one more transaction, or comes to be within the limit.
    fn tried_in_room(&self, asked: &Asked, deadline: Option<Instant>) -> Result<Tried<'_>, Error> {
        let mut ends = None;
        loop {
            match self.tried(asked) {
                Err(Error::TooManyOpen) if !is_over(deadline) => {
                    ends = Some(match ends {
                        None => self.enter()?.ends,
                        Some(seen) => self.wait_for_an_end(seen, deadline)?,
                    });
                }
                told => return told,
            }
        }
    }

    /// What was in the way of a try.
    fn obstacle(&self, asked: &Asked, tried: &Tried<'_>) -> Result<Option<Obstacle>, Error> {
        let Came::Ended { at, how: Ending::Busy { blocker } } = tried.came else { return Ok(None) };
        let (object, name) = asked.calls().nth(at).ok_or(Error::NoCall)?;
        let call = self.calls_at(object)?.number(name).ok_or(Error::NoCall)?;
        Ok(Some(Obstacle { object, call, blocker, since: tried.since }))
    }

    /// Sleeps after a try until the call that was busy may be free.
    fn rest_before(&self, tried: Tried<'_>, obstacle: &Obstacle, waits: &mut Waits) -> Result<(), Error> {
        let mut guard = tried.guard;
        if let Some(error) = self.lost() {
            return Err(error);
        }
        if is_over(waits.deadline) {
            return Err(Error::TimedOut);
        }
        if obstacle.has_let_go(&guard) {
            return Ok(());
        }
        let caller = waits.caller_at(&mut guard, obstacle);
        let blocker = Blocker { number: guard.held.number(obstacle.blocker), by_gate: false };
        let (mut guard, woken) = self.rest(guard, caller, blocker, waits.deadline);
        match woken {
            Some(Woken::Again) => Ok(()),
            None => Err(Error::TimedOut),
            Some(Woken::Over(Verdict::Lost)) => Err(self.lost().unwrap_or_else(|| Error::ConnectionLost(String::new()))),
            Some(Woken::Over(_) | Woken::Victim { .. }) => {
                waits.leave(&mut guard);
                Ok(())
            }
        }
    }
}

impl Obstacle {
    /// Whether who was in the way has let go since the try, or another one at the object.
    fn has_let_go(&self, state: &State) -> bool {
        let Held::Remote(remote_state) = &state.held else { return false };
        remote_state.has_let_go(self.blocker, self.object, self.since)
    }
}

impl Waits {
    /// What it is among those that wait, at the call that was busy. It keeps its age.
    fn caller_at(&mut self, state: &mut State, obstacle: &Obstacle) -> Caller {
        let Obstacle { object, call, .. } = *obstacle;
        let known = self.caller.filter(|caller| (caller.object, caller.call) == (object, call));
        let caller = known.unwrap_or_else(|| match self.caller {
            Some(caller) => {
                state.leaves(caller.number);
                Caller { object, call, ..caller }
            }
            None => state.waiters.next_attempt(object, call),
        });
        self.caller = Some(caller);
        caller
    }

    fn leave(&mut self, state: &mut State) {
        if let Some(caller) = self.caller.take() {
            state.leaves(caller.number);
        }
    }
}

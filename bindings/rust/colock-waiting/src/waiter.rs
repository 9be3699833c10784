//! A call that waits.

use crate::asker::{Asker, Class, Number};

/// Behind whom a call is.
#[derive(Clone, Copy, Debug, PartialEq, Eq, PartialOrd, Ord)]
pub(crate) enum State {
    /// Behind nobody: the store is to be asked, or the call is to be made.
    Asking,
    /// Behind nobody: it is the victim of a circle, and its transaction is to end.
    Condemned,
    /// Behind a transaction that has done something that keeps it out.
    BehindStore(Number),
    /// By the gate, behind whoever is the oldest of a lane at the object.
    BehindLane(Class),
    /// By the gate, behind one that isn't the oldest of its lane.
    BehindMember(Number),
}

impl State {
    pub(crate) fn is_by_gate(self) -> bool {
        matches!(self, State::BehindLane(_) | State::BehindMember(_))
    }
}

#[derive(Clone, Copy, Debug)]
pub(crate) struct Waiter {
    pub(crate) asker: Asker,
    pub(crate) state: State,
    /// Whether the driver is to be told to ask for it.
    pub(crate) is_due: bool,
}

impl Waiter {
    pub(crate) fn new(asker: Asker) -> Waiter {
        Waiter { asker, state: State::Asking, is_due: false }
    }
}

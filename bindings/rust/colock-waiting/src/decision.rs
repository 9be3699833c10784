//! What the driver is to do.

use crate::asker::{Asker, Number};
use crate::onlookers::OnlookerId;

/// Something that the driver is to do. It has to know each of these, so that a match names them all.
#[derive(Clone, Copy, Debug, PartialEq, Eq)]
pub enum Decision {
    /// The store is to be asked what this call would be answered now. The answer is told by
    /// [`busy`](crate::Waiting::busy) or [`may_go`](crate::Waiting::may_go), or the call is made, and
    /// [`leave`](crate::Waiting::leave) is told.
    Ask(Asker),
    /// The waiter is to be woken, and makes its call.
    Wake(Number),
    /// The waiter is the victim of a circle: its transaction is to be aborted.
    Abort {
        /// The victim.
        number: Number,
        /// For whom it waited.
        waited_for: Number,
    },
    /// The waiter waits no more, for good.
    End {
        /// Its transaction.
        number: Number,
        /// Why.
        verdict: Verdict,
    },
    /// What was looked on for is there.
    OnlookerFree(OnlookerId),
}

/// Why a wait ends for good.
#[derive(Clone, Copy, Debug, PartialEq, Eq)]
pub enum Verdict {
    /// The transaction itself has ended.
    Gone,
    /// The transaction is one of an epoch that has ended.
    EpochEnded,
    /// The store is lost.
    Lost,
}

//! Calls that wait, and tries that are made again.

mod attempting;
pub(crate) mod calling;
pub(crate) mod retry;
mod room;
pub(crate) mod touched;
pub(crate) mod waiters;

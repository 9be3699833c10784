//! A store in memory, by the calls of the library.

mod attempts;
mod epoch;
pub(crate) mod handle;
pub(crate) mod keys;
pub(crate) mod reads;
mod renewals;
pub(crate) mod store;
pub(crate) mod transaction;

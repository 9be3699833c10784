//! A store in a file, behind the lines of a child process.

pub(crate) mod beginning;
pub(crate) mod child;
pub(crate) mod claims;
mod creating;
mod doing;
pub(crate) mod dropped;
pub(crate) mod ending;
pub(crate) mod extending;
mod flight;
mod gather;
mod identity;
pub(crate) mod opening;
pub(crate) mod past;
mod pipe;
mod prepared;
mod program;
mod reads;
pub(crate) mod remote;
pub(crate) mod request;
pub(crate) mod slot;

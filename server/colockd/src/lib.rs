//! The store of colock over HTTP.

#![forbid(unsafe_code)]
#![cfg_attr(test, allow(clippy::unwrap_used, clippy::expect_used, clippy::panic))]

pub mod data_folder;
pub mod engine;
pub mod http;
pub mod limits;
pub mod locks;
pub mod metrics;
pub mod names;
pub mod options;
pub mod places;
pub mod problem;
pub mod program;
pub mod recent;
pub mod running;
pub mod store;
pub mod tokens;

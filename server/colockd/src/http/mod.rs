//! Requests and answers.

pub mod action;
pub mod app;
pub mod attempts;
pub mod body;
pub mod connections;
pub mod decisions;
pub mod events;
pub mod handling;
pub mod objects;
pub mod origin;
pub mod page;
pub mod patient;
pub mod query;
pub mod replies;
pub mod request_id;
pub mod status;
pub mod tls;
pub mod transactions;
pub mod types;

//! How answers are written.

use crate::problem::{Problem, ProblemKind};
use hyper::body::Bytes;
use hyper::header::{HeaderValue, ALLOW, CACHE_CONTROL, CONTENT_TYPE, RETRY_AFTER, WWW_AUTHENTICATE};
use hyper::{Body, Response, StatusCode};
use serde::Serialize;
use serde_json::Value;
use std::cell::RefCell;

/// An answer with a body of a type.
pub fn text(status: StatusCode, kind: &'static str, body: impl Into<Body>) -> Response<Body> {
    let mut response = Response::new(body.into());
    *response.status_mut() = status;
    response.headers_mut().insert(CONTENT_TYPE, HeaderValue::from_static(kind));
    response.headers_mut().insert(CACHE_CONTROL, HeaderValue::from_static("no-store"));
    response
}

thread_local! {
    /// Where a thread writes its answers, one after the other: so each is as long as its own memory.
    static ROOM: RefCell<Vec<u8>> = const { RefCell::new(Vec::new()) };
}

/// How many bytes of room a thread keeps.
const KEPT: usize = 65_536;

/// An answer in JSON.
pub fn json(status: StatusCode, value: &impl Serialize) -> Response<Body> {
    match written(value) {
        Ok(body) => text(status, "application/json", body),
        Err(error) => problem(&Problem::new(ProblemKind::Internal, error)),
    }
}

fn written(value: &impl Serialize) -> serde_json::Result<Bytes> {
    ROOM.with_borrow_mut(|room| {
        room.clear();
        serde_json::to_writer(&mut *room, value)?;
        let body = Bytes::copy_from_slice(room);
        room.shrink_to(KEPT);
        Ok(body)
    })
}

/// It is done, and this came of it.
pub fn ok(value: &impl Serialize) -> Response<Body> {
    json(StatusCode::OK, value)
}

/// It isn't done.
pub fn problem(problem: &Problem) -> Response<Body> {
    let status = StatusCode::from_u16(problem.kind.status()).unwrap_or(StatusCode::INTERNAL_SERVER_ERROR);
    let members = Value::Object(problem.members());
    let allow = members.get("allow").and_then(Value::as_str).and_then(|allow| HeaderValue::from_str(allow).ok());
    let mut response = text(status, "application/problem+json", members.to_string());
    let headers = response.headers_mut();
    if let Some(allow) = allow {
        headers.insert(ALLOW, allow);
    }
    if let Some(seconds) = problem.kind.retry_after() {
        headers.insert(RETRY_AFTER, HeaderValue::from(seconds));
    }
    if problem.kind == ProblemKind::NoToken {
        headers.insert(WWW_AUTHENTICATE, HeaderValue::from_static("Bearer realm=\"colockd\""));
    }
    response
}

//! Whole transactions: one in a request, or a list of them.

use crate::http::app::App;
use crate::http::body::{self, parsed, seconds};
use crate::http::handling::{checked_key, key_in, Asked};
use crate::http::replies::ok;
use crate::limits::{LONGEST_WAIT, MOST_ATTEMPTS};
use crate::problem::{Problem, ProblemKind};
use crate::store::attempts::{Attempt, Replies};
use crate::store::calls::{resolved, CallAsked};
use futures_util::future::join_all;
use hyper::{Body, Response};
use serde::{Deserialize, Serialize};
use serde_json::{Map, Value};
use std::future::Future;
use std::time::Duration;

/// An attempt as it is asked for.
#[derive(Debug, Deserialize)]
#[serde(deny_unknown_fields)]
struct AttemptAsked<'a> {
    #[serde(borrow)]
    calls: Vec<CallAsked<'a>>,
    #[serde(default)]
    wait: f64,
    key: Option<String>,
}

/// What came of it.
#[derive(Debug, Serialize)]
struct Done {
    replies: Replies,
}

/// Does what a request asks for.
///
/// # Errors
///
/// A [`Problem`] where it isn't done.
pub fn attempt(app: &App, asked: Asked) -> impl Future<Output = Result<Response<Body>, Problem>> + Send + '_ {
    let (begins, key, body) = (app.begins(), key_in(&asked.headers), asked.body);
    async move {
        begins?;
        let key = key?;
        let bytes = body::read(body, &app.limits, &app.bodies).await?;
        if is_list(&bytes) {
            return Box::pin(list(app, parsed(&bytes)?, key.as_deref())).await;
        }
        let attempt = attempt_of(app, parsed(&bytes)?, key)?;
        let replies = app.store.attempt(attempt, Some(bytes.into_body())).await?;
        Ok(ok(&Done { replies }))
    }
}

fn is_list(bytes: &[u8]) -> bool {
    bytes.iter().find(|byte| !byte.is_ascii_whitespace()) == Some(&b'[')
}

/// What is asked for, with the key of the body or the header.
fn attempt_of(app: &App, asked: AttemptAsked<'_>, header: Option<String>) -> Result<Attempt, Problem> {
    let wait = seconds("wait", asked.wait, LONGEST_WAIT)?;
    let key = match (asked.key, header) {
        (Some(key), None) => Some(checked_key(&key)?),
        (Some(key), Some(header)) if key != header => {
            return Err(Problem::new(ProblemKind::BadHeader, "Idempotency-Key is another key than that of the body").with("header", "Idempotency-Key"));
        }
        (_, header) => header,
    };
    Ok(Attempt { calls: resolved(asked.calls, &app.store.objects)?, key, wait })
}

/// Does one of a list.
async fn one(app: &App, asked: AttemptAsked<'_>) -> Result<Done, Problem> {
    let replies = app.store.attempt(attempt_of(app, asked, None)?, None).await?;
    Ok(Done { replies })
}

/// Each of a list is done by itself, all at the same time; the answer is a list of what each would have been answered.
async fn list(app: &App, all: Vec<AttemptAsked<'_>>, header: Option<&str>) -> Result<Response<Body>, Problem> {
    if !(1..=MOST_ATTEMPTS).contains(&all.len()) {
        return Err(Problem::new(ProblemKind::LongList, format!("{} attempts, and 1 to {MOST_ATTEMPTS} may be there", all.len())).with("limit", MOST_ATTEMPTS));
    }
    if header.is_some() {
        return Err(Problem::new(ProblemKind::BadHeader, "of a list each has a `key` of its own").with("header", "Idempotency-Key"));
    }
    let answers = join_all(all.into_iter().map(|asked| one(app, asked))).await;
    Ok(ok(&answers.into_iter().map(member).collect::<Vec<_>>()))
}

/// What one of a list would have been answered, with its status.
fn member(answer: Result<Done, Problem>) -> Value {
    match answer {
        Ok(done) => {
            let mut members = Map::new();
            members.insert("status".to_string(), 200.into());
            members.insert("replies".to_string(), done.replies.words().collect());
            Value::Object(members)
        }
        Err(problem) => Value::Object(problem.members()),
    }
}

/// The wait of a request.
///
/// # Errors
///
/// A [`Problem`] where it is out of its range.
pub fn wait_of(wait: f64) -> Result<Duration, Problem> {
    seconds("wait", wait, LONGEST_WAIT)
}

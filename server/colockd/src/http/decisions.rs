//! Transactions that are held until somebody decides them.

use crate::http::app::App;
use crate::http::body::{parsed, seconds};
use crate::http::handling::{checked_key, key_in, Asked};
use crate::http::replies::ok;
use crate::http::transactions::open;
use crate::limits::HOLD;
use crate::names::TransactionName;
use crate::problem::{Problem, ProblemKind};
use crate::store::about::{Cause, Ending, Hold};
use crate::store::decisions::{second_after, second_now, KeyOutcome};
use crate::tokens::Right;
use hyper::{Body, Response};
use serde::Deserialize;
use serde_json::{json as value, Value};
use std::sync::Arc;

#[derive(Debug, Deserialize)]
#[serde(deny_unknown_fields)]
struct PrepareAsked {
    key: Option<String>,
    #[serde(rename = "for")]
    time: f64,
}

/// How a transaction is to end.
#[derive(Clone, Copy, Debug, Deserialize)]
#[serde(rename_all = "lowercase")]
enum Decision {
    Commit,
    Abort,
}

#[derive(Debug, Deserialize)]
#[serde(deny_unknown_fields)]
struct DecisionAsked {
    outcome: Decision,
}

/// Prepares a transaction: only a decision under its key ends it from then on.
///
/// # Errors
///
/// A [`Problem`] where it isn't prepared.
pub async fn prepare(app: &App, mut asked: Asked, name: TransactionName) -> Result<Response<Body>, Problem> {
    let open = open(app, &asked.caller, name)?;
    let _used = open.used();
    let header = key_in(&asked.headers)?;
    let wanted: PrepareAsked = parsed(&asked.bytes(app).await?)?;
    let key = match (wanted.key, header) {
        (Some(key), header) if header.as_ref().is_none_or(|header| *header == key) => checked_key(&key)?,
        (None, Some(header)) => header,
        (None, None) => return Err(Problem::new(ProblemKind::BadBody, "a key is needed")),
        (Some(_), _) => {
            return Err(Problem::new(ProblemKind::BadHeader, "Idempotency-Key is another key than that of the body").with("header", "Idempotency-Key"))
        }
    };
    let time = seconds("for", wanted.time, HOLD)?;
    let _turn = open.turn.lock().await;
    let hold = app.store.prepare(name, Hold { key: Arc::from(key), until: second_after(time) }).await?;
    Ok(ok(&held(name, &hold)))
}

fn held(name: TransactionName, hold: &Hold) -> Value {
    let left = hold.until.saturating_sub(second_now());
    value!({"id": name.to_string(), "state": "prepared", "key": &*hold.key, "until": hold.until, "left": left})
}

/// Decides the transaction of a key.
///
/// # Errors
///
/// A [`Problem`] where it isn't decided so.
pub async fn decide(app: &App, mut asked: Asked, key: &str) -> Result<Response<Body>, Problem> {
    if !asked.caller.may(Right::Admin) {
        app.allowed(&asked.caller, Right::Write)?;
    }
    let key = checked_key(key)?;
    let wanted: DecisionAsked = parsed(&asked.bytes(app).await?)?;
    let (ending, word) = match wanted.outcome {
        Decision::Commit => (Ending::Commit, "committed"),
        Decision::Abort => (Ending::Abort(Cause::Decided), "aborted"),
    };
    app.store.decide(&Arc::from(key.as_str()), ending).await?;
    Ok(ok(&value!({"key": key, "outcome": word})))
}

/// What became of the transaction of a key.
///
/// # Errors
///
/// A [`Problem`] where nobody has the key.
pub async fn get(app: &App, key: &str) -> Result<Response<Body>, Problem> {
    let key = checked_key(key)?;
    let Some(outcome) = app.store.outcome(&key).await? else {
        return Err(Problem::from(ProblemKind::NoKey).with("key", key));
    };
    let mut told = value!({"key": key, "outcome": outcome.word()});
    match outcome {
        KeyOutcome::Committed(replies) => told["replies"] = replies.into(),
        KeyOutcome::Prepared => {
            let listed = app.store.prepared().await?;
            if let Some((name, hold)) = listed.iter().find(|(_, hold)| *hold.key == *key) {
                told["transaction"] = name.to_string().into();
                told["until"] = hold.until.into();
            }
        }
        KeyOutcome::Aborted => {}
    }
    Ok(ok(&told))
}

/// All that are prepared, in the order in which they were.
///
/// # Errors
///
/// A [`Problem`] where the store is away.
pub async fn list(app: &App) -> Result<Response<Body>, Problem> {
    let listed = app.store.prepared().await?;
    Ok(ok(&value!({ "prepared": listed.iter().map(|(name, hold)| held(*name, hold)).collect::<Vec<_>>() })))
}

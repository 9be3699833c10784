//! Open transactions.

use crate::http::app::App;
use crate::http::attempts::wait_of;
use crate::http::body::{parsed, parsed_or_default, seconds};
use crate::http::handling::{key_in, Asked};
use crate::http::replies::{json, ok};
use crate::limits::IDLE;
use crate::names::TransactionName;
use crate::problem::{Problem, ProblemKind};
use crate::store::about::{Beginning, Cause};
use crate::store::calls::{resolved, CallAsked};
use crate::store::decisions::second_now;
use crate::store::open::{Ended, Known, OpenTransaction, Standing};
use crate::store::Store;
use crate::tokens::{Caller, Right};
use colock_waiting::Number;
use hyper::header::{HeaderValue, LOCATION};
use hyper::{Body, Response, StatusCode};
use serde::Deserialize;
use serde_json::{json as value, Value};
use std::sync::Arc;
use tokio::time::Instant;

#[derive(Debug, Default, Deserialize)]
#[serde(deny_unknown_fields)]
struct BeginAsked {
    idle: Option<f64>,
}

#[derive(Debug, Deserialize)]
#[serde(deny_unknown_fields)]
struct CallsAsked<'a> {
    #[serde(borrow)]
    calls: Vec<CallAsked<'a>>,
    #[serde(default)]
    wait: f64,
}

#[derive(Debug, Deserialize)]
#[serde(deny_unknown_fields)]
struct RollbackAsked {
    count: u32,
}

/// Begins one.
///
/// # Errors
///
/// A [`Problem`] where it doesn't begin.
pub async fn begin(app: &App, mut asked: Asked) -> Result<Response<Body>, Problem> {
    app.begins()?;
    let wanted: BeginAsked = parsed_or_default(&asked.bytes(app).await?)?;
    let idle = wanted.idle.map_or(Ok(IDLE.0), |idle| seconds("idle", idle, IDLE.1))?;
    let (owner, most): (Arc<str>, _) = (Arc::from(asked.caller.name()), app.limits.open_of_token);
    if app.store.observer.open.count_of(&owner) >= most {
        return Err(Problem::from(ProblemKind::TooManyOfToken).with("limit", most));
    }
    let name = app.store.begin(Beginning { owner, idle }).await?;
    let mut response = json(StatusCode::CREATED, &value!({"id": name.to_string(), "idle": idle.as_secs_f64()}));
    if let Ok(location) = HeaderValue::from_str(&format!("/v1/transactions/{name}")) {
        response.headers_mut().insert(LOCATION, location);
    }
    Ok(response)
}

/// What a caller may do with a transaction.
fn known(app: &App, caller: &Caller, name: TransactionName) -> Result<Known, Problem> {
    let known = app.store.observer.open.known(name).ok_or_else(|| Problem::new(ProblemKind::NoTransaction, format!("there is no transaction {name}")))?;
    let owner = match &known {
        Known::Open(open) => &open.owner,
        Known::Ended(ended) => &ended.owner,
    };
    if **owner == *caller.name() || caller.may(Right::Admin) {
        return Ok(known);
    }
    Err(Problem::new(ProblemKind::NoRight, format!("transaction {name} is another token's")).with("right", Right::Admin.word()))
}

/// An open transaction of a caller.
///
/// # Errors
///
/// A [`Problem`] where there is none, or it has ended.
pub fn open(app: &App, caller: &Caller, name: TransactionName) -> Result<Arc<OpenTransaction>, Problem> {
    match known(app, caller, name)? {
        Known::Open(open) => Ok(open),
        Known::Ended(_) => Err(app.store.ended(name)),
    }
}

/// Makes calls, one after the other, up to the first that isn't done.
///
/// # Errors
///
/// A [`Problem`] where one isn't done, with the replies of those before it.
pub async fn call(app: &App, mut asked: Asked, name: TransactionName) -> Result<Response<Body>, Problem> {
    let open = open(app, &asked.caller, name)?;
    let _used = open.used();
    let bytes = asked.bytes(app).await?;
    let wanted: CallsAsked<'_> = parsed(&bytes)?;
    let deadline = Instant::now() + wait_of(wanted.wait)?;
    let calls = resolved(wanted.calls, &app.store.objects)?;
    drop(bytes);
    let _turn = open.turn.lock().await;
    let mut replies: Vec<String> = Vec::with_capacity(calls.len());
    for (place, call) in calls.iter().enumerate() {
        match app.store.call(&open, call, place, deadline).await {
            Ok(reply) => replies.push(reply),
            Err(problem) => return Err(problem.with("replies", replies)),
        }
    }
    Ok(ok(&value!({ "replies": replies })))
}

/// Takes operations back.
///
/// # Errors
///
/// A [`Problem`] where it isn't done.
pub async fn rollback(app: &App, mut asked: Asked, name: TransactionName) -> Result<Response<Body>, Problem> {
    let open = open(app, &asked.caller, name)?;
    let _used = open.used();
    let wanted: RollbackAsked = parsed(&asked.bytes(app).await?)?;
    let _turn = open.turn.lock().await;
    app.store.rollback(name, wanted.count).await?;
    Ok(ok(&value!({"id": name.to_string(), "state": "open"})))
}

/// Commits.
///
/// # Errors
///
/// A [`Problem`] where it doesn't commit.
pub async fn commit(app: &App, asked: &Asked, name: TransactionName) -> Result<Response<Body>, Problem> {
    let key = key_in(&asked.headers)?;
    let committed = || ok(&value!({"id": name.to_string(), "state": "committed"}));
    let open = match known(app, &asked.caller, name) {
        Ok(Known::Open(open)) => open,
        Ok(Known::Ended(ended)) if ended.standing == Standing::Committed => return Ok(committed()),
        Ok(Known::Ended(ended)) if ended.standing == Standing::Unknown && key.is_none() => return Err(ProblemKind::OutcomeUnknown.into()),
        known => {
            let problem = known.map_or_else(|problem| problem, |_| app.store.ended(name));
            return match key {
                // where it is long gone, its key may know it
                Some(key) if problem.kind != ProblemKind::NoRight => Box::pin(app.store.committed_under(name, &key)).await.map(|()| committed()),
                _ => Err(problem),
            };
        }
    };
    let _used = open.used();
    let _turn = open.turn.lock().await;
    app.store.commit(name, key.as_deref()).await?;
    Ok(committed())
}

/// Aborts.
///
/// # Errors
///
/// A [`Problem`] where it committed before.
pub async fn abort(app: &App, asked: &Asked, name: TransactionName) -> Result<Response<Body>, Problem> {
    let aborted = || ok(&value!({"id": name.to_string(), "state": "aborted"}));
    let open = match known(app, &asked.caller, name)? {
        Known::Open(open) => open,
        Known::Ended(Ended { standing: Standing::Aborted(_), .. }) => return Ok(aborted()),
        Known::Ended(_) => return Err(app.store.ended(name)),
    };
    let is_own = *open.owner == *asked.caller.name();
    if is_own && !asked.caller.may(Right::Admin) {
        app.allowed(&asked.caller, Right::Write)?;
    }
    let cause = if is_own { Cause::Asked } else { Cause::Admin };
    app.store.abort(name, cause).await?;
    Ok(aborted())
}

/// Those that are open; of a caller without the right `admin` its own.
pub fn list(app: &App, asked: &Asked) -> Response<Body> {
    let all = app.store.observer.open.all();
    let seen = all.iter().filter(|open| *open.owner == *asked.caller.name() || asked.caller.may(Right::Admin));
    ok(&value!({ "transactions": seen.map(|open| shown(&app.store, open)).collect::<Vec<_>>() }))
}

/// One of them.
///
/// # Errors
///
/// A [`Problem`] where there is none.
pub fn get(app: &App, asked: &Asked, name: TransactionName) -> Result<Response<Body>, Problem> {
    Ok(match known(app, &asked.caller, name)? {
        Known::Open(open) => ok(&shown(&app.store, &open)),
        Known::Ended(ended) => ok(&match ended.standing {
            Standing::Committed => value!({"id": name.to_string(), "state": "committed", "owner": &*ended.owner}),
            Standing::Aborted(cause) => value!({"id": name.to_string(), "state": "aborted", "cause": cause.word(), "owner": &*ended.owner}),
            Standing::Unknown => value!({"id": name.to_string(), "state": "unknown", "owner": &*ended.owner}),
        }),
    })
}

/// How an open transaction is shown.
pub fn shown(store: &Store, open: &OpenTransaction) -> Value {
    let (operations, held) = open.held();
    let held = held.iter().map(|held| {
        let entry = store.objects.get(held.object.0);
        let call = entry.as_ref().and_then(|entry| entry.of.words(usize::from(held.class), None)).map_or_else(String::new, |words| words.call);
        value!({"object": entry.map_or_else(|| format!("#{}", held.object.0), |entry| entry.label()), "call": call, "reply": held.reply})
    });
    let waits_for = store.observer.waits.edge(Number(open.name.packed())).map(|edge| TransactionName::unpacked(edge.to.0).to_string());
    let hold = open.hold();
    value!({
        "id": open.name.to_string(),
        "state": if hold.is_some() { "prepared" } else { "open" },
        "key": hold.as_ref().map(|hold| &*hold.key),
        "until": hold.as_ref().map(|hold| hold.until),
        "left": hold.as_ref().map(|hold| hold.until.saturating_sub(second_now())),
        "owner": Some(&*open.owner).filter(|owner| !owner.is_empty()),
        "age": open.begun.elapsed().as_secs_f64(),
        "idle": open.idle.as_secs_f64(),
        "idle_for": open.idle_for().as_secs_f64(),
        "operations": operations,
        "held": held.collect::<Vec<_>>(),
        "waits_for": waits_for,
    })
}

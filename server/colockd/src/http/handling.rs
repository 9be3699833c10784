//! One request: who asks, what for, and what is answered.

use crate::http::action::Action;
use crate::http::app::App;
use crate::http::body::Bytes;
use crate::http::origin::is_own;
use crate::http::request_id::RequestId;
use crate::http::{attempts, body, decisions, events, objects, page, replies, status, transactions, types};
use crate::limits::LONGEST_PATH;
use crate::problem::{Problem, ProblemKind};
use crate::tokens::Caller;
use hyper::header::{HeaderMap, HeaderName};
use hyper::{Body, Request, Response, StatusCode};
use std::future::Future;
use std::net::SocketAddr;
use std::sync::Arc;
use std::time::{Duration, Instant};

static REQUEST_ID: HeaderName = HeaderName::from_static("x-request-id");

static IDEMPOTENCY_KEY: HeaderName = HeaderName::from_static("idempotency-key");

/// A connection, for its requests. Each of them has a part in it, and none in what all connections share.
#[derive(Debug)]
pub struct Connection {
    /// What all share.
    pub app: Arc<App>,
    /// The other side.
    pub peer: SocketAddr,
}

/// What an answer is found by.
pub struct Asked {
    /// What is asked for.
    pub action: Action,
    /// Who asks.
    pub caller: Caller,
    /// The query.
    pub query: Option<String>,
    /// The headers.
    pub headers: HeaderMap,
    /// The body.
    pub body: Body,
}

impl Asked {
    /// The bytes of the body.
    ///
    /// # Errors
    ///
    /// A [`Problem`] where it can't be had.
    pub async fn bytes(&mut self, app: &App) -> Result<Bytes, Problem> {
        body::read(std::mem::take(&mut self.body), &app.limits, &app.bodies).await
    }
}

/// Answers a request. What is asked is found out at once: the future is moved, and has only what it needs.
pub fn handle(connection: Arc<Connection>, request: Request<Body>) -> impl Future<Output = Response<Body>> + Send {
    let (start, number) = (Instant::now(), connection.app.next_number());
    let found = Action::of(request.method(), request.uri().path());
    let label = found.as_ref().map_or("none", Action::label);
    let asked = found.and_then(|action| allowed(&connection, action, request, number));
    async move {
        let app = &connection.app;
        let _counted = app.metrics.counts_request();
        let answered = match asked {
            Ok(asked) => dispatch(app, asked).await,
            Err(problem) => Err(problem),
        };
        let mut response = answered.unwrap_or_else(|problem| replies::problem(&problem));
        note(app, app.id(number), label, response.status(), start.elapsed());
        if let Some(id) = app.id(number).value() {
            response.headers_mut().insert(&REQUEST_ID, id);
        }
        response
    }
}

/// Counts a request that was answered, and logs it.
fn note(app: &App, id: RequestId<'_>, label: &'static str, status: StatusCode, took: Duration) {
    let seconds = took.as_secs_f64();
    app.metrics.answered_request(label, status.as_str(), seconds);
    if matches!(label, "attempts" | "commit") && took >= app.slow {
        tracing::warn!(%id, route = label, status = status.as_u16(), seconds, "a slow commit");
    }
    tracing::debug!(%id, route = label, status = status.as_u16(), seconds, "answered");
}

/// What is asked, where it may be.
fn allowed(Connection { app, peer }: &Connection, action: Action, request: Request<Body>, number: u64) -> Result<Asked, Problem> {
    if request.uri().path_and_query().map_or(0, |path| path.as_str().len()) > LONGEST_PATH {
        return Err(ProblemKind::LongPath.into());
    }
    let caller = known(app, &action, &request);
    if let Err(problem) = &caller {
        app.metrics.refused_tokens.inc();
        tracing::warn!(id = %app.id(number), %peer, route = action.label(), problem = problem.kind.name(), caller = caller_name(app, request.headers()), "refused");
    }
    let caller = caller?;
    let (parts, body) = request.into_parts();
    let query = parts.uri.query().map(str::to_string);
    Ok(Asked { action, caller, query, headers: parts.headers, body })
}

/// Who asks, where it may.
fn known(app: &App, action: &Action, request: &Request<Body>) -> Result<Caller, Problem> {
    if !action.is_guarded() {
        return Ok(Caller::anyone());
    }
    is_own(request.uri(), request.headers(), app.is_loopback_alone())?;
    let caller = app.caller(request.headers())?;
    if let Some(right) = action.right() {
        app.allowed(&caller, right)?;
    }
    Ok(caller)
}

fn caller_name(app: &App, headers: &HeaderMap) -> String {
    app.caller(headers).map_or_else(|_| "unknown".to_string(), |caller| caller.name().to_string())
}

/// Answers where there is a place. Those that are asked most often are answered here. The futures of the others are boxed: each
/// request would move the largest.
async fn dispatch(app: &Arc<App>, asked: Asked) -> Result<Response<Body>, Problem> {
    let _place = match asked.action {
        Action::Healthz | Action::Events => None,
        _ => Some(app.admitted()?),
    };
    match asked.action {
        Action::Attempt => attempts::attempt(app, asked).await,
        Action::Begin => transactions::begin(app, asked).await,
        Action::Call(name) => transactions::call(app, asked, name).await,
        Action::Commit(name) => transactions::commit(app, &asked, name).await,
        _ => Box::pin(rarely(app, asked)).await,
    }
}

async fn rarely(app: &Arc<App>, asked: Asked) -> Result<Response<Body>, Problem> {
    match asked.action.clone() {
        Action::Page => Ok(page::page()),
        Action::Script => Ok(page::script()),
        Action::Style => Ok(page::style()),
        Action::Healthz => Ok(status::healthz()),
        Action::Readyz => status::readyz(app).await,
        Action::Metrics => status::metrics(app).await,
        Action::OpenApi => Ok(status::openapi()),
        Action::Explain(name) => status::explain(&name),
        Action::Status => status::status(app).await,
        Action::ListTypes => Ok(types::list(app)),
        Action::GetType(name) => types::get(app, &asked, &name).await,
        Action::PutType(name) => types::put(app, asked, &name).await,
        Action::ListObjects => objects::list(app, &asked),
        Action::AddObjects => objects::add(app, asked).await,
        Action::GetObject(name) => objects::get(app, &name).await,
        Action::PutObject(name) => objects::put(app, asked, name).await,
        Action::Snapshot => objects::snapshot(app, &asked).await,
        Action::ListTransactions => Ok(transactions::list(app, &asked)),
        Action::GetTransaction(name) => transactions::get(app, &asked, name),
        Action::Rollback(name) => transactions::rollback(app, asked, name).await,
        Action::Abort(name) => transactions::abort(app, &asked, name).await,
        Action::Prepare(name) => decisions::prepare(app, asked, name).await,
        Action::Decide(key) => decisions::decide(app, asked, &key).await,
        Action::GetDecision(key) => decisions::get(app, &key).await,
        Action::ListPrepared => decisions::list(app).await,
        Action::Events => events::follow(app, &asked).await,
        Action::Attempt | Action::Begin | Action::Call(_) | Action::Commit(_) => Err(ProblemKind::Internal.into()),
    }
}

/// The key in the header `Idempotency-Key`, if there is one.
///
/// # Errors
///
/// A [`Problem`] where it isn't a key.
pub fn key_in(headers: &HeaderMap) -> Result<Option<String>, Problem> {
    let mut all = headers.get_all(&IDEMPOTENCY_KEY).iter();
    let Some(value) = all.next() else { return Ok(None) };
    if all.next().is_some() {
        return Err(Problem::new(ProblemKind::BadHeader, "Idempotency-Key is there twice").with("header", "Idempotency-Key"));
    }
    let word = value.to_str().unwrap_or("").trim();
    // the header's draft has a text in quotes
    let word = word.strip_prefix('"').and_then(|word| word.strip_suffix('"')).unwrap_or(word);
    checked_key(word).map(Some)
}

/// A key.
///
/// # Errors
///
/// A [`Problem`] where it isn't one.
pub fn checked_key(word: &str) -> Result<String, Problem> {
    if crate::names::is_key(word) {
        return Ok(word.to_string());
    }
    let shown = crate::store::calls::shown(word);
    Err(Problem::new(ProblemKind::BadName, format!("{shown:?} isn't a key: 1 to 64 of a-z A-Z 0-9 _ : - .")))
}

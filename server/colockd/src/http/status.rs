//! How the server is: for machines, and for the page.

use crate::http::app::App;
use crate::http::replies::{ok, text};
use crate::http::transactions::shown;
use crate::metrics::{clipped, HOTTEST};
use crate::names::TransactionName;
use crate::problem::{Problem, ProblemKind};
use colock_waiting::ObjectIndex;
use hyper::{Body, Response, StatusCode};
use serde_json::json as value;

/// The most who wait at an object that are shown.
const MOST_SHOWN: usize = 16;

const OPENAPI: &str = include_str!("../../page/openapi.json");

/// The server is alive.
pub fn healthz() -> Response<Body> {
    text(StatusCode::OK, "text/plain; charset=utf-8", "ok\n")
}

/// Whether the store commits.
///
/// # Errors
///
/// A [`Problem`] where it doesn't.
pub async fn readyz(app: &App) -> Result<Response<Body>, Problem> {
    app.ready().await?;
    Ok(text(StatusCode::OK, "text/plain; charset=utf-8", "ready\n"))
}

/// The description of all routes.
pub fn openapi() -> Response<Body> {
    text(StatusCode::OK, "application/json", OPENAPI)
}

/// What a kind of problem is.
///
/// # Errors
///
/// A [`Problem`] where there is no such kind.
pub fn explain(name: &str) -> Result<Response<Body>, Problem> {
    let kind = ProblemKind::named(name).ok_or_else(|| Problem::new(ProblemKind::NoRoute, "there is no such problem"))?;
    let words = format!("{}, status {}\n\n{}.\n{}\n", kind.name(), kind.status(), kind.title(), kind.advice());
    Ok(text(StatusCode::OK, "text/plain; charset=utf-8", words))
}

/// What is counted.
///
/// # Errors
///
/// A [`Problem`] where it can't be written.
pub async fn metrics(app: &App) -> Result<Response<Body>, Problem> {
    let (metrics, observer) = (&app.metrics, &app.store.observer);
    let open = observer.open.all();
    metrics.open.set(clipped(open.len() as u64));
    metrics.prepared.set(clipped(observer.open.holds().len() as u64));
    metrics.oldest_open_seconds.set(open.first().map_or(0, |open| clipped(open.begun.elapsed().as_secs())));
    let counts = observer.waits.counts();
    metrics.waiting.set(clipped(counts.waiting as u64));
    metrics.deadlocks.set(clipped(counts.deadlocks));
    metrics.objects.set(clipped(app.store.objects.len() as u64));
    if let Some(events) = app.store.event_count().await {
        metrics.epoch_events.set(i64::from(events));
    }
    let label = |number| app.store.objects.get(number).map_or_else(|| format!("#{number}"), |object| object.label());
    let written = metrics.text(label).map_err(|error| Problem::new(ProblemKind::Internal, error))?;
    Ok(text(StatusCode::OK, "text/plain; version=0.0.4; charset=utf-8", written))
}

/// What the page shows.
///
/// # Errors
///
/// A [`Problem`] where the store is away.
pub async fn status(app: &App) -> Result<Response<Body>, Problem> {
    let observer = &app.store.observer;
    let recent = app.metrics.recent.summary();
    let open: Vec<_> = observer.open.all().iter().map(|open| shown(&app.store, open)).collect();
    let hottest = app.metrics.hottest();
    let hot = hottest.iter().take(HOTTEST).map(|(number, busy)| {
        let label = app.store.objects.get(*number).map_or_else(|| format!("#{number}"), |object| object.label());
        let waiting = observer.waits.at(ObjectIndex(*number), MOST_SHOWN);
        let named = |name: Option<TransactionName>| name.map(|name| name.to_string());
        let waiting = waiting.iter().map(|one| value!({"transaction": named(one.transaction), "waits_for": named(one.waits_for)}));
        value!({"object": label, "busy": busy, "waiting": waiting.collect::<Vec<_>>()})
    });
    let counts = observer.waits.counts();
    Ok(ok(&value!({
        "life": observer.life(),
        "objects": app.store.objects.len(),
        "epoch_events": app.store.event_count().await,
        "draining": app.is_draining(),
        "commits": {"total": app.metrics.commits.get(), "seconds": recent.commits, "p50_ms": recent.p50, "p99_ms": recent.p99},
        "waiting": counts.waiting,
        "deadlocks": counts.deadlocks,
        "hot": hot.collect::<Vec<_>>(),
        "open": open,
    })))
}

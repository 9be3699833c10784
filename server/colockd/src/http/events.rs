//! What happened, from some event on and live: as lines of JSON, or as events that a server sends.

use crate::http::app::App;
use crate::http::handling::Asked;
use crate::http::query::{bad, Query};
use crate::http::replies::text;
use crate::names::TransactionName;
use crate::problem::{Problem, ProblemKind};
use crate::store::calls::{object_of, ObjectAsked};
use crate::store::feed::{Batch, Cursor};
use crate::store::objects::SharedObjects;
use hyper::body::Sender;
use hyper::header::{HeaderMap, ACCEPT};
use hyper::{Body, Response, StatusCode};
use serde_json::{json as value, Value};
use std::fmt::Write;
use std::sync::Arc;
use std::time::Duration;
use tokio::sync::OwnedSemaphorePermit;
use tokio::time::{sleep, timeout, Instant};

/// How often it is looked for new events.
const BETWEEN_LOOKS: Duration = Duration::from_millis(50);

/// How often one who follows is told that nothing happened.
const BETWEEN_SIGNS: Duration = Duration::from_secs(15);

/// The most of the last events that may be asked for.
const MOST_LAST: u32 = 65_536;

/// How events are written.
#[derive(Clone, Copy, Debug, PartialEq, Eq)]
enum Form {
    /// A line of JSON each.
    Lines,
    /// As a server sends events.
    Sent,
}

/// One who follows.
struct Follower {
    app: Arc<App>,
    cursor: Cursor,
    form: Form,
    /// The object whose events are wanted alone.
    object: Option<u32>,
    goes_on: bool,
    sender: Sender,
    _place: OwnedSemaphorePermit,
}

/// Answers what happened.
///
/// # Errors
///
/// A [`Problem`] where it can't be told.
pub async fn follow(app: &Arc<App>, asked: &Asked) -> Result<Response<Body>, Problem> {
    let query = Query::of(asked.query.as_deref(), &["from", "last", "object", "follow"])?;
    let form = form_of(&asked.headers);
    let goes_on = query.read("follow")?.unwrap_or(true);
    let object = query.one("object")?.map(|name| object_of(&ObjectAsked::Name(name.into()), &app.store.objects)).transpose()?;
    let place = app.follows()?;
    let mut cursor = start(app, &query, &asked.headers).await?;
    // what is wrong with the beginning is answered by a status
    let seen = app.store.observer.happened();
    let first = app.store.events(&mut cursor).await?;
    let (sender, body) = Body::channel();
    let follower = Follower { app: Arc::clone(app), cursor, form, object: object.map(|object| object.number), goes_on, sender, _place: place };
    tokio::spawn(follower.run(first, seen));
    let kind = match form {
        Form::Lines => "application/x-ndjson",
        Form::Sent => "text/event-stream",
    };
    Ok(text(StatusCode::OK, kind, body))
}

fn form_of(headers: &HeaderMap) -> Form {
    match headers.get(ACCEPT).and_then(|accept| accept.to_str().ok()) {
        Some(accept) if accept.contains("text/event-stream") => Form::Sent,
        _ => Form::Lines,
    }
}

/// Where somebody begins: behind the last event that it had, at one that it names, so many before the end, or at the end.
async fn start(app: &App, query: &Query, headers: &HeaderMap) -> Result<Cursor, Problem> {
    let last_had = headers.get("last-event-id").and_then(|id| id.to_str().ok()).and_then(|id| id.parse::<TransactionName>().ok());
    if let Some(TransactionName { life, number }) = last_had {
        return checked(app, life, number.saturating_add(1)).await;
    }
    match (query.one("from")?, query.read("last")?) {
        (Some(_), Some(_)) => Err(bad("last", "it doesn't go with `from`")),
        (Some(from), None) => {
            let from: TransactionName = from.parse().map_err(|_| bad("from", "it is LIFE.N"))?;
            checked(app, from.life, from.number).await
        }
        (None, Some(last)) if last > MOST_LAST => Err(bad("last", &format!("it is at most {MOST_LAST}"))),
        (None, last) => app.store.end_of_events(last.unwrap_or(0)).await,
    }
}

async fn checked(app: &App, life: u32, position: u32) -> Result<Cursor, Problem> {
    if life <= app.store.archive.gone() {
        let first = app.store.archive.gone() + 1;
        return Err(Problem::new(ProblemKind::EventsGone, format!("events of lives before {first} aren't kept")).with("first", format!("{first}.0")));
    }
    let end = app.store.end_of_events(0).await?;
    let (now, count) = end.place();
    if life > now || life == now && position > count {
        return Err(Problem::new(ProblemKind::OutOfRange, format!("the next event is {now}.{count}")).with("next", format!("{now}.{count}")));
    }
    Ok(Cursor::at(life, position))
}

impl Follower {
    /// Sends what happened, from a first batch on; before it was read, so much had happened.
    async fn run(mut self, first: Batch, mut seen: u64) {
        let mut batch = first;
        let mut sign = Instant::now();
        loop {
            if batch.lines.is_empty() {
                if !self.goes_on || self.app.is_closing() {
                    return;
                }
                if !self.rest(seen, &mut sign).await {
                    return;
                }
            } else if !self.sends(written(&batch, self.form, self.object, &self.app.store.objects)).await {
                return;
            }
            // what happens from here on is looked for again
            seen = self.app.store.observer.happened();
            let Some(next) = self.next().await else {
                // without an end of the body the other side knows that it misses something
                self.sender.abort();
                return;
            };
            batch = next;
        }
    }

    /// The next events, also where the store is being started; nothing where there are none to be had.
    async fn next(&mut self) -> Option<Batch> {
        loop {
            match self.app.store.events(&mut self.cursor).await {
                Ok(batch) => return Some(batch),
                Err(problem) if problem.kind == ProblemKind::StoreAway && !self.app.is_closing() => sleep(BETWEEN_LOOKS).await,
                Err(_) => return None,
            }
        }
    }

    /// Waits until something may have happened; whether the other side is still there.
    async fn rest(&mut self, seen: u64, sign: &mut Instant) -> bool {
        loop {
            sleep(BETWEEN_LOOKS).await;
            if sign.elapsed() >= BETWEEN_SIGNS {
                *sign = Instant::now();
                let words = if self.form == Form::Sent { ": nothing\n\n" } else { "\n" };
                if !self.sends(words.to_string()).await {
                    return false;
                }
            }
            if self.app.store.observer.happened() != seen || self.app.is_closing() {
                return true;
            }
        }
    }

    /// Sends something; whether the other side takes it in time.
    async fn sends(&mut self, words: String) -> bool {
        if words.is_empty() {
            return true;
        }
        matches!(timeout(self.app.limits.patience, self.sender.send_data(words.into())).await, Ok(Ok(())))
    }
}

/// The text of events.
fn written(batch: &Batch, form: Form, object: Option<u32>, objects: &SharedObjects) -> String {
    let mut text = String::with_capacity(batch.lines.len() * 96);
    for (line, position) in batch.lines.iter().zip(batch.first..) {
        let Some((event, at)) = event(line, objects) else { continue };
        if object.is_some() && at != object {
            continue;
        }
        let id = format!("{}.{position}", batch.life);
        let mut event = event;
        event["at"] = id.as_str().into();
        // a string takes all that is written to it
        let _ = match form {
            Form::Lines => writeln!(text, "{event}"),
            Form::Sent => write!(text, "id: {id}\ndata: {event}\n\n"),
        };
    }
    text
}

/// The event of a line, and the object at which it was.
fn event(line: &str, objects: &SharedObjects) -> Option<(Value, Option<u32>)> {
    let mut words = line.split(' ');
    let kind = words.next()?;
    let numbers = words.skip(1).map(|word| word.parse::<u32>().ok()).collect::<Option<Vec<_>>>()?;
    let at = |x: u32, k: u32, amount| {
        let entry = objects.get(x);
        let words = entry.as_ref().and_then(|entry| entry.of.words(k as usize, amount));
        (entry.map_or_else(|| format!("#{x}"), |entry| entry.label()), words)
    };
    Some(match (kind, numbers.as_slice()) {
        ("begin" | "commit" | "abort", [t]) => (value!({"event": kind, "transaction": t}), None),
        ("rollback", [t, count]) => (value!({"event": kind, "transaction": t, "count": count}), None),
        ("op", [t, x, k, amount @ ..]) => {
            let (object, words) = at(*x, *k, amount.first().copied());
            let (call, reply) = words.map_or((None, None), |words| (Some(words.call), Some(words.reply)));
            (value!({"event": kind, "transaction": t, "object": object, "call": call, "reply": reply}), Some(*x))
        }
        ("busy", [t, x, k, blocker]) => {
            let (object, words) = at(*x, *k, None);
            (value!({"event": kind, "transaction": t, "object": object, "call": words.map(|words| words.call), "blocker": blocker}), Some(*x))
        }
        ("none", [t, x, k]) => {
            let (object, words) = at(*x, *k, None);
            (value!({"event": kind, "transaction": t, "object": object, "call": words.map(|words| words.call)}), Some(*x))
        }
        _ => return None,
    })
}

#[cfg(test)]
mod tests {
    use super::{written, Form};
    use crate::store::feed::Batch;
    use crate::store::objects::{listed, listed_types, SharedObjects};

    fn objects() -> SharedObjects {
        let objects = SharedObjects::default();
        let types = listed_types("type t\nop hold ok\nop hold no\nend\n\nnumber n\nmax 9\ninitial 0\ntake any\nend\n\n");
        objects.replace(listed("object undo 0 a\nobject escrow 1 b\n", &types).unwrap());
        objects
    }

    fn batch() -> Batch {
        let lines = ["begin 0 3", "op 0 3 0 1", "op 0 3 1 0 17", "busy 0 4 0 0 3", "none 0 4 1 0", "rollback 0 3 1", "commit 0 3"];
        Batch { life: 4, first: 7, lines: lines.map(str::to_string).to_vec() }
    }

    #[test]
    fn events_are_lines_of_json() {
        let text = written(&batch(), Form::Lines, None, &objects());
        let events: Vec<serde_json::Value> = text.lines().map(|line| serde_json::from_str(line).unwrap()).collect();
        assert_eq!((events.len(), &events[0]["at"], &events[1]["reply"], &events[2]["call"]), (7, &"4.7".into(), &"no".into(), &"take:17".into()));
        assert_eq!(
            (&events[3]["blocker"], &events[4]["object"], &events[5]["count"], &events[6]["event"]),
            (&3.into(), &"b".into(), &1.into(), &"commit".into())
        );
    }

    #[test]
    fn events_of_one_object_are_sent_with_their_ids() {
        let text = written(&batch(), Form::Sent, Some(1), &objects());
        assert_eq!(text.matches("id: 4.").count(), 2);
        assert!(text.starts_with("id: 4.9\ndata: {") && text.ends_with("}\n\n"));
    }
}

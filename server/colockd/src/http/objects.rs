//! Objects and what is committed of them.

use crate::http::app::App;
use crate::http::body::parsed;
use crate::http::handling::Asked;
use crate::http::query::{bad, Query};
use crate::http::replies::{json, ok};
use crate::limits::{LARGEST_SNAPSHOT, LONGEST_PAGE, MOST_ADDED};
use crate::names::{is_name, is_object_name};
use crate::problem::{Problem, ProblemKind};
use crate::store::calls::{object_of, shown, ObjectAsked};
use crate::store::extending::NewObject;
use crate::store::objects::ObjectEntry;
use crate::store::opening::READY_OBJECT;
use crate::store::recovery::Recovery;
use hyper::{Body, Response, StatusCode};
use serde::Deserialize;
use serde_json::{json as value, Value};
use std::collections::HashSet;
use std::sync::Arc;

#[derive(Debug, Deserialize)]
#[serde(deny_unknown_fields)]
struct ObjectWanted {
    #[serde(rename = "type")]
    of: String,
    recovery: Recovery,
}

#[derive(Debug, Deserialize)]
#[serde(deny_unknown_fields)]
struct NamedWanted {
    name: String,
    #[serde(rename = "type")]
    of: String,
    recovery: Recovery,
}

#[derive(Debug, Deserialize)]
#[serde(deny_unknown_fields)]
struct ManyWanted {
    objects: Vec<NamedWanted>,
}

fn entry(object: &ObjectEntry) -> Value {
    value!({"name": object.name.as_deref(), "number": object.number, "type": object.of.name(), "recovery": object.recovery.word()})
}

/// Some objects, by prefix and page.
///
/// # Errors
///
/// A [`Problem`] where the query can't be read.
pub fn list(app: &App, asked: &Asked) -> Result<Response<Body>, Problem> {
    let query = Query::of(asked.query.as_deref(), &["prefix", "after", "limit"])?;
    let limit = limit_of(&query)?;
    let mut page = app.store.objects.page(query.one("prefix")?.unwrap_or(""), query.one("after")?, limit + 2);
    page.retain(|object| object.name.as_deref() != Some(READY_OBJECT));
    let is_more = page.len() > limit;
    page.truncate(limit);
    let next = page.last().filter(|_| is_more).and_then(|object| object.name.as_deref()).map(str::to_string);
    Ok(ok(&value!({"objects": page.iter().map(|object| entry(object)).collect::<Vec<_>>(), "next": next})))
}

fn limit_of(query: &Query) -> Result<usize, Problem> {
    match query.read("limit")?.unwrap_or(LONGEST_PAGE) {
        limit @ 1..=LONGEST_PAGE => Ok(limit),
        _ => Err(bad("limit", &format!("it is 1 to {LONGEST_PAGE}"))),
    }
}

/// An object with its committed state.
///
/// # Errors
///
/// A [`Problem`] where there is none.
pub async fn get(app: &App, name: &str) -> Result<Response<Body>, Problem> {
    let object = object_of(&ObjectAsked::Name(name.into()), &app.store.objects)?;
    let seen = app.store.snapshot(&[Arc::clone(&object)], None).await?;
    let mut shown = entry(&object);
    shown["state"] = seen.words.first().map_or(Value::Null, |word| number(word));
    shown["at"] = at(seen.at).into();
    Ok(ok(&shown))
}

fn at(moment: crate::engine::answer::Moment) -> String {
    format!("{}.{}", moment.life, moment.commits)
}

fn number(word: &str) -> Value {
    word.parse::<u64>().map_or_else(|_| word.into(), Value::from)
}

/// Adds one.
///
/// # Errors
///
/// A [`Problem`] where it isn't added.
pub async fn put(app: &App, mut asked: Asked, name: String) -> Result<Response<Body>, Problem> {
    let wanted: ObjectWanted = parsed(&asked.bytes(app).await?)?;
    let object = checked(NamedWanted { name, of: wanted.of, recovery: wanted.recovery })?;
    if let Some(there) = is_there(app, &object)? {
        return Ok(ok(&entry(&there)));
    }
    let name = object.name.clone();
    match app.store.add(vec![object.clone()]).await {
        Ok(()) => {}
        // another request added it at the same time
        Err(problem) if problem.kind == ProblemKind::NameTaken => return is_there(app, &object)?.map(|there| ok(&entry(&there))).ok_or(problem),
        Err(problem) => return Err(problem),
    }
    Ok(json(StatusCode::CREATED, &app.store.objects.named(&name).map(|object| entry(&object))))
}

/// Adds many, all or none.
///
/// # Errors
///
/// A [`Problem`] where they aren't added.
pub async fn add(app: &App, mut asked: Asked) -> Result<Response<Body>, Problem> {
    let wanted: ManyWanted = parsed(&asked.bytes(app).await?)?;
    let count = wanted.objects.len();
    if !(1..=MOST_ADDED).contains(&count) {
        return Err(Problem::new(ProblemKind::LongList, format!("{count} objects, and 1 to {MOST_ADDED} may be there")).with("limit", MOST_ADDED));
    }
    let objects = wanted.objects.into_iter().map(checked).collect::<Result<Vec<_>, _>>()?;
    let names: HashSet<&str> = objects.iter().map(|object| object.name.as_str()).collect();
    if names.len() < count {
        return Err(Problem::new(ProblemKind::NameTaken, "a name is there twice"));
    }
    let mut new = Vec::with_capacity(count);
    for object in &objects {
        if is_there(app, object)?.is_none() {
            new.push(object.clone());
        }
    }
    let status = if new.is_empty() { StatusCode::OK } else { StatusCode::CREATED };
    if !new.is_empty() {
        app.store.add(new).await?;
    }
    let entries = objects.iter().filter_map(|object| app.store.objects.named(&object.name)).map(|object| entry(&object));
    Ok(json(status, &value!({ "objects": entries.collect::<Vec<_>>() })))
}

fn checked(wanted: NamedWanted) -> Result<NewObject, Problem> {
    let NamedWanted { name, of, recovery } = wanted;
    if !is_object_name(&name) {
        let words = format!("{:?} isn't the name of an object: 1 to 64 of a-z A-Z 0-9 _ : - . /", shown(&name));
        return Err(Problem::new(ProblemKind::BadName, words));
    }
    if !is_name(&of) {
        return Err(Problem::new(ProblemKind::BadName, format!("{:?} isn't the name of a type: 1 to 32 of a-z 0-9 _ : -", shown(&of))));
    }
    Ok(NewObject { name, of, recovery })
}

/// An object that is there already; a problem where it is another one.
fn is_there(app: &App, wanted: &NewObject) -> Result<Option<Arc<ObjectEntry>>, Problem> {
    match app.store.objects.named(&wanted.name) {
        Some(there) if there.of.name() == wanted.of && there.recovery == wanted.recovery => Ok(Some(there)),
        Some(there) => {
            let words = format!("the object {} has the type {} and the recovery {}", wanted.name, there.of.name(), there.recovery);
            Err(Problem::new(ProblemKind::NameTaken, words).with("object", wanted.name.as_str()))
        }
        None => Ok(None),
    }
}

/// Committed states of many objects at one moment, or what a call is replied.
///
/// # Errors
///
/// A [`Problem`] where they can't be read.
pub async fn snapshot(app: &App, asked: &Asked) -> Result<Response<Body>, Problem> {
    let query = Query::of(asked.query.as_deref(), &["object", "prefix", "call"])?;
    let objects = objects_in(app, &query)?;
    let call = query.one("call")?;
    if let Some(call) = call.filter(|call| !is_name(call)) {
        return Err(Problem::new(ProblemKind::BadName, format!("{:?} isn't the name of a call", shown(call))));
    }
    if objects.is_empty() {
        return Ok(ok(&value!({"at": null, "objects": []})));
    }
    let seen = app.store.snapshot(&objects, call).await?;
    let word = if call.is_some() { "reply" } else { "state" };
    let members = objects.iter().zip(&seen.words).map(|(object, told)| {
        let told = if call.is_some() { Value::from(told.as_str()) } else { number(told) };
        value!({"name": object.name.as_deref(), "number": object.number, word: told})
    });
    Ok(ok(&value!({"at": at(seen.at), "objects": members.collect::<Vec<_>>()})))
}

fn objects_in(app: &App, query: &Query) -> Result<Vec<Arc<ObjectEntry>>, Problem> {
    let named = query.all("object").map(|name| object_of(&ObjectAsked::Name(name.into()), &app.store.objects));
    let mut objects = named.collect::<Result<Vec<_>, _>>()?;
    if let Some(prefix) = query.one("prefix")? {
        let page = app.store.objects.page(prefix, None, LARGEST_SNAPSHOT + 2);
        objects.extend(page.into_iter().filter(|object| object.name.as_deref() != Some(READY_OBJECT)));
    } else if objects.is_empty() {
        return Err(bad("object", "it is needed, or `prefix` is"));
    }
    if objects.len() > LARGEST_SNAPSHOT {
        return Err(Problem::new(ProblemKind::LongList, format!("a snapshot has at most {LARGEST_SNAPSHOT} objects")).with("limit", LARGEST_SNAPSHOT));
    }
    Ok(objects)
}

//! Types.

use crate::http::app::App;
use crate::http::handling::Asked;
use crate::http::query::{bad, Query};
use crate::http::replies::{json, ok, text};
use crate::problem::{Problem, ProblemKind};
use crate::program::Verdict;
use crate::store::recovery::Recovery;
use crate::store::type_text::{Form, TypeText};
use crate::store::types::Put;
use hyper::header::ACCEPT;
use hyper::{Body, Response, StatusCode};
use serde_json::{json as value, Map, Value};

/// Takes the text of a type.
///
/// # Errors
///
/// A [`Problem`] where it isn't taken.
pub async fn put(app: &App, mut asked: Asked, name: &str) -> Result<Response<Body>, Problem> {
    let kinds = kinds_in(&Query::of(asked.query.as_deref(), &["recovery"])?)?;
    let bytes = asked.bytes(app).await?;
    let status = match app.store.types.put(name, &bytes, &kinds).await? {
        Put::New => StatusCode::CREATED,
        Put::Same => StatusCode::OK,
    };
    Ok(json(status, &value!({"name": name, "recovery": kinds})))
}

fn kinds_in(query: &Query) -> Result<Vec<Recovery>, Problem> {
    let kind = |word| Recovery::of(word).ok_or_else(|| bad("recovery", "it is undo, intentions or escrow"));
    query.all("recovery").map(kind).collect()
}

/// All types.
pub fn list(app: &App) -> Response<Body> {
    let all = app.store.types.all();
    let shown = all.iter().filter(|of| of.name() != "colockd").map(|of| value!({"name": of.name(), "operations": of.operations().len(), "form": form(of)}));
    ok(&value!({ "types": shown.collect::<Vec<_>>() }))
}

fn form(of: &TypeText) -> &'static str {
    match of.form() {
        Form::Table => "table",
        Form::Number(_) => "number",
    }
}

/// A type: its text, or in JSON its operations and conflicts too.
///
/// # Errors
///
/// A [`Problem`] where there is none.
pub async fn get(app: &App, asked: &Asked, name: &str) -> Result<Response<Body>, Problem> {
    let kinds = kinds_in(&Query::of(asked.query.as_deref(), &["recovery"])?)?;
    let of =
        app.store.types.named(name).ok_or_else(|| Problem::new(ProblemKind::NoType, format!("there is no type {:?}", crate::store::calls::shown(name))))?;
    let accepts = asked.headers.get(ACCEPT).and_then(|value| value.to_str().ok()).unwrap_or("");
    if accepts.starts_with("text/plain") {
        return Ok(text(StatusCode::OK, "text/plain; charset=utf-8", of.text().to_string()));
    }
    let mut checks = Map::new();
    for kind in kinds {
        let verdict = app.store.types.verdict(name, kind).await?;
        checks.insert(kind.word().to_string(), verdict_words(&verdict).into());
    }
    let operations: Vec<_> = of.operations().iter().map(|operation| value!([operation.call, operation.reply])).collect();
    Ok(ok(&value!({"name": name, "form": form(&of), "operations": operations, "conflicts": conflicts(&of), "checks": checks, "text": of.text()})))
}

fn verdict_words(verdict: &Verdict) -> String {
    match verdict {
        Verdict::Yes(line) | Verdict::No(line, _) => line.clone(),
        Verdict::NeedsEscrow => "no NeedsEscrow".to_string(),
        Verdict::Fault(line, fault) => format!("line {line}: {fault}"),
    }
}

/// Of each kind with a table the pairs of requested and held operations that conflict.
fn conflicts(of: &TypeText) -> Value {
    let count = u8::try_from(of.operations().len()).unwrap_or(u8::MAX);
    let pairs = |kind| {
        let all = (0..count).flat_map(|requested| (0..count).map(move |held| (requested, held)));
        all.filter(|(requested, held)| of.conflicts(kind, *requested, *held)).collect::<Vec<_>>()
    };
    value!({"undo": pairs(Recovery::Undo), "intentions": pairs(Recovery::Intentions)})
}

//! What a request asks for, by its method and path.

use crate::names::TransactionName;
use crate::problem::{Problem, ProblemKind};
use crate::tokens::Right;
use hyper::Method;
use percent_encoding::percent_decode_str;

/// What is asked for.
#[derive(Clone, Debug, PartialEq, Eq)]
pub enum Action {
    /// The page.
    Page,
    /// Its script.
    Script,
    /// Its looks.
    Style,
    /// Whether the server is alive.
    Healthz,
    /// Whether the store commits.
    Readyz,
    /// What is counted.
    Metrics,
    /// The description of all this.
    OpenApi,
    /// What a kind of problem is.
    Explain(String),
    /// All types.
    ListTypes,
    /// A type.
    GetType(String),
    /// To take a type.
    PutType(String),
    /// Some objects.
    ListObjects,
    /// To add objects.
    AddObjects,
    /// An object.
    GetObject(String),
    /// To add an object.
    PutObject(String),
    /// Whole transactions.
    Attempt,
    /// What is open.
    ListTransactions,
    /// To begin a transaction.
    Begin,
    /// A transaction.
    GetTransaction(TransactionName),
    /// To call.
    Call(TransactionName),
    /// To take operations back.
    Rollback(TransactionName),
    /// To commit.
    Commit(TransactionName),
    /// To abort.
    Abort(TransactionName),
    /// To prepare.
    Prepare(TransactionName),
    /// What became of the transaction of a key.
    GetDecision(String),
    /// To decide it.
    Decide(String),
    /// What is prepared.
    ListPrepared,
    /// Committed states at one moment.
    Snapshot,
    /// What happened.
    Events,
    /// What the page shows.
    Status,
}

impl Action {
    /// Its name in metrics and logs.
    pub fn label(&self) -> &'static str {
        match self {
            Action::Page | Action::Script | Action::Style => "page",
            Action::Healthz => "healthz",
            Action::Readyz => "readyz",
            Action::Metrics => "metrics",
            Action::OpenApi => "openapi",
            Action::Explain(_) => "problems",
            Action::ListTypes => "list_types",
            Action::GetType(_) => "get_type",
            Action::PutType(_) => "put_type",
            Action::ListObjects => "list_objects",
            Action::AddObjects => "add_objects",
            Action::GetObject(_) => "get_object",
            Action::PutObject(_) => "put_object",
            Action::Attempt => "attempts",
            Action::ListTransactions => "list_transactions",
            Action::Begin => "begin",
            Action::GetTransaction(_) => "get_transaction",
            Action::Call(_) => "call",
            Action::Rollback(_) => "rollback",
            Action::Commit(_) => "commit",
            Action::Abort(_) => "abort",
            Action::Prepare(_) => "prepare",
            Action::GetDecision(_) => "get_decision",
            Action::Decide(_) => "decide",
            Action::ListPrepared => "list_prepared",
            Action::Snapshot => "snapshot",
            Action::Events => "events",
            Action::Status => "status",
        }
    }

    /// The right that it needs, if any.
    pub fn right(&self) -> Option<Right> {
        match self {
            Action::Page | Action::Script | Action::Style | Action::Healthz | Action::Readyz | Action::OpenApi | Action::Explain(_) => None,
            Action::Attempt | Action::Begin | Action::Call(_) | Action::Rollback(_) | Action::Commit(_) | Action::Prepare(_) => Some(Right::Write),
            // whoever may end those of others may have no right to write
            Action::Abort(_) | Action::Decide(_) => None,
            Action::PutType(_) | Action::AddObjects | Action::PutObject(_) => Some(Right::Types),
            _ => Some(Right::Read),
        }
    }

    /// Whether it needs a token, with whatever right.
    pub fn is_guarded(&self) -> bool {
        self.right().is_some() || matches!(self, Action::Abort(_) | Action::Decide(_))
    }

    /// What a method asks of a path.
    ///
    /// # Errors
    ///
    /// A [`Problem`] where there is no such path, or it doesn't take the method.
    pub fn of(method: &Method, path: &str) -> Result<Action, Problem> {
        let takes = taken_by(path).ok_or_else(|| Problem::new(ProblemKind::NoRoute, "there is no such path"))?;
        let is_get = method == GET || method == Method::HEAD;
        match takes {
            Taken { get: Some(action), .. } if is_get => Ok(action),
            Taken { other: Some((taken, action)), .. } if taken == method => Ok(action),
            takes => {
                let allow = takes.methods().collect::<Vec<_>>().join(", ");
                Err(Problem::new(ProblemKind::NoMethod, format!("{path} takes {allow}")).with("allow", allow))
            }
        }
    }
}

/// What a path takes: what `GET` asks, and what another method does.
#[derive(Debug)]
struct Taken {
    get: Option<Action>,
    other: Option<(&'static Method, Action)>,
}

impl Taken {
    fn by_get(action: Action) -> Taken {
        Taken { get: Some(action), other: None }
    }

    fn by(method: &'static Method, action: Action) -> Taken {
        Taken { get: None, other: Some((method, action)) }
    }

    fn and_by(self, method: &'static Method, action: Action) -> Taken {
        Taken { other: Some((method, action)), ..self }
    }

    fn methods(&self) -> impl Iterator<Item = &str> {
        let get = self.get.as_ref().map(|_| GET.as_str());
        get.into_iter().chain(self.other.as_ref().map(|(method, _)| method.as_str()))
    }
}

fn taken_by(path: &str) -> Option<Taken> {
    Some(match path {
        "/" => Taken::by_get(Action::Page),
        "/page.js" => Taken::by_get(Action::Script),
        "/page.css" => Taken::by_get(Action::Style),
        "/healthz" => Taken::by_get(Action::Healthz),
        "/readyz" => Taken::by_get(Action::Readyz),
        "/metrics" => Taken::by_get(Action::Metrics),
        "/openapi.json" => Taken::by_get(Action::OpenApi),
        "/v1/types" => Taken::by_get(Action::ListTypes),
        "/v1/objects" => Taken::by_get(Action::ListObjects).and_by(POST, Action::AddObjects),
        "/v1/attempts" => Taken::by(POST, Action::Attempt),
        "/v1/transactions" => Taken::by_get(Action::ListTransactions).and_by(POST, Action::Begin),
        "/v1/prepared" => Taken::by_get(Action::ListPrepared),
        "/v1/snapshot" => Taken::by_get(Action::Snapshot),
        "/v1/events" => Taken::by_get(Action::Events),
        "/v1/status" => Taken::by_get(Action::Status),
        _ => return taken_by_name(path),
    })
}

fn taken_by_name(path: &str) -> Option<Taken> {
    if let Some(name) = path.strip_prefix("/v1/objects/") {
        let name = decoded(name)?;
        return Some(Taken::by_get(Action::GetObject(name.clone())).and_by(PUT, Action::PutObject(name)));
    }
    if let Some(name) = path.strip_prefix("/v1/types/") {
        let name = decoded(name)?;
        return Some(Taken::by_get(Action::GetType(name.clone())).and_by(PUT, Action::PutType(name)));
    }
    if let Some(name) = path.strip_prefix("/problems/") {
        return Some(Taken::by_get(Action::Explain(decoded(name)?)));
    }
    if let Some(key) = path.strip_prefix("/v1/decisions/") {
        let key = decoded(key)?;
        return Some(Taken::by_get(Action::GetDecision(key.clone())).and_by(PUT, Action::Decide(key)));
    }
    let rest = path.strip_prefix("/v1/transactions/")?;
    let (name, what) = rest.split_once('/').unwrap_or((rest, ""));
    let name: TransactionName = name.parse().ok()?;
    Some(match what {
        "" => Taken::by_get(Action::GetTransaction(name)),
        "calls" => Taken::by(POST, Action::Call(name)),
        "rollback" => Taken::by(POST, Action::Rollback(name)),
        "commit" => Taken::by(POST, Action::Commit(name)),
        "abort" => Taken::by(POST, Action::Abort(name)),
        "prepare" => Taken::by(POST, Action::Prepare(name)),
        _ => return None,
    })
}

const GET: &Method = &Method::GET;
const POST: &Method = &Method::POST;
const PUT: &Method = &Method::PUT;

fn decoded(word: &str) -> Option<String> {
    percent_decode_str(word).decode_utf8().ok().map(|word| word.into_owned())
}

#[cfg(test)]
mod tests {
    use super::Action;
    use crate::names::TransactionName;
    use crate::problem::ProblemKind;
    use hyper::Method;

    #[test]
    fn paths_name_what_they_are_of() {
        let name = TransactionName { life: 4, number: 0 };
        for (method, path, action) in [
            (Method::GET, "/", Action::Page),
            (Method::HEAD, "/healthz", Action::Healthz),
            (Method::PUT, "/v1/objects/stalls/B%2F1", Action::PutObject("stalls/B/1".to_string())),
            (Method::POST, "/v1/transactions/4.0/calls", Action::Call(name)),
            (Method::GET, "/v1/transactions/4.0", Action::GetTransaction(name)),
            (Method::POST, "/v1/transactions/4.0/prepare", Action::Prepare(name)),
            (Method::PUT, "/v1/decisions/order%3A4711", Action::Decide("order:4711".to_string())),
        ] {
            assert_eq!(Action::of(&method, path), Ok(action));
        }
    }

    #[test]
    fn what_isnt_there_is_told() {
        let kind = |method: Method, path: &str| Action::of(&method, path).unwrap_err().kind;
        for path in ["/v2", "/v1/transactions/x", "/v1/transactions/4.0/x", "/v1/types/%ff", "/v1/attempts/"] {
            assert_eq!(kind(Method::GET, path), ProblemKind::NoRoute, "{path}");
        }
        assert_eq!(kind(Method::DELETE, "/v1/objects/a"), ProblemKind::NoMethod);
        assert_eq!(Action::of(&Method::PATCH, "/v1/objects").unwrap_err().members()["allow"], "GET, POST");
    }
}

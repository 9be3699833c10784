//! What all requests share.

use crate::http::body::Room;
use crate::http::request_id::{RequestId, Run};
use crate::limits::Limits;
use crate::metrics::Metrics;
use crate::places::{Place, Places};
use crate::problem::{Problem, ProblemKind};
use crate::store::Store;
use crate::tokens::{Caller, Right, Tokens};
use hyper::header::{HeaderMap, AUTHORIZATION};
use std::sync::atomic::{AtomicBool, AtomicU64, Ordering};
use std::sync::Arc;
use std::time::{Duration, Instant};
use tokio::sync::{Mutex, OwnedSemaphorePermit, Semaphore};

/// How long it is believed that the store commits.
const LONGEST_READY: Duration = Duration::from_secs(1);

/// What all requests share.
#[derive(Debug)]
pub struct App {
    /// The store.
    pub store: Arc<Store>,
    /// Who may do what; nothing where everybody may do all.
    pub tokens: Option<Tokens>,
    /// The limits.
    pub limits: Limits,
    /// What is counted.
    pub metrics: Arc<Metrics>,
    /// The room for the bodies of all requests.
    pub bodies: Room,
    /// A commit that takes longer is logged.
    pub slow: Duration,
    /// Whether others than this machine may ask without a token.
    pub is_insecure: bool,
    requests: Places,
    followers: Arc<Semaphore>,
    requests_begun: AtomicU64,
    run: Run,
    is_draining: AtomicBool,
    is_closing: AtomicBool,
    ready: Mutex<Option<Instant>>,
}

impl App {
    /// For a store.
    pub fn new(store: Arc<Store>, tokens: Option<Tokens>, limits: Limits, metrics: Arc<Metrics>) -> App {
        App {
            store,
            tokens,
            limits,
            metrics,
            bodies: Room::default(),
            slow: Duration::from_secs(1),
            is_insecure: false,
            requests: Places::new(limits.requests),
            followers: Arc::new(Semaphore::new(limits.followers)),
            requests_begun: AtomicU64::new(0),
            run: Run::drawn(),
            is_draining: AtomicBool::new(false),
            is_closing: AtomicBool::new(false),
            ready: Mutex::default(),
        }
    }

    /// The number of another request.
    pub fn next_number(&self) -> u64 {
        self.requests_begun.fetch_add(1, Ordering::Relaxed)
    }

    /// The id of the request with this number.
    pub fn id(&self, number: u64) -> RequestId<'_> {
        self.run.request(number)
    }

    /// Whether only this machine is to ask: nobody said otherwise, and there are no tokens.
    pub fn is_loopback_alone(&self) -> bool {
        self.tokens.is_none() && !self.is_insecure
    }

    /// The server ends: nothing begins any more.
    pub fn drain(&self) {
        self.is_draining.store(true, Ordering::Relaxed);
    }

    /// Whether it ends.
    pub fn is_draining(&self) -> bool {
        self.is_draining.load(Ordering::Relaxed)
    }

    /// What was open has ended: nobody follows the events any more.
    pub fn close(&self) {
        self.is_closing.store(true, Ordering::Relaxed);
    }

    /// Whether nothing goes on.
    pub fn is_closing(&self) -> bool {
        self.is_closing.load(Ordering::Relaxed)
    }

    /// Nothing begins while the server ends.
    ///
    /// # Errors
    ///
    /// A [`Problem`] where it does.
    pub fn begins(&self) -> Result<(), Problem> {
        if self.is_draining() {
            return Err(ProblemKind::Draining.into());
        }
        Ok(())
    }

    /// A place among the requests that are being answered.
    ///
    /// # Errors
    ///
    /// A [`Problem`] where there is none.
    pub fn admitted(&self) -> Result<Place<'_>, Problem> {
        self.requests.take().ok_or_else(|| Problem::from(ProblemKind::TooManyRequests).with("limit", self.limits.requests))
    }

    /// A place among those who follow the events.
    ///
    /// # Errors
    ///
    /// A [`Problem`] where there is none.
    pub fn follows(&self) -> Result<OwnedSemaphorePermit, Problem> {
        let place = Arc::clone(&self.followers).try_acquire_owned();
        place.map_err(|_| Problem::from(ProblemKind::TooManyFollowers).with("limit", self.limits.followers))
    }

    /// Who asks.
    ///
    /// # Errors
    ///
    /// A [`Problem`] where a token is needed, and none is given that is known.
    pub fn caller(&self, headers: &HeaderMap) -> Result<Caller, Problem> {
        let Some(tokens) = &self.tokens else { return Ok(Caller::anyone()) };
        let given = headers.get(AUTHORIZATION).ok_or(ProblemKind::NoToken)?;
        let given = given.to_str().ok().and_then(bearer);
        given.and_then(|token| tokens.caller(token)).ok_or_else(|| Problem::new(ProblemKind::NoToken, "the token isn't known"))
    }

    /// Whether a caller has a right.
    ///
    /// # Errors
    ///
    /// A [`Problem`] where it hasn't.
    pub fn allowed(&self, caller: &Caller, right: Right) -> Result<(), Problem> {
        if caller.may(right) {
            return Ok(());
        }
        let words = format!("the token {} has no right to {}", caller.name(), right.word());
        Err(Problem::new(ProblemKind::NoRight, words).with("right", right.word()))
    }

    /// Whether the store commits. It is asked once a second at most.
    ///
    /// # Errors
    ///
    /// A [`Problem`] where it doesn't.
    pub async fn ready(&self) -> Result<(), Problem> {
        self.begins()?;
        let mut last = self.ready.lock().await;
        if last.is_some_and(|last| last.elapsed() < LONGEST_READY) {
            return Ok(());
        }
        self.store.commits().await?;
        *last = Some(Instant::now());
        Ok(())
    }
}

/// The token of `Bearer TOKEN`.
fn bearer(value: &str) -> Option<&str> {
    let (scheme, token) = value.split_once(' ')?;
    scheme.eq_ignore_ascii_case("bearer").then(|| token.trim())
}

#[cfg(test)]
mod tests {
    use super::bearer;

    #[test]
    fn tokens_are_bearers() {
        assert_eq!((bearer("Bearer abc"), bearer("bearer abc"), bearer("Basic abc"), bearer("abc")), (Some("abc"), Some("abc"), None, None));
    }
}

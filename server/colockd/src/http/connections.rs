//! Connections: as many as may be there, each with its requests.

use crate::http::app::App;
use crate::http::handling::{handle, Connection};
use crate::http::patient::{Patient, Requests};
use crate::http::replies;
use crate::limits::LONGEST_HEAD;
use crate::problem::{Problem, ProblemKind};
use futures_util::stream::{FuturesUnordered, StreamExt};
use hyper::server::conn::Http;
use hyper::service::service_fn;
use std::convert::Infallible;
use std::net::SocketAddr;
use std::sync::Arc;
use std::time::Duration;
use tokio::io::{AsyncRead, AsyncWrite, AsyncWriteExt};
use tokio::net::{TcpListener, TcpStream};
use tokio::sync::{watch, OwnedSemaphorePermit, Semaphore};
use tokio::time::{sleep, timeout};
use tokio_rustls::TlsAcceptor;

/// The most streams of a connection of HTTP/2.
const MOST_STREAMS: u32 = 128;

/// The most bytes of an answer that wait in a stream of HTTP/2.
const LARGEST_SENDING: usize = 65_536;

/// How long is waited after a connection that couldn't be taken.
const AFTER_FAULT: Duration = Duration::from_millis(50);

/// How long a connection may stay on which nothing is asked and nothing is sent.
const LONGEST_REST: Duration = Duration::from_secs(300);

/// How long the last answers of a connection may take to go, where the server ends.
const LAST_ANSWERS: Duration = Duration::from_millis(250);

/// The most connections that are refused at the same time; beyond them connections are closed without a word.
const MOST_REFUSED: usize = 64;

/// How far the end of the server is.
#[derive(Clone, Copy, Debug, PartialEq, Eq, PartialOrd, Ord)]
pub enum Stage {
    /// It serves.
    Serving,
    /// What is open may end.
    Draining,
    /// Connections are closed when their request is answered.
    Closing,
}

/// Why a connection is to end.
#[derive(Clone, Copy, Debug, PartialEq, Eq)]
enum Over {
    /// Nothing was asked for long.
    Rested,
    /// The server closes.
    Closing,
}

/// Takes connections, until the server closes; then waits for those that there are.
pub async fn serve(app: Arc<App>, listener: TcpListener, tls: Option<TlsAcceptor>, stage: watch::Receiver<Stage>) {
    let places = Arc::new(Semaphore::new(app.limits.connections));
    let refusals = Arc::new(Semaphore::new(MOST_REFUSED));
    let mut closing = stage.clone();
    loop {
        let taken = tokio::select! {
            taken = listener.accept() => taken,
            () = reaches(&mut closing, Stage::Closing) => break,
        };
        match taken {
            Ok((stream, peer)) => take(&app, stream, peer, tls.clone(), stage.clone(), (&places, &refusals)),
            Err(error) => {
                tracing::warn!(%error, "a connection can't be taken");
                sleep(AFTER_FAULT).await;
            }
        }
    }
    let all = u32::try_from(app.limits.connections).unwrap_or(u32::MAX);
    // it fails only where nobody gives places any more
    let _ = timeout(app.limits.patience, places.acquire_many(all)).await;
}

/// Waits until a stage is reached.
async fn reaches(stage: &mut watch::Receiver<Stage>, wanted: Stage) {
    while *stage.borrow_and_update() < wanted {
        if stage.changed().await.is_err() {
            return;
        }
    }
}

fn take(
    app: &Arc<App>,
    stream: TcpStream,
    peer: SocketAddr,
    tls: Option<TlsAcceptor>,
    stage: watch::Receiver<Stage>,
    (places, refusals): (&Arc<Semaphore>, &Arc<Semaphore>),
) {
    // without it small answers are late, and nothing else
    let _ = stream.set_nodelay(true);
    let app = Arc::clone(app);
    match Arc::clone(places).try_acquire_owned() {
        Ok(place) => drop(tokio::spawn(connected(app, stream, peer, tls, stage, place))),
        Err(_) => {
            if let Ok(refusal) = Arc::clone(refusals).try_acquire_owned() {
                tokio::spawn(refuse(app, stream, tls.is_some(), refusal));
            }
        }
    }
}

async fn connected(app: Arc<App>, stream: TcpStream, peer: SocketAddr, tls: Option<TlsAcceptor>, stage: watch::Receiver<Stage>, place: OwnedSemaphorePermit) {
    app.metrics.connections.inc();
    match tls {
        None => answer_all(Arc::clone(&app), stream, peer, stage).await,
        Some(tls) => match timeout(app.limits.patience, tls.accept(stream)).await {
            Ok(Ok(stream)) => answer_all(Arc::clone(&app), stream, peer, stage).await,
            Ok(Err(error)) => tracing::debug!(%peer, %error, "no TLS"),
            Err(_) => tracing::debug!(%peer, "no TLS in time"),
        },
    }
    app.metrics.connections.dec();
    drop(place);
}

/// What is chosen of HTTP.
fn protocol(patience: Duration) -> Http {
    let mut http = Http::new();
    http.max_buf_size(LONGEST_HEAD);
    http.http2_max_concurrent_streams(MOST_STREAMS).http2_max_header_list_size(LONGEST_HEAD as u32).http2_max_send_buf_size(LARGEST_SENDING);
    http.http2_keep_alive_interval(patience).http2_keep_alive_timeout(patience);
    http
}

/// Answers the requests of a connection.
async fn answer_all<S: AsyncRead + AsyncWrite + Unpin + Send + 'static>(app: Arc<App>, stream: S, peer: SocketAddr, mut stage: watch::Receiver<Stage>) {
    let (patience, requests) = (app.limits.patience, Arc::new(Requests::default()));
    let (begun, asking) = (Arc::clone(&requests), Arc::new(Connection { app, peer }));
    let service = service_fn(move |request| {
        let (asked, answer) = (begun.begins(), handle(Arc::clone(&asking), request));
        async move {
            let answer = answer.await;
            drop(asked);
            Ok::<_, Infallible>(answer)
        }
    });
    let connection = protocol(patience).serve_connection(Patient::new(stream, patience, Arc::clone(&requests)), service);
    tokio::pin!(connection);
    let over = async {
        tokio::select! {
            () = requests.rest(LONGEST_REST) => Over::Rested,
            () = reaches(&mut stage, Stage::Closing) => Over::Closing,
        }
    };
    // a set of one is polled where that wakes, and not with each piece of the connection
    let mut over = FuturesUnordered::from_iter([over]);
    let ended = tokio::select! {
        biased;
        ended = connection.as_mut() => ended,
        Some(why) = over.next() => match why {
            Over::Rested => Ok(()),
            Over::Closing => {
                connection.as_mut().graceful_shutdown();
                tokio::select! {
                    ended = connection.as_mut() => ended,
                    () = requests.rest(LAST_ANSWERS) => Ok(()),
                }
            }
        },
    };
    if let Err(error) = ended {
        tracing::debug!(%peer, %error, "a connection broke off");
    }
}

/// Says that there are too many connections.
async fn refuse(app: Arc<App>, mut stream: TcpStream, is_tls: bool, _refusal: OwnedSemaphorePermit) {
    if is_tls {
        return; // no word would be understood
    }
    let problem = Problem::from(ProblemKind::TooManyConnections).with("limit", app.limits.connections);
    let response = replies::problem(&problem);
    let body = serde_json::Value::Object(problem.members()).to_string();
    let head = format!(
        "HTTP/1.1 {}\r\ncontent-type: application/problem+json\r\ncontent-length: {}\r\nretry-after: 1\r\nconnection: close\r\n\r\n",
        response.status(),
        body.len()
    );
    // who doesn't take it isn't waited for
    let _ = timeout(Duration::from_secs(1), stream.write_all(format!("{head}{body}").as_bytes())).await;
}

//! The bodies of requests.

use crate::limits::{Limits, LARGEST_BODIES};
use crate::problem::{Problem, ProblemKind};
use hyper::body::{self, HttpBody};
use hyper::Body;
use serde::de::{Deserialize, DeserializeOwned};
use std::future::{poll_fn, Future};
use std::ops::Deref;
use std::sync::Arc;
use std::task::Poll;
use std::time::Duration;
use tokio::sync::{OwnedSemaphorePermit, Semaphore};
use tokio::time::timeout;

/// How many bytes a permit is for. A body that is no larger and comes whole needs none: it is where it was read.
const BYTES_OF_PERMIT: usize = 4_096;

/// The room for the bodies of all requests.
#[derive(Debug)]
pub struct Room(Arc<Semaphore>);

impl Default for Room {
    fn default() -> Room {
        Room(Arc::new(Semaphore::new(LARGEST_BODIES / BYTES_OF_PERMIT)))
    }
}

/// The bytes of a body that was read.
#[derive(Debug)]
pub struct Bytes {
    read: Read,
    body: Body,
}

impl Bytes {
    /// The body, of which all was read. Its connection is woken where it is dropped.
    pub fn into_body(self) -> Body {
        self.body
    }
}

#[derive(Debug)]
enum Read {
    /// They came at once, and are few.
    Whole(body::Bytes),
    /// They were put together, and have their room.
    Gathered(Gathered),
}

/// Bytes that came in pieces.
#[derive(Debug, Default)]
struct Gathered {
    bytes: Vec<u8>,
    permits: Vec<OwnedSemaphorePermit>,
}

impl Gathered {
    /// Takes more bytes, where there is room.
    fn extend(&mut self, piece: &[u8], room: &Room) -> Result<(), Problem> {
        let wanted = (self.bytes.len() + piece.len()).div_ceil(BYTES_OF_PERMIT);
        let had = self.bytes.len().div_ceil(BYTES_OF_PERMIT);
        if wanted > had {
            let count = u32::try_from(wanted - had).unwrap_or(u32::MAX);
            let permit = Arc::clone(&room.0).try_acquire_many_owned(count);
            self.permits.push(permit.map_err(|_| Problem::new(ProblemKind::TooManyRequests, "there is no room for the body now"))?);
        }
        self.bytes.extend_from_slice(piece);
        Ok(())
    }
}

impl Deref for Bytes {
    type Target = [u8];

    fn deref(&self) -> &[u8] {
        match &self.read {
            Read::Whole(bytes) => bytes,
            Read::Gathered(gathered) => &gathered.bytes,
        }
    }
}

/// Reads a body.
///
/// # Errors
///
/// A [`Problem`] where it is too large, or doesn't come.
pub async fn read(mut body: Body, limits: &Limits, room: &Room) -> Result<Bytes, Problem> {
    if body.size_hint().lower() > limits.body as u64 {
        return Err(large(limits));
    }
    let read = limited(limits.patience, all(&mut body, limits, room)).await.unwrap_or_else(|| Err(slow(limits.patience)))?;
    Ok(Bytes { read, body })
}

async fn all(body: &mut Body, limits: &Limits, room: &Room) -> Result<Read, Problem> {
    let mut gathered = Gathered::default();
    while let Some(piece) = body.data().await {
        let piece = piece.map_err(|error| Problem::new(ProblemKind::BadBody, format!("the body breaks off: {error}")))?;
        if gathered.bytes.len() + piece.len() > limits.body {
            return Err(large(limits));
        }
        if gathered.bytes.is_empty() && piece.len() <= BYTES_OF_PERMIT && body.is_end_stream() {
            return Ok(Read::Whole(piece));
        }
        gathered.extend(&piece, room)?;
    }
    Ok(Read::Gathered(gathered))
}

/// Waits for a future for so long. Where it is ready at its second poll, as a body is that came with its head, there is no timer.
async fn limited<T>(limit: Duration, future: impl Future<Output = T>) -> Option<T> {
    tokio::pin!(future);
    let mut was_polled = false;
    let soon = poll_fn(|context| match future.as_mut().poll(context) {
        Poll::Ready(done) => Poll::Ready(Some(done)),
        Poll::Pending if was_polled => Poll::Ready(None),
        Poll::Pending => {
            was_polled = true;
            context.waker().wake_by_ref();
            Poll::Pending
        }
    });
    match soon.await {
        Some(done) => Some(done),
        // boxed since timers are large, and each request moves its future
        None => Box::pin(timeout(limit, future)).await.ok(),
    }
}

fn large(limits: &Limits) -> Problem {
    Problem::new(ProblemKind::LargeBody, format!("a body has at most {} bytes", limits.body)).with("limit", limits.body)
}

fn slow(patience: Duration) -> Problem {
    Problem::new(ProblemKind::SlowBody, format!("the body didn't come within {} seconds", patience.as_secs()))
}

/// What a body says in JSON; where it can't be read, that is told.
///
/// # Errors
///
/// A [`Problem`] with the line and the column.
pub fn parsed<'b, T: Deserialize<'b>>(bytes: &'b [u8]) -> Result<T, Problem> {
    // a text is known to be one, and its words aren't looked at again
    let read = std::str::from_utf8(bytes).map_or_else(|_| serde_json::from_slice(bytes), serde_json::from_str);
    read.map_err(|error| {
        let problem = Problem::new(ProblemKind::BadBody, &error);
        problem.with("line", error.line()).with("column", error.column())
    })
}

/// The same of a body that may be empty.
///
/// # Errors
///
/// As of [`parsed`].
pub fn parsed_or_default<T: DeserializeOwned + Default>(bytes: &[u8]) -> Result<T, Problem> {
    if bytes.iter().all(u8::is_ascii_whitespace) {
        return Ok(T::default());
    }
    parsed(bytes)
}

/// A time in seconds from 0 to a limit.
///
/// # Errors
///
/// A [`Problem`] where it isn't.
pub fn seconds(name: &str, seconds: f64, most: Duration) -> Result<Duration, Problem> {
    let is_in_range = seconds >= 0.0 && seconds <= most.as_secs_f64();
    if is_in_range {
        return Ok(Duration::from_secs_f64(seconds));
    }
    Err(Problem::new(ProblemKind::OutOfRange, format!("{name} is a number of seconds from 0 to {}", most.as_secs())).with("member", name))
}

#[cfg(test)]
mod tests {
    use super::{parsed, parsed_or_default, read, seconds, Room};
    use crate::limits::Limits;
    use crate::problem::ProblemKind;
    use hyper::Body;
    use serde_json::Value;
    use std::time::Duration;

    fn limits() -> Limits {
        Limits { body: 8, patience: Duration::from_millis(20), ..Limits::default() }
    }

    #[tokio::test]
    async fn bodies_are_as_large_as_they_may_be() {
        assert_eq!(&*read(Body::from("12345678"), &limits(), &Room::default()).await.unwrap(), b"12345678");
        assert_eq!(read(Body::from("123456789"), &limits(), &Room::default()).await.unwrap_err().kind, ProblemKind::LargeBody);
        let (mut sender, body) = Body::channel();
        tokio::spawn(async move { while sender.send_data("1234".into()).await.is_ok() {} });
        assert_eq!(read(body, &limits(), &Room::default()).await.unwrap_err().kind, ProblemKind::LargeBody);
    }

    #[tokio::test]
    async fn bodies_have_so_much_room() {
        let (limits, room) = (Limits::default(), Room::default());
        let mut kept = Vec::new();
        let full = loop {
            match read(Body::from(vec![b' '; 2 << 20]), &limits, &room).await {
                Ok(bytes) => kept.push(bytes),
                Err(problem) => break problem.kind,
            }
        };
        assert_eq!((kept.len(), full), (32, ProblemKind::TooManyRequests));
        assert_eq!(read(in_pieces(["1", "2"]), &limits, &room).await.unwrap_err().kind, ProblemKind::TooManyRequests);
        assert_eq!(&*read(Body::from("12"), &limits, &room).await.unwrap(), b"12");
        kept.clear();
        assert_eq!(&*read(in_pieces(["1", "2"]), &limits, &room).await.unwrap(), b"12");
    }

    fn in_pieces(pieces: [&'static str; 2]) -> Body {
        let (mut sender, body) = Body::channel();
        tokio::spawn(async move {
            for piece in pieces {
                // who found no room reads no more
                let _ = sender.send_data(piece.into()).await;
            }
        });
        body
    }

    #[tokio::test]
    async fn a_body_that_doesnt_come_isnt_waited_for() {
        let (_sender, body) = Body::channel();
        assert_eq!(read(body, &limits(), &Room::default()).await.unwrap_err().kind, ProblemKind::SlowBody);
    }

    #[test]
    fn what_cant_be_read_says_where() {
        let members = parsed::<Value>(b"{\n\"a\": }").unwrap_err().members();
        assert_eq!((members["line"].as_u64(), members["column"].as_u64()), (Some(2), Some(6)));
        assert_eq!(parsed_or_default::<Value>(b" \n"), Ok(Value::Null));
        let members = parsed::<Value>(b"{\n\"\xff\"").unwrap_err().members();
        assert_eq!(members["line"].as_u64(), Some(2));
        let deep = "[".repeat(100_000);
        assert!(parsed::<Value>(deep.as_bytes()).is_err());
    }

    #[test]
    fn times_have_a_range() {
        let most = Duration::from_secs(60);
        assert_eq!(seconds("wait", 0.5, most), Ok(Duration::from_millis(500)));
        for wrong in [-1.0, 60.1, f64::NAN, f64::INFINITY] {
            assert_eq!(seconds("wait", wrong, most).unwrap_err().kind, ProblemKind::OutOfRange);
        }
    }
}

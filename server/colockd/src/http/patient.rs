//! A connection that breaks off where the other side is too slow: with the head of a request, or as it takes an answer. And one that
//! is closed so that the last answer arrives, also where more was sent than was read.

use std::future::Future;
use std::io;
use std::pin::Pin;
use std::sync::atomic::{AtomicUsize, Ordering};
use std::sync::Arc;
use std::task::{ready, Context, Poll};
use std::time::Duration;
use tokio::io::{AsyncRead, AsyncWrite, ReadBuf};
use tokio::time::{sleep, sleep_until, Instant, Sleep};

/// How a connection of HTTP/2 begins.
const HTTP_2: &[u8] = b"PRI";

/// How long what is still sent is read after the last answer, and how much of it.
const LINGERING: (Duration, usize) = (Duration::from_secs(1), 4 << 20);

/// How many requests of a connection there were, how many are being answered, and how often something was written.
#[derive(Debug, Default)]
pub struct Requests {
    begun: AtomicUsize,
    ended: AtomicUsize,
    written: AtomicUsize,
}

impl Requests {
    /// One is being answered, until the result is dropped.
    pub fn begins(self: &Arc<Requests>) -> Request {
        self.begun.fetch_add(1, Ordering::Relaxed);
        Request(Arc::clone(self))
    }

    fn begun(&self) -> usize {
        self.begun.load(Ordering::Relaxed)
    }

    /// Waits until nothing was asked and nothing was written for so long, or for up to twice as long.
    pub async fn rest(&self, long: Duration) {
        loop {
            let before = (self.begun(), self.written.load(Ordering::Relaxed));
            sleep(long).await;
            if self.are_answered() && before == (self.begun(), self.written.load(Ordering::Relaxed)) {
                return;
            }
        }
    }

    /// Whether none is being answered.
    pub fn are_answered(&self) -> bool {
        self.ended.load(Ordering::Relaxed) == self.begun()
    }
}

/// A request that is being answered.
#[derive(Debug)]
pub struct Request(Arc<Requests>);

impl Drop for Request {
    fn drop(&mut self) {
        self.0.ended.fetch_add(1, Ordering::Relaxed);
    }
}

/// The head of a request that has begun to come.
#[derive(Debug)]
struct Head {
    /// How many requests there were before it.
    before: usize,
    /// It is set where the head didn't come whole.
    deadline: Option<Instant>,
}

/// A stream with limits.
#[derive(Debug)]
pub struct Patient<S> {
    stream: S,
    patience: Duration,
    requests: Arc<Requests>,
    writing: Option<Pin<Box<Sleep>>>,
    head: Option<Head>,
    /// It wakes where a head is late; most heads come whole, and set none.
    late: Option<Pin<Box<Sleep>>>,
    is_first: bool,
    is_http_2: bool,
    is_shut: bool,
    lingered: usize,
}

impl<S> Patient<S> {
    /// Of a stream, by which these requests come.
    pub fn new(stream: S, patience: Duration, requests: Arc<Requests>) -> Patient<S> {
        Patient { stream, patience, requests, writing: None, head: None, late: None, is_first: true, is_http_2: false, is_shut: false, lingered: 0 }
    }

    /// A write that waits, waits so long.
    fn limited<T>(&mut self, context: &mut Context<'_>, poll: Poll<io::Result<T>>) -> Poll<io::Result<T>> {
        if poll.is_ready() {
            self.requests.written.fetch_add(1, Ordering::Relaxed);
            self.writing = None;
            return poll;
        }
        let patience = self.patience;
        let limit = self.writing.get_or_insert_with(|| Box::pin(sleep(patience)));
        limit.as_mut().poll(context).map(|()| Err(io::ErrorKind::TimedOut.into()))
    }

    /// Whether the head of a request has come for too long.
    fn is_late(&mut self, context: &mut Context<'_>) -> bool {
        if self.head.as_ref().is_some_and(|head| head.before != self.requests.begun()) {
            self.head = None;
        }
        let (Some(head), patience) = (&mut self.head, self.patience) else { return false };
        let deadline = *head.deadline.get_or_insert_with(|| Instant::now() + patience);
        let late = self.late.get_or_insert_with(|| Box::pin(sleep_until(deadline)));
        if late.deadline() != deadline {
            late.as_mut().reset(deadline);
        }
        late.as_mut().poll(context).is_ready()
    }

    /// Some bytes were read.
    fn has_read(&mut self, bytes: &[u8]) {
        if self.is_first {
            self.is_first = false;
            self.is_http_2 = bytes.starts_with(HTTP_2);
        }
        if self.head.is_none() && !self.is_http_2 && self.requests.are_answered() {
            self.head = Some(Head { before: self.requests.begun(), deadline: None });
        }
    }
}

impl<S: AsyncRead + Unpin> AsyncRead for Patient<S> {
    fn poll_read(mut self: Pin<&mut Self>, context: &mut Context<'_>, room: &mut ReadBuf<'_>) -> Poll<io::Result<()>> {
        if self.is_late(context) {
            return Poll::Ready(Err(io::ErrorKind::TimedOut.into()));
        }
        let before = room.filled().len();
        let read = ready!(Pin::new(&mut self.stream).poll_read(context, room));
        let bytes = &room.filled()[before..];
        if !bytes.is_empty() {
            self.has_read(bytes);
        }
        Poll::Ready(read)
    }
}

impl<S: AsyncRead + AsyncWrite + Unpin> AsyncWrite for Patient<S> {
    fn poll_write(mut self: Pin<&mut Self>, context: &mut Context<'_>, bytes: &[u8]) -> Poll<io::Result<usize>> {
        let poll = Pin::new(&mut self.stream).poll_write(context, bytes);
        self.limited(context, poll)
    }

    fn poll_flush(mut self: Pin<&mut Self>, context: &mut Context<'_>) -> Poll<io::Result<()>> {
        let poll = Pin::new(&mut self.stream).poll_flush(context);
        self.limited(context, poll)
    }

    /// Nothing more is written; what is still sent is read, since an answer would be lost with a connection that is reset.
    fn poll_shutdown(mut self: Pin<&mut Self>, context: &mut Context<'_>) -> Poll<io::Result<()>> {
        if !self.is_shut {
            let poll = Pin::new(&mut self.stream).poll_shutdown(context);
            ready!(self.limited(context, poll))?;
            self.is_shut = true;
            self.writing = Some(Box::pin(sleep(LINGERING.0)));
        }
        let mut room = [0; 8_192];
        loop {
            let mut read = ReadBuf::new(&mut room);
            match Pin::new(&mut self.stream).poll_read(context, &mut read) {
                Poll::Ready(Ok(())) if !read.filled().is_empty() => self.lingered += read.filled().len(),
                Poll::Ready(_) => return Poll::Ready(Ok(())),
                Poll::Pending => break,
            }
            if self.lingered > LINGERING.1 {
                return Poll::Ready(Ok(()));
            }
        }
        self.writing.as_mut().map_or(Poll::Ready(Ok(())), |limit| limit.as_mut().poll(context).map(Ok))
    }

    fn poll_write_vectored(mut self: Pin<&mut Self>, context: &mut Context<'_>, slices: &[io::IoSlice<'_>]) -> Poll<io::Result<usize>> {
        let poll = Pin::new(&mut self.stream).poll_write_vectored(context, slices);
        self.limited(context, poll)
    }

    fn is_write_vectored(&self) -> bool {
        self.stream.is_write_vectored()
    }
}

#[cfg(test)]
mod tests {
    use super::{Patient, Requests};
    use std::io::ErrorKind;
    use std::sync::Arc;
    use std::time::Duration;
    use tokio::io::{duplex, AsyncReadExt, AsyncWriteExt};
    use tokio::time::{sleep, timeout};

    const PATIENCE: Duration = Duration::from_millis(320);

    #[tokio::test]
    async fn who_takes_nothing_is_left() {
        let (near, _far) = duplex(8);
        let mut near = Patient::new(near, PATIENCE, Arc::default());
        assert_eq!(near.write_all(b"123456789").await.unwrap_err().kind(), ErrorKind::TimedOut);
    }

    #[tokio::test]
    async fn who_takes_slowly_is_served() {
        // each piece comes within a quarter of it, and all of them don't, also where the machine is busy
        let patience = PATIENCE * 6;
        let (near, mut far) = duplex(4);
        let mut near = Patient::new(near, patience, Arc::default());
        let reader = tokio::spawn(async move {
            let mut all = Vec::new();
            let mut room = [0; 2];
            while all.len() < 12 {
                sleep(patience / 4).await;
                let count = far.read(&mut room).await.unwrap();
                all.extend_from_slice(&room[..count]);
            }
            all
        });
        near.write_all(b"123456789012").await.unwrap();
        assert_eq!(reader.await.unwrap(), b"123456789012");
    }

    #[tokio::test]
    async fn a_head_that_trickles_is_left() {
        let (near, mut far) = duplex(64);
        let mut near = Patient::new(near, PATIENCE, Arc::default());
        tokio::spawn(async move {
            while far.write_all(b"x").await.is_ok() && {
                sleep(PATIENCE / 4).await;
                true
            } {}
        });
        let mut all = Vec::new();
        assert_eq!(near.read_to_end(&mut all).await.unwrap_err().kind(), ErrorKind::TimedOut);
        assert!(all.len() < 16);
    }

    #[tokio::test]
    async fn a_head_that_came_is_not() {
        let (near, mut far) = duplex(64);
        let requests = Arc::new(Requests::default());
        let mut near = Patient::new(near, PATIENCE, Arc::clone(&requests));
        let mut room = [0; 64];
        far.write_all(b"head").await.unwrap();
        assert_eq!(near.read(&mut room).await.unwrap(), 4);
        drop(requests.begins());
        assert!(requests.are_answered());
        tokio::spawn(async move {
            sleep(PATIENCE * 2).await;
            far.write_all(b"next").await.unwrap();
            sleep(PATIENCE).await;
        });
        assert_eq!(near.read(&mut room).await.unwrap(), 4);
    }

    #[tokio::test]
    async fn who_asks_and_takes_nothing_rests() {
        let (near, mut far) = duplex(64);
        let requests = Arc::new(Requests::default());
        let mut near = Patient::new(near, PATIENCE, Arc::clone(&requests));
        let asked = requests.begins();
        assert!(timeout(PATIENCE, requests.rest(PATIENCE / 8)).await.is_err());
        drop(asked);
        tokio::spawn(async move { while far.read_u8().await.is_ok() {} });
        let follows = async {
            while near.write_all(b"x").await.is_ok() && {
                sleep(PATIENCE / 16).await;
                true
            } {}
        };
        tokio::select! {
            () = follows => {}
            rested = timeout(PATIENCE * 3, requests.rest(PATIENCE * 2)) => assert!(rested.is_err()),
        }
        assert!(timeout(PATIENCE * 60, requests.rest(PATIENCE / 8)).await.is_ok());
    }

    #[tokio::test]
    async fn what_is_still_sent_is_read_at_the_end() {
        let (near, mut far) = duplex(4);
        let mut near = Patient::new(near, PATIENCE, Arc::default());
        let sender = tokio::spawn(async move {
            let sent = far.write_all(&[0; 1_000]).await;
            drop(far);
            sent.is_ok()
        });
        near.shutdown().await.unwrap();
        assert!(sender.await.unwrap());
    }
}

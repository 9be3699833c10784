//! One child: what is asked is written to it, and what it answers is handed on.

use crate::engine::answer::Answer;
use crate::engine::child::{kill, reap, Started, LONGEST_ANSWER};
use crate::engine::flight::Flight;
use crate::engine::{Asked, Group, Listener, Outcome, Told};
use crate::locks::locked;
use std::sync::{Arc, Mutex};
use std::time::{Duration, Instant};
use tokio::io::{AsyncReadExt, AsyncWriteExt, BufReader};
use tokio::process::{ChildStdin, ChildStdout};
use tokio::sync::{mpsc, oneshot};
use tokio::task::{yield_now, JoinHandle};
use tokio::time::{sleep, timeout};

/// How many bytes of questions are written at once, but for a group that is longer by itself.
const WRITTEN_AT_ONCE: usize = 32_768;

/// The most bytes of answers that are read at once.
const READ_AT_ONCE: usize = 65_536;

/// How long a child may answer nothing that it was asked; then it is ended.
pub const LONGEST_SILENCE: Duration = Duration::from_secs(60);

/// How often it is looked whether a child answers.
const BETWEEN_LOOKS: Duration = Duration::from_secs(15);

/// Those who wait for an answer that doesn't come any more.
pub(crate) type Unanswered = Vec<oneshot::Sender<Outcome>>;

/// How a conversation ended.
#[derive(Clone, Debug, PartialEq, Eq)]
pub(crate) enum How {
    /// It was asked to.
    InOrder,
    /// The child was lost.
    Lost(String),
    /// Nobody is there who could ask.
    Unasked,
}

/// Who waits for an answer.
#[derive(Debug)]
struct Waiter<A> {
    to: oneshot::Sender<Outcome>,
    about: A,
    written: Instant,
}

/// What was written, and when something was answered last.
#[derive(Debug)]
struct Air<A> {
    flight: Flight<Waiter<A>>,
    answered: Instant,
}

/// Writes what comes, until the child ends; how it did, and what wasn't answered.
pub(crate) async fn converse<A: Send + 'static>(
    started: Started,
    unwritten: &mut mpsc::Receiver<Group<A>>,
    listener: &Arc<dyn Listener<A>>,
) -> (How, Unanswered) {
    let (child, mut input, output) = started.parts();
    let air = Arc::new(Mutex::new(Air { flight: Flight::default(), answered: Instant::now() }));
    let mut reader = tokio::spawn(read_all(output, Arc::clone(&air), Arc::clone(listener)));
    let written = write_all(&mut input, unwritten, &air, listener, &mut reader).await;
    let how = match written {
        How::InOrder => {
            let last = timeout(LONGEST_SILENCE, &mut reader).await;
            drop(input);
            match last {
                Ok(_) if locked(&air).flight.is_empty() => How::InOrder,
                _ => How::Lost("it didn't answer its end".to_string()),
            }
        }
        other => other,
    };
    if how == How::InOrder {
        reap(child).await;
    } else {
        kill(child).await;
    }
    reader.abort();
    let unanswered = locked(&air).flight.lose().into_iter().map(|waiter| waiter.to).collect();
    (how, unanswered)
}

/// Writes group after group, until one is the end, or the child is lost.
async fn write_all<A: Send + 'static>(
    input: &mut ChildStdin,
    unwritten: &mut mpsc::Receiver<Group<A>>,
    air: &Mutex<Air<A>>,
    listener: &Arc<dyn Listener<A>>,
    reader: &mut JoinHandle<String>,
) -> How {
    let mut lines = String::new();
    let look = sleep(BETWEEN_LOOKS);
    tokio::pin!(look);
    loop {
        let is_waiting = !locked(air).flight.is_empty();
        tokio::select! {
            why = &mut *reader => return How::Lost(why.unwrap_or_else(|_| "its answers broke the reader".to_string())),
            () = &mut look, if is_waiting => {
                if is_silent(air) {
                    return How::Lost("it answers nothing".to_string());
                }
                look.as_mut().reset(tokio::time::Instant::now() + BETWEEN_LOOKS);
            }
            group = unwritten.recv() => {
                let Some(group) = group else { return How::Unasked };
                lines.clear();
                // those who are about to ask do so first
                yield_now().await;
                let (count, is_end) = gather(group, unwritten, air, &mut lines);
                listener.wrote(count);
                match timeout(LONGEST_SILENCE, input.write_all(lines.as_bytes())).await {
                    Ok(Ok(())) if is_end => return How::InOrder,
                    Ok(Ok(())) => {}
                    Ok(Err(error)) => return How::Lost(format!("nothing can be asked: {error}")),
                    Err(_) => return How::Lost("it reads nothing".to_string()),
                }
            }
        }
    }
}

fn is_silent<A>(air: &Mutex<Air<A>>) -> bool {
    let air = locked(air);
    !air.flight.is_empty() && air.answered.elapsed() >= LONGEST_SILENCE
}

/// The lines of a group, and of those that were asked by now; how many questions these are, and whether the last is the end.
fn gather<A>(group: Group<A>, unwritten: &mut mpsc::Receiver<Group<A>>, air: &Mutex<Air<A>>, lines: &mut String) -> (usize, bool) {
    let (mut air, now) = (locked(air), Instant::now());
    if air.flight.is_empty() {
        air.answered = now;
    }
    let (mut next, mut count) = (Some(group), 0);
    while let Some(group) = next {
        let Group { first, rest, is_end } = group;
        count += 1 + rest.len();
        add_line(&mut air.flight, first, now, lines);
        rest.into_iter().for_each(|asked| add_line(&mut air.flight, asked, now, lines));
        if is_end {
            return (count, true);
        }
        next = (lines.len() < WRITTEN_AT_ONCE).then(|| unwritten.try_recv().ok()).flatten();
    }
    (count, false)
}

fn add_line<A>(flight: &mut Flight<Waiter<A>>, asked: Asked<A>, written: Instant, lines: &mut String) {
    let Asked { question, to } = asked;
    let tag = flight.expect(question.form, Waiter { to, about: question.about, written });
    lines.push_str(itoa::Buffer::new().format(tag));
    lines.push(' ');
    lines.push_str(&question.words);
    lines.push('\n');
}

/// Hands each answer to whoever asked; why there are no more.
async fn read_all<A: 'static>(mut output: BufReader<ChildStdout>, air: Arc<Mutex<Air<A>>>, listener: Arc<dyn Listener<A>>) -> String {
    let mut read = Vec::new();
    loop {
        read.reserve(READ_AT_ONCE);
        match output.read_buf(&mut read).await {
            Ok(0) => return "its output has ended".to_string(),
            Ok(_) => {}
            Err(error) => return format!("its output can't be read: {error}"),
        }
        match hand_on(&read, &air, &listener) {
            Ok(count) => drop(read.drain(..count)),
            Err(why) => return why,
        }
    }
}

/// Hands on what the whole lines answer; how many bytes these are.
fn hand_on<A: 'static>(read: &[u8], air: &Mutex<Air<A>>, listener: &Arc<dyn Listener<A>>) -> Result<usize, String> {
    let (mut rest, now) = (read, Instant::now());
    while let Some((line, behind)) = first_line(rest)? {
        tell(line, now, air, listener)?;
        rest = behind;
    }
    Ok(read.len() - rest.len())
}

/// The first line, without its LF, and what is behind it; nothing where its end isn't there.
fn first_line(read: &[u8]) -> Result<Option<(&str, &[u8])>, String> {
    let no_line = || "a line of its output is none".to_string();
    let end = read.iter().position(|byte| *byte == b'\n');
    if end.unwrap_or(read.len()) >= LONGEST_ANSWER as usize {
        return Err(no_line());
    }
    let Some(end) = end else { return Ok(None) };
    let line = std::str::from_utf8(&read[..end]).map_err(|_| no_line())?;
    Ok(Some((line, &read[end + 1..])))
}

fn tell<A: 'static>(line: &str, now: Instant, air: &Mutex<Air<A>>, listener: &Arc<dyn Listener<A>>) -> Result<(), String> {
    let whole = {
        let mut air = locked(air);
        air.answered = now;
        air.flight.take(line).map_err(|no_answer| no_answer.0)?
    };
    let Some(whole) = whole else { return Ok(()) };
    let answer = Answer::read(whole.line).ok_or_else(|| format!("no answer of a store: {}", whole.line.escape_debug()))?;
    let Waiter { to, about, written } = whole.asker;
    listener.answered(&about, answer, &whole.listed, now.saturating_duration_since(written));
    // whoever is woken by that isn't woken again by the answer
    drop(about);
    // who doesn't wait any more needs no answer
    let _ = to.send(Ok(Told { listed: whole.listed, line: whole.line.to_string() }));
    Ok(())
}

#[cfg(test)]
mod tests {
    use super::first_line;

    #[test]
    fn lines_are_whole_and_not_too_long() {
        assert_eq!(first_line(b"1 ok\n2 o"), Ok(Some(("1 ok", b"2 o".as_slice()))));
        assert_eq!((first_line(b"2 o"), first_line(b"")), (Ok(None), Ok(None)));
        let (longest, longer) = ("x".repeat(4_095), "x".repeat(4_096));
        assert_eq!(first_line(format!("{longest}\n").as_bytes()), Ok(Some((longest.as_str(), b"".as_slice()))));
        assert_eq!(first_line(longest.as_bytes()), Ok(None));
        for none in [longer.as_bytes(), format!("{longer}\n").as_bytes(), b"1 \xff\n"] {
            assert!(first_line(none).is_err());
        }
    }
}

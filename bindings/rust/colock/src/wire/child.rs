//! The child process `colock serve`, the thread that reads what it answers, and the requests to it.

use crate::error::Error;
use crate::failure::Failure;
use crate::fork::{Origin, Unforked};
use crate::key::Key;
use crate::locks::locked;
use crate::shared::state::State;
use crate::wire::claims::{Claim, Claims};
use crate::wire::flight::{no_line, Flight};
use crate::wire::past::Found;
use crate::wire::pipe::taken_at_once;
use crate::wire::program::{found_in, nameless_file, said_in};
use crate::wire::request::{answer, Answer, Commits, Request};
use crate::wire::slot::{Form, Pending, Slot};
use std::fs::File;
use std::io::{self, ErrorKind, Read, Write};
use std::os::unix::process::CommandExt;
use std::process::{Child, ChildStdin, ChildStdout, Command, Stdio};
use std::sync::{Arc, Mutex, OnceLock, Weak};
use std::thread;
use std::time::{Duration, Instant};

/// The most bytes of a line that is an answer. One that tells what a transaction holds that is prepared may have the number of each object.
const LONGEST_ANSWER: usize = 524_288;

/// How many bytes of answers are read at once.
const READ_AT_ONCE: usize = 65_536;

/// How long who writes waits for those who were just answered.
const LONGEST_GATHERING: Duration = Duration::from_micros(200);

/// How long a child that has closed its output may take to end, between two looks.
const BETWEEN_LOOKS: Duration = Duration::from_millis(1);

/// A child with its requests in flight. Its own locks are held for moments only, and none of them with another.
#[derive(Debug)]
pub(crate) struct Link {
    child: Mutex<Child>,
    /// Of whom writes what is in flight. It is gone where the child was reaped.
    input: Mutex<Option<Unforked<ChildStdin>>>,
    flight: Mutex<Flight>,
    /// What it says on standard error.
    said: File,
    limit: Duration,
    /// The process of which it is the child.
    origin: Origin,
    /// Why it is lost, by whoever found it first.
    reason: OnceLock<String>,
    /// The store whose waiters are woken where the child is lost.
    store: OnceLock<Weak<Mutex<State>>>,
}

/// Reads what is there; how many bytes that are.
fn read_more(output: &mut Unforked<ChildStdout>, room: &mut [u8]) -> io::Result<usize> {
    loop {
        match output.read(room) {
            Err(error) if error.kind() == ErrorKind::Interrupted => {}
            count => return count,
        }
    }
}

impl Link {
    /// Starts a child in a process group of its own, so that a signal to the client's group, as an interrupt from the
    /// keyboard, reaches the client alone. A session of its own would do no more against that, and needs unsafe code.
    /// Its greeting comes into the slot.
    pub(crate) fn start(mut command: Command, limit: Duration) -> Result<(Arc<Link>, Arc<Slot>), Failure> {
        let no_file = |error| Failure::of("no file for standard error", error);
        let said = nameless_file().map_err(no_file)?;
        let error = said.try_clone().map_err(no_file)?;
        command.stdin(Stdio::piped()).stdout(Stdio::piped()).stderr(error).process_group(0);
        let mut child = command.spawn().map_err(|error| Failure::of(command.get_program().to_string_lossy(), error))?;
        let (Some(input), Some(output)) = (child.stdin.take(), child.stdout.take()) else {
            return Err("the child has no pipes".to_string().into());
        };
        let (input, output) = (Mutex::new(Some(Unforked::new(input))), Unforked::new(output));
        let greeting = Arc::new(Slot::default());
        let slot = Arc::clone(&greeting);
        let first = Pending { tag: 0, form: Form::Greeting, commits: Commits::Nothing, wakes: false, is_last: false, claim: None, slot };
        let (child, flight, origin) = (Mutex::new(child), Mutex::new(Flight::new(first)), Origin::here());
        let link = Arc::new(Link { child, input, flight, said, limit, origin, reason: OnceLock::new(), store: OnceLock::new() });
        let reading = Arc::clone(&link);
        let reader = thread::Builder::new().name("colock answers".to_string()).spawn(move || reading.read_all(output));
        match reader {
            Ok(_) => Ok((link, greeting)),
            Err(error) => {
                link.kill();
                Err(Failure::of("no thread for answers", error))
            }
        }
    }

    /// Whose waiters are woken where the child is lost.
    pub(crate) fn belongs_to(&self, store: &Arc<Mutex<State>>) {
        let _ = self.store.set(Arc::downgrade(store));
    }

    /// The number of the process.
    pub(crate) fn process(&self) -> u32 {
        locked(&self.child).id()
    }

    pub(crate) fn limit(&self) -> Duration {
        self.limit
    }

    /// What it says that it found.
    pub(crate) fn found(&self) -> Option<Found> {
        found_in(&self.said)
    }

    // ---- the reader

    /// Takes each answer, until none comes any more.
    fn read_all(&self, mut output: Unforked<ChildStdout>) {
        let (mut room, mut lines) = (vec![0; READ_AT_ONCE], Vec::new());
        let words = loop {
            match read_more(&mut output, &mut room) {
                Ok(0) if lines.is_empty() => break "the program ended".to_string(),
                Ok(0) => break no_line(&lines),
                Ok(count) => lines.extend_from_slice(&room[..count]),
                Err(error) => break format!("no answer can be read: {error}"),
            }
            let whole = lines.iter().rposition(|byte| *byte == b'\n').map_or(0, |place| place + 1);
            if let Err(words) = self.take(&lines[..whole]) {
                break words;
            }
            lines.drain(..whole);
            if lines.len() > LONGEST_ANSWER {
                break no_line(&lines);
            }
        };
        self.is_over(&words);
    }

    /// Takes whole lines: each goes to whoever asked first of those that aren't answered.
    fn take(&self, lines: &[u8]) -> Result<(), String> {
        let mut whole = Vec::new();
        let (taken, is_to_write) = {
            let mut flight = locked(&self.flight);
            let taken = lines.split_inclusive(|byte| *byte == b'\n').try_for_each(|line| flight.take(line, &mut whole));
            flight.answers(&whole);
            (taken, flight.is_to_write())
        };
        // without the lock, since those who are woken take it
        whole.iter().for_each(|(pending, answer)| pending.close(answer));
        if is_to_write {
            self.write_gathered();
        }
        taken
    }

    /// No more answers come.
    fn is_over(&self, words: &str) {
        if !locked(&self.flight).is_closed() {
            self.lose(words);
        }
        self.wake_waiters();
    }

    /// Wakes whoever waits at the store of a child that is lost. The caller has no lock.
    fn wake_waiters(&self) {
        if let Some(store) = self.store.get().and_then(Weak::upgrade) {
            locked(&store).lost();
        }
    }

    // ---- how it is lost

    /// The child is killed and reaped, and all requests in flight fail. Whoever sleeps is woken by the reader, whose
    /// pipe ends.
    pub(crate) fn lose(&self, words: &str) {
        // before the kill, after which the reader finds that the output has ended
        let words = self.reason.get_or_init(|| words.to_string());
        self.kill();
        let words = self.with_said(words);
        let doomed = locked(&self.flight).lose(&words);
        let error = Error::ConnectionLost(words);
        doomed.iter().for_each(|pending| pending.fail(&error));
    }

    /// Words, and what the child said.
    fn with_said(&self, words: &str) -> String {
        let said = said_in(&self.said);
        if said.is_empty() {
            words.to_string()
        } else {
            format!("{words}: {said}")
        }
    }

    fn kill(&self) {
        if self.is_here().is_err() {
            return; // it is the child of another process
        }
        let mut child = locked(&self.child);
        // both fail only where it was reaped before
        let _ = child.kill();
        let _ = child.wait();
    }

    /// That this process has the child, and isn't a fork of the one that has.
    #[inline]
    pub(crate) fn is_here(&self) -> Result<(), Error> {
        self.origin.is_here()
    }

    /// Why nothing can be asked any more.
    pub(crate) fn lost(&self) -> Option<Error> {
        locked(&self.flight).refusal()
    }

    /// Whether something was read that isn't answered, and what was asked after it is.
    pub(crate) fn has_late(&self) -> bool {
        locked(&self.flight).has_late()
    }

    /// An answer that isn't one to what was asked.
    pub(crate) fn broken(&self, line: &str) -> Error {
        self.lose(&format!("no answer to what was asked: {line}"));
        self.lost().unwrap_or(Error::ConnectionLost(String::new()))
    }

    // ---- requests

    /// Puts requests after those that aren't answered. Where the child is lost, or is to end, they fail.
    fn expect(&self, requests: &mut Vec<Pending>, lines: &mut Vec<u8>) -> Result<(), Error> {
        let mut flight = locked(&self.flight);
        if let Some(error) = flight.refusal() {
            requests.drain(..).for_each(|pending| pending.fail(&error));
            lines.clear();
            return Err(error);
        }
        flight.expect(requests, lines);
        Ok(())
    }

    /// Writes what was asked up to now, where no other thread is about to and all that was written is answered: else it is
    /// written after these answers. It is called without a lock that others take who ask.
    pub(crate) fn write(&self) {
        let is_to_write = {
            let mut flight = locked(&self.flight);
            flight.has_lines() && flight.is_to_write()
        };
        if is_to_write {
            self.write_gathered();
        }
    }

    /// Writes what is asked, by a thread that is to write.
    fn write_gathered(&self) {
        loop {
            let lines = self.gathered();
            let written = match &mut *locked(&self.input) {
                _ if lines.is_empty() => Ok(()),
                Some(input) => input.write_all(&lines),
                None => Err(ErrorKind::BrokenPipe.into()),
            };
            if let Err(error) = written {
                // the slots have the failure
                self.lose(&format!("nothing can be asked: {error}"));
            }
            let mut flight = locked(&self.flight);
            flight.has_written();
            // that was answered meanwhile, and more was asked
            if !flight.has_lines() || !flight.is_to_write() {
                return;
            }
        }
    }

    /// The lines that are to be written, when those were waited for who are about to ask.
    fn gathered(&self) -> Vec<u8> {
        let start = Instant::now();
        let room = locked(&self.input).as_ref().map_or(0, |input| taken_at_once(&**input));
        loop {
            let mut flight = locked(&self.flight);
            if flight.is_whole() || start.elapsed() >= LONGEST_GATHERING {
                return flight.taken(room);
            }
            drop(flight);
            thread::yield_now();
        }
    }

    /// The answer to a request, which is waited for. Where none comes within the limit, the child is lost.
    pub(crate) fn answered(&self, slot: &Slot) -> Result<String, Error> {
        self.write();
        if let Some(answer) = slot.answer_until(Instant::now().checked_add(self.limit)) {
            return answer;
        }
        self.lose(&format!("no answer within {:?}", self.limit));
        // it is there, or failed by whoever found first that the child is lost
        slot.answer_until(None).unwrap_or(Err(Error::ConnectionLost(String::new())))
    }

    /// Waits for the child that was asked for the end, and kills it where it doesn't end within the limit. That is an error,
    /// and so is an end in disorder.
    pub(crate) fn reap(&self) -> Result<(), Error> {
        drop(locked(&self.input).take());
        let start = Instant::now();
        while start.elapsed() < self.limit {
            let ended = locked(&self.child).try_wait();
            match ended {
                Ok(None) => thread::sleep(BETWEEN_LOOKS),
                Ok(Some(status)) if !status.success() => return Err(self.disorder(&format!("the program ended with {status}"))),
                _ => return Ok(()), // where somebody else reaped it, nothing is known of its end
            }
        }
        self.kill();
        Err(self.disorder(&format!("the program didn't end within {:?}", self.limit)))
    }

    fn disorder(&self, words: &str) -> Error {
        Error::ConnectionLost(self.with_said(words))
    }
}

/// What is said to a child, in one order. It is under the lock of its store.
#[derive(Debug)]
pub(crate) struct Conversation {
    link: Arc<Link>,
    /// The lines that aren't asked yet, and their requests.
    lines: Vec<u8>,
    requests: Vec<Pending>,
    tag: u64,
    claims: Box<Claims>,
}

impl Conversation {
    pub(crate) fn new(link: Arc<Link>) -> Conversation {
        Conversation { link, lines: Vec::new(), requests: Vec::new(), tag: 0, claims: Box::default() }
    }

    /// Puts a request after those that are to be asked. Its answer comes into the slot, after `ask_all`.
    pub(crate) fn put(&mut self, request: Request<'_>) -> Arc<Slot> {
        self.put_so(request, false)
    }

    /// The same, where what others ask meanwhile may go before it.
    pub(crate) fn put_last(&mut self, request: Request<'_>) -> Arc<Slot> {
        self.put_so(request, true)
    }

    /// The same, of a part of what a thread asks, which waits for a later part too.
    pub(crate) fn put_part(&mut self, request: Request<'_>) -> Arc<Slot> {
        let slot = self.put(request);
        if let Some(pending) = self.requests.last_mut() {
            pending.wakes = false;
        }
        slot
    }

    /// The claim of a key, which requests under it have.
    pub(crate) fn claim(&mut self, key: Key<'_>) -> Arc<Claim> {
        self.claims.of(key)
    }

    fn put_so(&mut self, request: Request<'_>, is_last: bool) -> Arc<Slot> {
        self.tag += 1;
        // a write into memory doesn't fail
        let _ = writeln!(self.lines, "{} {request}", self.tag);
        let form = match request {
            Request::End => Form::End,
            Request::Extend(_) => Form::Late,
            _ if request.is_list() => Form::List,
            _ => Form::One,
        };
        let slot = Arc::new(Slot::default());
        let wakes = !matches!(request, Request::Begin | Request::Abort(_) | Request::Extend(_));
        let claim = request.key().map(|key| self.claim(key));
        self.requests.push(Pending { tag: self.tag, form, commits: request.commits(), wakes, is_last, claim, slot: Arc::clone(&slot) });
        slot
    }

    /// That something can be asked, as far as is known.
    pub(crate) fn check(&self) -> Result<(), Error> {
        match self.link.reason.get() {
            Some(_) => self.link.lost().map_or(Ok(()), Err),
            None => Ok(()),
        }
    }

    /// Asks what was put. It is to be written by `Link::write`, which `Link::answered` does.
    pub(crate) fn ask_all(&mut self) -> Result<(), Error> {
        if self.requests.is_empty() {
            return Ok(());
        }
        // before any lock that is needed for it: in a fork it may be held for ever
        self.link.is_here()?;
        self.link.expect(&mut self.requests, &mut self.lines)
    }

    /// Asks for something and waits for the answer, with the lock.
    pub(crate) fn ask(&mut self, request: Request<'_>) -> Result<String, Error> {
        let slot = self.put(request);
        self.ask_all()?;
        self.link.answered(&slot)
    }
}

impl Drop for Link {
    fn drop(&mut self) {
        // its reader and its store are gone, so that its output has ended
        self.kill();
    }
}

/// The lines of a list, and nothing of the `ok` after them.
pub(crate) fn listed<'t>(link: &Link, text: &'t str) -> Result<&'t str, Error> {
    let (lines, last) = match text.rfind('\n') {
        Some(place) => (&text[..=place], &text[place + 1..]),
        None => ("", text),
    };
    match answer(last) {
        Some(Answer::Ok("")) => Ok(lines),
        Some(Answer::Refused(error)) => Err(error),
        _ => Err(link.broken(last)),
    }
}

/// What comes after an `ok`.
pub(crate) fn ok<'t>(link: &Link, text: &'t str) -> Result<&'t str, Error> {
    match answer(text) {
        Some(Answer::Ok(rest)) => Ok(rest),
        Some(Answer::Refused(error)) => Err(error),
        _ => Err(link.broken(text)),
    }
}

//! What was asked of a child and isn't answered.
//!
//! All that is written is answered before more is written, but for what may be answered later than what comes after it: that
//! was read, once what comes after it is answered. An answer to a commit waits for the disk, and with it all that
//! was written beside it. So commits let what others ask go first, once: that is answered at once, these threads ask for
//! their own commits meanwhile, and more commits share a sync.

use crate::error::Error;
use crate::wire::gather::Gather;
use crate::wire::slot::{Form, Pending};
use std::collections::VecDeque;
use std::mem;

/// How many bytes of requests are written at once at most.
const WRITTEN_AT_ONCE: usize = 32_768;

/// More bytes than the request has that goes with one which may be answered late.
const NEXT_OF_LATE: usize = 64;

/// Requests that aren't written yet, each with one line.
#[derive(Debug, Default)]
struct Batch {
    requests: Vec<Pending>,
    lines: Vec<u8>,
}

impl Batch {
    fn is_empty(&self) -> bool {
        self.requests.is_empty()
    }

    fn append(&mut self, requests: &mut Vec<Pending>, lines: &mut Vec<u8>) {
        self.requests.append(requests);
        self.lines.append(lines);
    }

    /// The first of them, of at most this many bytes, or the very first alone. What may be answered late goes with the next one.
    fn taken(&mut self, most: usize) -> Batch {
        if self.lines.len() <= most {
            return mem::take(self);
        }
        let (mut count, mut end) = (0, 0);
        for line in self.lines.split_inclusive(|byte| *byte == b'\n') {
            let goes_with_last = count == 0 || self.requests[count - 1].form == Form::Late;
            if !goes_with_last && end + line.len() > most {
                break;
            }
            count += 1;
            end += line.len();
        }
        let (requests, lines) = (self.requests.split_off(count), self.lines.split_off(end));
        mem::replace(self, Batch { requests, lines })
    }
}

/// What was asked and isn't answered.
#[derive(Debug)]
pub(crate) struct Flight {
    /// What was written, in its order.
    queue: VecDeque<Pending>,
    /// What is answered later than what came after it.
    late: Vec<Pending>,
    /// What is written next, in the order in which it was asked.
    next: Batch,
    /// The commits that let it go first, and whether they did so when something was written last.
    last: Batch,
    have_let: bool,
    /// Whether a thread is about to write.
    is_writing: bool,
    gather: Gather,
    /// Whether the end was asked for.
    is_ending: bool,
    /// Why nothing can be asked any more.
    lost: Option<String>,
}

/// Requests that were answered, each with the last line of its answer.
pub(crate) type Whole<'l> = Vec<(Pending, &'l str)>;

impl Flight {
    /// One request is in flight, without a line.
    pub(crate) fn new(first: Pending) -> Flight {
        Flight {
            queue: VecDeque::from([first]),
            late: Vec::new(),
            next: Batch::default(),
            last: Batch::default(),
            have_let: false,
            is_writing: false,
            gather: Gather::default(),
            is_ending: false,
            lost: None,
        }
    }

    // ---- what is asked

    /// Takes requests with their lines.
    pub(crate) fn expect(&mut self, requests: &mut Vec<Pending>, lines: &mut Vec<u8>) {
        self.is_ending |= requests.iter().any(|pending| pending.form == Form::End);
        // one that came with a begin stays after it
        let is_last = requests.len() == 1 && requests[0].is_last;
        let batch = if is_last { &mut self.last } else { &mut self.next };
        batch.append(requests, lines);
        self.gather.asks();
    }

    // ---- what is written

    pub(crate) fn has_lines(&self) -> bool {
        !self.next.is_empty() || !self.last.is_empty()
    }

    /// Whether a thread is to write what was asked, or is about to be, since all that was written is answered, and no other
    /// thread does. The answer is yes once.
    pub(crate) fn is_to_write(&mut self) -> bool {
        let is_to_write = !self.is_writing && self.queue.is_empty();
        self.is_writing |= is_to_write;
        is_to_write
    }

    /// Whether everybody has asked who is waited for.
    pub(crate) fn is_whole(&self) -> bool {
        self.gather.is_whole()
    }

    /// The lines that are written now, of no more bytes than the pipe takes: it is empty, since all that was written is
    /// answered. So who writes them never waits for the child to read, which may itself wait for who writes to read.
    pub(crate) fn taken(&mut self, room: usize) -> Vec<u8> {
        self.gather.writes();
        self.have_let = !self.have_let && !self.is_ending && !self.next.is_empty() && !self.last.is_empty();
        if !self.have_let {
            let mut next = mem::replace(&mut self.next, mem::take(&mut self.last));
            self.next.append(&mut next.requests, &mut next.lines);
        }
        let batch = self.next.taken(room.saturating_sub(NEXT_OF_LATE).min(WRITTEN_AT_ONCE));
        self.queue.extend(batch.requests);
        batch.lines
    }

    /// They are written.
    pub(crate) fn has_written(&mut self) {
        self.is_writing = false;
    }

    // ---- what is answered

    /// Takes a line. Where an answer is whole by it, the request is answered.
    pub(crate) fn take<'l>(&mut self, line: &'l [u8], whole: &mut Whole<'l>) -> Result<(), String> {
        let text = line.strip_suffix(b"\n").and_then(|text| std::str::from_utf8(text).ok()).ok_or_else(|| no_line(line))?;
        while self.queue.front().is_some_and(|head| head.form == Form::Late && head.own(text).is_none()) {
            self.late.extend(self.queue.pop_front());
        }
        let is_own = |(place, pending): (usize, &Pending)| pending.own(text).map(|answer| (place, answer));
        if let Some((place, answer)) = self.late.iter().enumerate().find_map(is_own) {
            whole.push((self.late.swap_remove(place), answer));
            return Ok(());
        }
        let head = self.queue.front().ok_or_else(|| format!("an answer that nobody asked for: {text}"))?;
        let answer = head.own(text).ok_or_else(|| format!("an answer to another request: {text}"))?;
        if !head.ends_with(answer) {
            head.add(answer);
        } else if let Some(head) = self.queue.pop_front() {
            whole.push((head, answer));
        }
        Ok(())
    }

    /// These are answered.
    pub(crate) fn answers(&mut self, whole: &Whole<'_>) {
        self.gather.answers(whole.iter().filter(|(pending, _)| pending.wakes).count() as u64);
    }

    // ---- how it ends

    /// Why nothing can be asked any more: it is lost, or the end was asked for.
    pub(crate) fn refusal(&self) -> Option<Error> {
        match &self.lost {
            Some(words) => Some(Error::ConnectionLost(words.clone())),
            None => self.is_ending.then_some(Error::Closed),
        }
    }

    /// Whether something is known to be answered late.
    pub(crate) fn has_late(&self) -> bool {
        !self.late.is_empty()
    }

    /// Whether the end was asked for and all is answered.
    pub(crate) fn is_closed(&self) -> bool {
        self.is_ending && self.queue.is_empty() && self.late.is_empty() && !self.has_lines()
    }

    /// Nothing can be asked any more. These aren't answered.
    pub(crate) fn lose(&mut self, words: &str) -> Vec<Pending> {
        self.lost.get_or_insert_with(|| words.to_string());
        let unwritten = mem::take(&mut self.next).requests.into_iter().chain(mem::take(&mut self.last).requests);
        mem::take(&mut self.queue).into_iter().chain(mem::take(&mut self.late)).chain(unwritten).collect()
    }
}

/// That a line isn't one.
pub(crate) fn no_line(line: &[u8]) -> String {
    format!("no whole line of text: {}", shown(line))
}

/// The beginning of a line, for words.
fn shown(line: &[u8]) -> String {
    String::from_utf8_lossy(&line[..line.len().min(80)]).escape_debug().to_string()
}

#[cfg(test)]
mod tests {
    use super::{Flight, NEXT_OF_LATE, WRITTEN_AT_ONCE};
    use crate::wire::request::Commits;
    use crate::wire::slot::{Form, Pending, Slot};
    use crate::Error;
    use std::sync::Arc;

    /// What a pipe takes.
    const ROOM: usize = 65_536;

    fn pending(tag: u64, is_last: bool) -> Pending {
        Pending { tag, form: Form::One, commits: Commits::Nothing, wakes: true, is_last, claim: None, slot: Arc::new(Slot::default()) }
    }

    /// A flight whose greeting is there.
    fn greeted() -> Flight {
        let mut flight = Flight::new(Pending { form: Form::Greeting, ..pending(0, false) });
        flight.take(b"colock 5 1\n", &mut Vec::new()).unwrap();
        flight
    }

    fn asks(flight: &mut Flight, tag: u64, is_last: bool) {
        flight.expect(&mut vec![pending(tag, is_last)], &mut format!("{tag} word\n").into_bytes());
    }

    /// What is written, and all of it is answered.
    fn written(flight: &mut Flight) -> String {
        assert!(flight.is_to_write() && !flight.is_to_write());
        let lines = String::from_utf8(flight.taken(ROOM)).unwrap();
        flight.has_written();
        for line in lines.lines() {
            assert!(!flight.is_to_write());
            let tag = line.split(' ').next().unwrap();
            flight.take(format!("{tag} ok\n").as_bytes(), &mut Vec::new()).unwrap();
        }
        lines
    }

    #[test]
    fn commits_let_others_go_first_once() {
        let mut flight = greeted();
        for (tag, is_last) in [(1, true), (2, false), (3, true), (4, false)] {
            asks(&mut flight, tag, is_last);
        }
        assert_eq!(written(&mut flight), "2 word\n4 word\n");
        asks(&mut flight, 5, false);
        asks(&mut flight, 6, true);
        assert_eq!(written(&mut flight), "1 word\n3 word\n6 word\n5 word\n");
        asks(&mut flight, 7, true);
        assert_eq!(written(&mut flight), "7 word\n");
        assert!(!flight.has_lines());
    }

    #[test]
    fn nothing_goes_after_the_end() {
        let mut flight = greeted();
        asks(&mut flight, 1, true);
        flight.expect(&mut vec![Pending { form: Form::End, ..pending(2, false) }], &mut b"2 end\n".to_vec());
        assert!(!flight.is_closed());
        assert_eq!(written(&mut flight), "1 word\n2 end\n");
        assert!(flight.is_closed() && flight.refusal() == Some(Error::Closed));
    }

    #[test]
    fn a_commit_stays_after_a_begin_that_it_came_with() {
        let mut flight = greeted();
        flight.expect(&mut vec![pending(1, false), pending(2, true)], &mut b"1 begin\n2 commit\n".to_vec());
        asks(&mut flight, 3, false);
        assert_eq!(written(&mut flight), "1 begin\n2 commit\n3 word\n");
    }

    #[test]
    fn long_groups_are_written_in_parts() {
        let mut flight = greeted();
        let tags = 1..=(WRITTEN_AT_ONCE as u64 / 4);
        tags.clone().for_each(|tag| asks(&mut flight, tag, false));
        let mut lines = String::new();
        while flight.has_lines() {
            let part = written(&mut flight);
            assert!(part.len() <= WRITTEN_AT_ONCE);
            lines.push_str(&part);
        }
        let whole: String = tags.map(|tag| format!("{tag} word\n")).collect();
        assert_eq!(lines, whole);
    }

    #[test]
    fn no_more_is_written_than_a_pipe_takes() {
        let mut flight = greeted();
        (1..=3).for_each(|tag| asks(&mut flight, tag, false));
        assert!(flight.is_to_write());
        assert_eq!(flight.taken("1 word\n2 word\n3".len() + NEXT_OF_LATE), b"1 word\n2 word\n");
    }

    /// One that may be answered late, and one that goes with it.
    fn asks_late(flight: &mut Flight, tag: u64) {
        let late = Pending { form: Form::Late, ..pending(tag, false) };
        flight.expect(&mut vec![late, pending(tag + 1, false)], &mut format!("{tag} late\n{} word\n", tag + 1).into_bytes());
    }

    #[test]
    fn what_is_answered_late_keeps_nothing_from_being_written() {
        let mut flight = greeted();
        asks_late(&mut flight, 1);
        assert!(flight.is_to_write());
        assert_eq!(flight.taken(ROOM), b"1 late\n2 word\n");
        flight.has_written();
        asks(&mut flight, 3, false);
        assert!(!flight.is_to_write());
        let mut whole = Vec::new();
        flight.take(b"2 ok\n", &mut whole).unwrap();
        assert_eq!(written(&mut flight), "3 word\n");
        asks_late(&mut flight, 4);
        assert!(flight.is_to_write());
        flight.taken(ROOM);
        for line in [&b"4 no room\n"[..], b"5 ok\n", b"1 ok 7\n"] {
            flight.take(line, &mut whole).unwrap();
        }
        let told: Vec<(u64, &str)> = whole.iter().map(|(pending, answer)| (pending.tag, *answer)).collect();
        assert_eq!(told, [(2, "ok"), (4, "no room"), (5, "ok"), (1, "ok 7")]);
        assert!(flight.take(b"1 ok 7\n", &mut Vec::new()).is_err());
    }

    #[test]
    fn what_is_answered_late_is_lost_too() {
        let mut flight = greeted();
        asks_late(&mut flight, 1);
        assert!(flight.is_to_write());
        flight.taken(ROOM);
        flight.take(b"2 ok\n", &mut Vec::new()).unwrap();
        let tags: Vec<u64> = flight.lose("gone").iter().map(|pending| pending.tag).collect();
        assert_eq!(tags, [1]);
    }

    #[test]
    fn what_may_be_answered_late_goes_with_the_next() {
        let mut flight = greeted();
        asks(&mut flight, 1, false);
        asks_late(&mut flight, 2);
        assert!(flight.is_to_write());
        assert_eq!(flight.taken("1 word\n2 late\n3".len() + NEXT_OF_LATE), b"1 word\n2 late\n3 word\n");
    }

    #[test]
    fn what_isnt_answered_is_lost() {
        let mut flight = greeted();
        asks(&mut flight, 1, false);
        assert!(flight.is_to_write());
        flight.taken(ROOM);
        asks(&mut flight, 2, true);
        asks(&mut flight, 3, false);
        let mut tags: Vec<u64> = flight.lose("gone").iter().map(|pending| pending.tag).collect();
        tags.sort_unstable();
        assert_eq!((tags, flight.refusal(), flight.has_lines()), (vec![1, 2, 3], Some(Error::ConnectionLost("gone".into())), false));
    }
}

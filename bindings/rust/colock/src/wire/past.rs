//! What became of a transaction, by the history and by the archive.

use crate::error::Error;
use crate::event::Event;
use crate::failure::Failure;
use crate::shared::SharedStore;
use crate::transaction_id::TransactionId;
use crate::wire::remote::Remote;
use crate::wire::request::event;
use std::collections::BTreeSet;
use std::fs;
use std::io::{self, ErrorKind};
use std::path::{Path, PathBuf};

/// What an opening found in the file.
#[derive(Clone, Copy, Debug, PartialEq, Eq)]
pub(crate) struct Found {
    /// How many events there were.
    pub(crate) events: u64,
    /// How many transactions were open, each of which was aborted.
    pub(crate) aborted: u64,
}

/// What is known of the past of a store in a file, as it was opened.
#[derive(Debug)]
pub(crate) struct Past {
    /// The life with which the child greeted.
    pub(crate) greeted: u64,
    /// What was in the file, where the child said so.
    pub(crate) found: Option<Found>,
    /// The archive, if any.
    pub(crate) archive: Option<Archive>,
}

/// The histories that a store keeps of epochs that ended.
#[derive(Debug)]
pub(crate) struct Archive {
    pub(crate) folder: PathBuf,
    /// The store's id, by which it knows its own where several keep theirs in the folder.
    pub(crate) store: String,
}

/// The events of an epoch.
#[derive(Debug)]
struct History {
    /// The life in which the epoch ended, or the present one.
    life: u64,
    events: Vec<Event>,
}

impl SharedStore {
    /// What became of a transaction, by its [`begun`](crate::SharedTransaction::begun): whether it committed, or `None`
    /// where it is open or prepared, or that isn't certain. It answers of transactions of this opening, of those of the one
    /// before it, where that crashed, and of those of the archive.
    ///
    /// An archived history is of the store by whose id it is named, and of the life in which its epoch ended. Of an
    /// earlier life of that epoch, which crashed, it says nothing: what such a life lost left its number to a later
    /// transaction.
    ///
    /// One that outlived its epoch is followed through the later ones, by their histories and by the events of the present
    /// epoch, as long as none but the oldest histories are taken out of the archive. It is `None` where an epoch may be
    /// missing: where the file was opened more than once in one of them, or one doesn't begin with what went over. Then only
    /// [`SharedStore::outcome`] of its key tells it, where it committed under one, or was
    /// [prepared](crate::SharedTransaction::prepare).
    ///
    /// In memory nothing is known of an earlier life, nor of an event that was forgotten. What goes on where the store begins
    /// anew keeps its number, and its end tells of it.
    ///
    /// ```
    /// # use colock::{Kind, SharedStore, Type};
    /// # let store = SharedStore::new([&Type::counter(5, &[1], Kind::Undo)?], 100)?;
    /// let (first, second) = (store.begin()?, store.begin()?);
    /// let (id, other) = (first.begun()?, second.begun()?);
    /// first.commit()?;
    /// second.abort()?;
    /// assert_eq!((store.committed(id), store.committed(other)), (Ok(Some(true)), Ok(Some(false))));
    /// assert_eq!(store.committed("7.0".parse()?), Ok(None));
    /// # Ok::<(), colock::Error>(())
    /// ```
    ///
    /// # Errors
    ///
    /// [`Error::CannotOpen`] where the archive can't be read, and over a child [`Error::ConnectionLost`].
    pub fn committed(&self, id: TransactionId) -> Result<Option<bool>, Error> {
        let life = match self.remote() {
            Some(remote) => self.moment_over_child(remote)?.epoch,
            None => self.enter()?.life,
        };
        if id.life > life {
            return Ok(None);
        }
        match self.remote() {
            Some(remote) => self.committed_remote(remote, id, life),
            None if id.life < life => Ok(None),
            None => self.committed_in_memory(id.number),
        }
    }

    fn committed_in_memory(&self, number: u64) -> Result<Option<bool>, Error> {
        Ok(outcome(&self.events(self.forgotten_count()?)?, number))
    }

    /// The answer over a child, whose present life is `present`.
    fn committed_remote(&self, remote: &Remote, id: TransactionId, present: u64) -> Result<Option<bool>, Error> {
        let past = &remote.past;
        if id.life == present {
            let events = self.events_of(remote, present)?;
            return Ok(events.and_then(|events| outcome(past.of_life(&events, present)?, id.number)));
        }
        if id.life + 1 == past.greeted {
            return self.committed_before_this_opening(remote, id.number, present);
        }
        match past.archived(id.life)? {
            Some(events) => self.committed_since(remote, History { life: id.life, events }, id.number, present),
            None => Ok(None),
        }
    }

    /// The answer of a transaction of the life before this opening's. One that was found and hadn't ended was aborted then, or
    /// was prepared, and has its end later.
    fn committed_before_this_opening(&self, remote: &Remote, number: u64, present: u64) -> Result<Option<bool>, Error> {
        let past = &remote.past;
        let Some(events) = self.first_events(remote, present)? else {
            return Ok(None);
        };
        match past.has_found(&events, number) {
            Some(true) => self.committed_since(remote, History { life: past.greeted, events }, number, present),
            Some(false) => Ok(Some(false)),
            None => Ok(None),
        }
    }

    /// What became of a transaction that has this number in an epoch, by its history, or by those of the epochs into which it went
    /// over.
    fn committed_since(&self, remote: &Remote, mut history: History, mut number: u64, present: u64) -> Result<Option<bool>, Error> {
        while history.life < present && outcome(&history.events, number).is_none() {
            let Some(next) = self.gone_over(remote, &history, number, present)? else {
                return Ok(None);
            };
            (history, number) = next;
        }
        Ok(outcome(&history.events, number))
    }

    /// The history of the epoch that followed, and the number there of a transaction that is open at the end of this one, where both
    /// are certain.
    fn gone_over(&self, remote: &Remote, history: &History, number: u64, present: u64) -> Result<Option<(History, u64)>, Error> {
        let Some(life) = remote.past.life_after(history.life, present)? else {
            return Ok(None);
        };
        let Some(events) = self.events_in(remote, life, present)? else {
            return Ok(None);
        };
        let number = remote.past.number_after(history, number, &events);
        Ok(number.map(|number| (History { life, events }, number)))
    }

    /// The events of the epoch in which the store was opened, where they are still to be had.
    fn first_events(&self, remote: &Remote, present: u64) -> Result<Option<Vec<Event>>, Error> {
        match remote.past.found {
            Some(Found { events: 0, .. }) => Ok(Some(Vec::new())), // none of them are asked for
            _ => self.events_in(remote, remote.past.greeted, present),
        }
    }

    /// The events of the epoch that ended in a life, or of the present one.
    fn events_in(&self, remote: &Remote, life: u64, present: u64) -> Result<Option<Vec<Event>>, Error> {
        if life == present {
            self.events_of(remote, present)
        } else {
            remote.past.archived(life)
        }
    }

    /// The events of the present epoch, where it is still that of this life. In another one the same numbers are others'.
    fn events_of(&self, remote: &Remote, life: u64) -> Result<Option<Vec<Event>>, Error> {
        let events = self.events(0)?;
        Ok((self.moment_over_child(remote)?.epoch == life).then_some(events))
    }
}

impl Past {
    /// Whether a transaction of the life before this opening's was found, by the events of the epoch; nothing where they aren't all
    /// there.
    ///
    /// An end of that life's epoch would have made the file's life one greater, and this opening's two. So the epoch
    /// goes on, its durable events are those that were found, and a number that isn't among them was never durable:
    /// events after them may have it again.
    fn has_found(&self, events: &[Event], number: u64) -> Option<bool> {
        let found = usize::try_from(self.found?.events).ok()?;
        // fewer are there where another epoch has begun meanwhile
        let found = events.get(..found)?;
        Some(found.iter().filter_map(Event::begun).any(|(begun, _)| begun == number))
    }

    /// The last life of the epoch that followed one that ended in `life`; of the present epoch the present life. Nothing where an
    /// epoch may be missing.
    ///
    /// An epoch begins in the next life, and each opening in it is one more. One that isn't in the archive ended in an opening
    /// without it, and what was archived later had an opening of its own. So where there was one opening none is missing.
    fn life_after(&self, life: u64, present: u64) -> Result<Option<u64>, Error> {
        let next = life + 1;
        if next == present || self.has_archived(next)? {
            return Ok(Some(next));
        }
        // each life after that of this opening is an epoch
        Ok((next < self.greeted).then_some(next + 1))
    }

    /// The number in the next epoch, by its events, of a transaction that is open at the end of a history: how many of those that are
    /// open there have a smaller one. Nothing where that isn't certain.
    ///
    /// An epoch begins with the begins of all that went over. Where the process stopped between archive and new epoch the same
    /// epoch goes on in the next opening, with the same events and numbers.
    fn number_after(&self, history: &History, number: u64, next: &[Event]) -> Option<u64> {
        let open = open_in(&history.events);
        let place = open.iter().position(|other| *other == number)? as u64;
        let begins = (0..).zip(next).take_while(|(at, event)| event.begun() == Some((*at, 0))).count();
        let may_go_on = history.life < self.greeted && next.starts_with(&history.events);
        (begins >= open.len() && (place == number || !may_go_on)).then_some(place)
    }

    /// Of the events of an epoch those of its life `life`, which is this opening's first or a later one.
    fn of_life<'e>(&self, events: &'e [Event], life: u64) -> Option<&'e [Event]> {
        if life == self.greeted {
            self.since_this_opening(events)
        } else {
            Some(events)
        }
    }

    /// The events of this opening's first life: those after what was found, and after the aborts of what was open.
    fn since_this_opening<'e>(&self, events: &'e [Event]) -> Option<&'e [Event]> {
        let Found { events: found, aborted } = self.found?;
        events.get(usize::try_from(found.checked_add(aborted)?).ok()?..)
    }

    /// The events of the epoch that ended in a life, where the archive has them.
    fn archived(&self, life: u64) -> Result<Option<Vec<Event>>, Error> {
        let Some(archive) = &self.archive else {
            return Ok(None);
        };
        let path = archive.path(life);
        match fs::read_to_string(&path) {
            Ok(text) => Ok(read(&text)),
            Err(error) if error.kind() == ErrorKind::NotFound => Ok(None),
            Err(error) => Err(unread(&path, error)),
        }
    }

    /// Whether the archive has a history of this life.
    fn has_archived(&self, life: u64) -> Result<bool, Error> {
        let path = self.archive.as_ref().map(|archive| archive.path(life));
        path.map_or(Ok(false), |path| path.try_exists().map_err(|error| unread(&path, error)))
    }
}

impl Archive {
    /// Where the history is of the epoch that ended in this life.
    fn path(&self, life: u64) -> PathBuf {
        self.folder.join(format!("{}-{life}.history", self.store))
    }
}

fn unread(path: &Path, error: io::Error) -> Error {
    Error::CannotOpen(Failure::of(path.display(), error))
}

/// The events of the text of a history; nothing where it is none, or isn't whole.
fn read(text: &str) -> Option<Vec<Event>> {
    let (body, _) = text.split_once("end\n")?;
    body.lines().skip_while(|line| line.starts_with("object")).map(event).collect()
}

/// The numbers of the transactions that are open behind these events.
fn open_in(events: &[Event]) -> BTreeSet<u64> {
    let mut open = BTreeSet::new();
    for event in events {
        match event {
            Event::Begin { transaction, .. } => open.insert(*transaction),
            Event::Commit { transaction, .. } | Event::Abort { transaction, .. } => open.remove(transaction),
            _ => false,
        };
    }
    open
}

/// Whether a number was committed or aborted; nothing where no event says.
fn outcome(events: &[Event], number: u64) -> Option<bool> {
    events.iter().find_map(|event| match event {
        Event::Commit { transaction, .. } => (*transaction == number).then_some(true),
        Event::Abort { transaction, .. } => (*transaction == number).then_some(false),
        _ => None,
    })
}

#[cfg(test)]
mod tests {
    use super::{outcome, read, Found, History, Past};
    use crate::Event;

    const fn begin(transaction: u64) -> Event {
        Event::Begin { worker: 0, transaction }
    }

    const fn commit(transaction: u64) -> Event {
        Event::Commit { worker: 0, transaction }
    }

    const fn abort(transaction: u64) -> Event {
        Event::Abort { worker: 0, transaction }
    }

    fn past(greeted: u64, events: u64, aborted: u64) -> Past {
        Past { greeted, found: Some(Found { events, aborted }), archive: None }
    }

    #[test]
    fn of_this_opening_the_history_tells() {
        let events = [begin(0), begin(1), begin(2), commit(0), abort(1)];
        let tells = |number| outcome(past(5, 0, 0).of_life(&events, 5).unwrap(), number);
        assert_eq!([tells(0), tells(1), tells(2), tells(3)], [Some(true), Some(false), None, None]);
    }

    #[test]
    fn of_the_opening_before_what_was_found_tells() {
        // 2 was open where it crashed; its 3 was lost, and this opening has another 3
        let events = [begin(0), begin(1), begin(2), commit(0), abort(1), abort(2), begin(3), commit(3)];
        let is_found = |number| past(5, 5, 1).has_found(&events, number);
        assert_eq!([is_found(0), is_found(1), is_found(2), is_found(3)], [Some(true), Some(true), Some(true), Some(false)]);
        let of_this_opening = |number| outcome(past(5, 5, 1).of_life(&events, 5).unwrap(), number);
        assert_eq!([of_this_opening(0), of_this_opening(2), of_this_opening(3)], [None, None, Some(true)]);
        assert_eq!(past(5, 0, 0).has_found(&[], 0), Some(false)); // nothing was durable
        assert_eq!(past(5, 9, 0).has_found(&events, 0), None); // another epoch has begun
        let untold = Past { greeted: 5, found: None, archive: None };
        assert_eq!((untold.has_found(&events, 0), untold.of_life(&events, 5)), (None, None));
    }

    #[test]
    fn what_is_open_has_its_place_in_the_next_epoch() {
        let history = History { life: 7, events: vec![begin(0), begin(1), begin(2), begin(3), commit(2), abort(0)] };
        let number_after = |number, next: &[Event]| past(5, 0, 0).number_after(&history, number, next);
        let next = [begin(0), begin(1), begin(2), commit(0)];
        assert_eq!([0, 1, 2, 3, 4].map(|number| number_after(number, &next)), [None, Some(0), None, Some(1), None]);
        // it doesn't begin with two begins, or with those of these two
        for other in [&[begin(0), commit(0), begin(1)][..], &[begin(1), begin(2)], &[begin(0)], &[]] {
            assert_eq!(number_after(1, other), None, "{other:?}");
        }
    }

    /// Another opening may have gone on with an epoch that was archived. This one goes on with no such epoch.
    #[test]
    fn an_epoch_that_was_archived_may_go_on() {
        let next = [begin(0), begin(1), commit(0), abort(1)];
        let number_after = |greeted, life, number, until: usize| {
            let history = History { life, events: next[..until].to_vec() };
            past(greeted, 0, 0).number_after(&history, number, &next)
        };
        assert_eq!((number_after(5, 4, 1, 3), number_after(5, 5, 1, 3)), (None, Some(0)));
        // or it keeps its number whichever epoch it is
        assert_eq!((number_after(5, 4, 0, 2), number_after(5, 4, 1, 2)), (Some(0), Some(1)));
    }

    /// Without an archive, as in one that has no history.
    #[test]
    fn an_epoch_has_one_opening_or_may_be_missing() {
        let after = |life, present| past(7, 0, 0).life_after(life, present);
        assert_eq!((after(4, 7), after(5, 7), after(6, 7)), (Ok(Some(6)), Ok(Some(7)), Ok(Some(7))));
        // in this opening each life is an epoch
        assert_eq!((after(7, 8), after(7, 9), after(6, 9)), (Ok(Some(8)), Ok(None), Ok(None)));
    }

    #[test]
    fn histories_are_read() {
        assert_eq!(read("object undo 0\nbegin 0 0\ncommit 0 0\nend\n# kept 0 1\n"), Some(vec![begin(0), commit(0)]));
        assert_eq!(read("objects 3000\nobject undo 0 A1\nobject undo 0\nbegin 0 0\nend\n"), Some(vec![begin(0)]));
        assert_eq!((read("end\n"), read("begin 0\nend\n"), read("begin 0 0\n")), (Some(Vec::new()), None, None));
    }
}

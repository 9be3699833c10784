//! What happened, from some event on: of epochs that have ended from the archive, then of the present one from the store.

use crate::engine::answer::Answer;
use crate::engine::question::Question;
use crate::engine::Told;
use crate::names::number_of;
use crate::problem::{Problem, ProblemKind};
use crate::store::attempts::unexpected;
use crate::store::past::MOST_EVENTS;
use crate::store::Store;
use std::fs::File;
use std::io::{self, BufRead, BufReader, Lines};

/// The most events that are read at once.
pub const MOST_AT_ONCE: u32 = 1_000;

/// Events that follow one another.
#[derive(Clone, Debug, Default, PartialEq, Eq)]
pub struct Batch {
    /// The life in whose epoch they happened.
    pub life: u32,
    /// The position of the first one.
    pub first: u32,
    /// Their lines, as in a history.
    pub lines: Vec<String>,
}

/// Where somebody is among the events.
#[derive(Debug)]
pub struct Cursor {
    life: u32,
    position: u32,
    archived: Option<Archived>,
    /// Up to which life it is known that no epoch has ended.
    looked: u32,
}

/// A history of the archive that is being read.
#[derive(Debug)]
struct Archived {
    life: u32,
    lines: Lines<BufReader<File>>,
}

impl Cursor {
    /// At a position of the epoch of a life.
    pub fn at(life: u32, position: u32) -> Cursor {
        Cursor { life, position, archived: None, looked: 0 }
    }

    /// The life and the position.
    pub fn place(&self) -> (u32, u32) {
        (self.life, self.position)
    }
}

impl Store {
    /// The end of the present epoch's events, less so many.
    ///
    /// # Errors
    ///
    /// A [`Problem`] where the store is away.
    pub async fn end_of_events(&self, less: u32) -> Result<Cursor, Problem> {
        let told = self.engine.ask_all(vec![Question::of("stats"), Question::of("committed 0")]).await.map_err(|_| ProblemKind::StoreAway)?;
        let life = told.get(1).and_then(life_of).ok_or_else(|| unexpected(&told[0]))?;
        let count = events_in(&told[0]).ok_or_else(|| unexpected(&told[0]))?;
        Ok(Cursor::at(life, count.saturating_sub(less)))
    }

    /// How many events the epoch has.
    pub async fn event_count(&self) -> Option<u32> {
        let told = self.engine.ask(Question::of("stats")).await.ok()?;
        events_in(&told)
    }

    /// The next events; none where there are no more by now.
    ///
    /// # Errors
    ///
    /// A [`Problem`] where they aren't there any more, or the store is away.
    pub async fn events(&self, cursor: &mut Cursor) -> Result<Batch, Problem> {
        loop {
            if let Some(batch) = self.archived_events(cursor)? {
                return Ok(batch);
            }
            if let Some(batch) = self.present_events(cursor).await? {
                return Ok(batch);
            }
        }
    }

    /// The next events of the archive; nothing where the epoch is the present one.
    fn archived_events(&self, cursor: &mut Cursor) -> Result<Option<Batch>, Problem> {
        let internal = |error: io::Error| Problem::new(ProblemKind::Internal, format!("the archive can't be read: {error}"));
        loop {
            if cursor.archived.is_none() && !self.opens_archived(cursor).map_err(internal)? {
                return Ok(None);
            }
            let Some(archived) = &mut cursor.archived else { return Ok(None) };
            let (life, first) = (archived.life, cursor.position);
            let lines = archived.lines.by_ref().take(MOST_AT_ONCE as usize).collect::<io::Result<Vec<_>>>().map_err(internal)?;
            let is_whole = lines.last().is_none_or(|line| line == "end");
            let lines: Vec<_> = lines.into_iter().filter(|line| line != "end").collect();
            cursor.position += lines.len() as u32;
            if is_whole {
                *cursor = Cursor::at(life + 1, 0);
            }
            if !lines.is_empty() {
                return Ok(Some(Batch { life, first, lines }));
            }
        }
    }

    /// Opens the history in which the cursor is, where its epoch has ended.
    fn opens_archived(&self, cursor: &mut Cursor) -> io::Result<bool> {
        let now = self.observer.life();
        if cursor.looked >= now {
            return Ok(false);
        }
        let Some((life, path)) = self.archive.histories()?.into_iter().find(|(life, _)| *life >= cursor.life) else {
            cursor.looked = now;
            return Ok(false);
        };
        let heads = BufReader::new(File::open(&path)?).lines().take_while(|line| line.as_ref().is_ok_and(|line| line.starts_with("object"))).count();
        let mut lines = BufReader::new(File::open(path)?).lines();
        lines.by_ref().take(heads + cursor.position as usize).for_each(drop);
        cursor.archived = Some(Archived { life, lines });
        Ok(true)
    }

    /// The next events of the present epoch; nothing where another one has begun.
    async fn present_events(&self, cursor: &mut Cursor) -> Result<Option<Batch>, Problem> {
        let (life, first) = cursor.place();
        let events = Question::list(format!("events {first} {}", MOST_AT_ONCE.min(MOST_EVENTS)));
        let told = self.engine.ask_all(vec![Question::of("committed 0"), events, Question::of("committed 0")]).await;
        let told = told.map_err(|_| ProblemKind::StoreAway)?;
        let (Some(before), Some(after)) = (told.first().and_then(life_of), told.get(2).and_then(life_of)) else {
            return Err(told.first().map_or(ProblemKind::Internal.into(), unexpected));
        };
        self.observer.told_life(after);
        if before != after || (after > life && cursor.looked < after) {
            return Ok(None);
        }
        if life > after {
            return Err(Problem::new(ProblemKind::OutOfRange, format!("the life of the store is {after}")));
        }
        let lines: Vec<_> = told[1].listed.lines().map(str::to_string).collect();
        cursor.life = after;
        cursor.position += lines.len() as u32;
        Ok(Some(Batch { life: after, first, lines }))
    }
}

fn life_of(told: &Told) -> Option<u32> {
    match told.answer()? {
        Answer::Seen(moment, _) => Some(moment.life),
        _ => None,
    }
}

/// The count in `ok events E begun B open O`.
fn events_in(told: &Told) -> Option<u32> {
    match told.answer()? {
        Answer::Ok(words) => number_of(words.split(' ').nth(1)?),
        _ => None,
    }
}

#[cfg(test)]
mod tests {
    use super::events_in;
    use crate::engine::Told;

    #[test]
    fn events_are_counted() {
        let told = |line: &str| Told { listed: String::new(), line: line.to_string() };
        assert_eq!(events_in(&told("ok events 17 begun 3 open 1")), Some(17));
        assert_eq!(events_in(&told("refused NoMemory")), None);
    }
}

//! What the store says that it has.

use crate::engine::question::Question;
use crate::engine::Engine;
use crate::store::about::About;
use crate::store::objects::{listed, listed_types, SharedObjects};
use crate::store::types::Types;
use std::fmt;
use std::io;

/// Why the objects can't be read.
#[derive(Debug)]
pub enum NotLoaded {
    /// The store is away.
    Lost,
    /// What it says can't be read.
    Unread,
    /// The texts of its types can't be kept.
    NotKept(io::Error),
}

impl fmt::Display for NotLoaded {
    fn fmt(&self, f: &mut fmt::Formatter<'_>) -> fmt::Result {
        match self {
            NotLoaded::Lost => f.write_str("the store is away"),
            NotLoaded::Unread => f.write_str("the objects that the store lists can't be read"),
            NotLoaded::NotKept(error) => write!(f, "the types of the store can't be kept: {error}"),
        }
    }
}

/// Reads the objects and their types.
///
/// # Errors
///
/// [`NotLoaded`] where that isn't possible.
pub async fn load_objects(engine: &Engine<About>, objects: &SharedObjects, types: &Types) -> Result<(), NotLoaded> {
    let told = engine.ask_all(vec![Question::list("types"), Question::list("objects")]).await.map_err(|_| NotLoaded::Lost)?;
    let [of_store, lines] = told.as_slice() else { return Err(NotLoaded::Unread) };
    let of_store = listed_types(&of_store.listed);
    let entries = listed(&lines.listed, &of_store).ok_or(NotLoaded::Unread)?;
    types.adopt(&of_store).map_err(NotLoaded::NotKept)?;
    objects.replace(entries);
    Ok(())
}

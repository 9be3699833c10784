//! A new file of a store, which the program makes.

use crate::error::Error;
use crate::failure::Failure;
use crate::objects::Known;
use crate::types::source::Source;
use crate::types::Type;
use crate::wire::program::{output_of, Room};
use std::fs;
use std::io;
use std::path::{Path, PathBuf};
use std::time::Duration;

/// Makes the file of a store of these objects.
pub(crate) fn create(program: &Path, path: &Path, objects: &[Known], limit: Duration) -> Result<(), Error> {
    if objects.is_empty() {
        return Err(Error::NoObjects);
    }
    let room = Room::new().map_err(unwritten)?;
    let files = written_objects(program, &room, objects, limit)?;
    let mut words = vec![Path::new("create"), path];
    words.extend(files.iter().map(PathBuf::as_path));
    output_of(program, &words, limit).map(drop)
}

/// Writes objects into files, a list of them and the texts of their types. What is one type gets one text.
pub(crate) fn written_objects(program: &Path, room: &Room, objects: &[Known], limit: Duration) -> Result<Vec<PathBuf>, Error> {
    let mut types: Vec<&Type> = Vec::new();
    let mut lines = format!("objects {}\n", objects.len());
    for of in objects.iter().map(Known::of) {
        if !types.iter().any(|other| other.is(of)) {
            types.push(of);
        }
    }
    for object in objects {
        let place = types.iter().position(|other| other.is(object.of())).unwrap_or_default();
        let name = object.name().map(|name| format!(" {name}")).unwrap_or_default();
        lines.push_str(&format!("object {} {place}{name}\n", object.of().kind()));
    }
    lines.push_str("end\n");
    let texts = types.iter().enumerate().map(|(place, of)| written(program, room, place, of, limit));
    [put(room, "objects", lines.as_bytes())].into_iter().chain(texts).collect()
}

/// The path of a file with the text of a type.
fn written(program: &Path, room: &Room, place: usize, of: &Type, limit: Duration) -> Result<PathBuf, Error> {
    let text = match of.source() {
        Source::Text(text) => text.clone(),
        Source::Tables(text) => {
            let raw = put(room, &format!("raw-{place}.type"), text)?;
            output_of(program, &[Path::new("tables"), raw.as_path()], limit)?
        }
        Source::Family(words) => {
            // a word that begins with a hyphen comes after this one
            let hyphen = words.iter().any(|word| word.starts_with('-')).then_some("--");
            let words = ["make"].into_iter().chain(hyphen).chain(words.iter().map(String::as_str));
            output_of(program, &words.map(Path::new).collect::<Vec<&Path>>(), limit)?
        }
    };
    put(room, &place.to_string(), &text)
}

fn put(room: &Room, name: &str, text: &[u8]) -> Result<PathBuf, Error> {
    let path = room.file(name);
    fs::write(&path, text).map_err(unwritten)?;
    Ok(path)
}

fn unwritten(error: io::Error) -> Error {
    Error::CannotOpen(Failure::of("no temporary file", error))
}

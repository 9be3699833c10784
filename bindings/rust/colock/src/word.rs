use std::cmp::Ordering;
use std::fmt::{self, Write};
use std::hash::{Hash, Hasher};
use std::ops::Deref;

/// How many bytes there is room for: a name has at most 32, and with an amount at most 43.
const ROOM: usize = 47;

/// A word of a type, as the name of a call or of a reply. It is as a `str`, and is copied without an allocation.
///
/// ```
/// # use colock::{Kind, Store, Type};
/// # let store = Store::new([&Type::counter(5, &[1], Kind::Undo)?], 100)?;
/// let done = store.begin()?.call(0, "inc:1")?.executed()?;
/// assert_eq!((done.call.len(), &*done.reply), (5, "ok"));
/// assert_eq!(done.call, "inc:1");
/// # Ok::<(), colock::Error>(())
/// ```
#[derive(Clone, Copy, PartialEq, Eq)]
pub struct Word {
    /// Zeros behind its last byte.
    bytes: [u8; ROOM],
    length: u8,
}

impl Word {
    const EMPTY: Word = Word { bytes: [0; ROOM], length: 0 };

    /// The word of a text. What has no room, which no name of the library lacks, is left out.
    pub(crate) fn of(text: &str) -> Word {
        let mut word = Word::EMPTY;
        let _ = word.write_str(text);
        word
    }

    /// A number in digits behind a text.
    pub(crate) fn numbered(stem: &str, number: u32) -> Word {
        let mut word = Word::of(stem);
        let _ = write!(word, "{number}");
        word
    }

    /// It as a `str`.
    pub fn as_str(&self) -> &str {
        // what was written is whole characters
        std::str::from_utf8(&self.bytes[..usize::from(self.length)]).unwrap_or_default()
    }
}

/// A text goes behind what is there, as far as there is room.
impl Write for Word {
    fn write_str(&mut self, text: &str) -> fmt::Result {
        for character in text.chars() {
            let (start, width) = (usize::from(self.length), character.len_utf8());
            let room = self.bytes.get_mut(start..start + width).ok_or(fmt::Error)?;
            character.encode_utf8(room);
            self.length += width as u8;
        }
        Ok(())
    }
}

impl Deref for Word {
    type Target = str;

    fn deref(&self) -> &str {
        self.as_str()
    }
}

impl AsRef<str> for Word {
    fn as_ref(&self) -> &str {
        self
    }
}

impl PartialEq<str> for Word {
    fn eq(&self, other: &str) -> bool {
        self.bytes[..usize::from(self.length)] == *other.as_bytes()
    }
}

impl PartialEq<&str> for Word {
    fn eq(&self, other: &&str) -> bool {
        *self == **other
    }
}

impl PartialOrd for Word {
    fn partial_cmp(&self, other: &Word) -> Option<Ordering> {
        Some(self.cmp(other))
    }
}

impl Ord for Word {
    fn cmp(&self, other: &Word) -> Ordering {
        self.as_str().cmp(other)
    }
}

impl Hash for Word {
    fn hash<H: Hasher>(&self, state: &mut H) {
        self.as_str().hash(state);
    }
}

impl fmt::Display for Word {
    fn fmt(&self, f: &mut fmt::Formatter<'_>) -> fmt::Result {
        f.pad(self)
    }
}

impl fmt::Debug for Word {
    fn fmt(&self, f: &mut fmt::Formatter<'_>) -> fmt::Result {
        fmt::Debug::fmt(self.as_str(), f)
    }
}

#[cfg(test)]
mod tests {
    use super::Word;
    use std::collections::HashSet;

    #[test]
    fn words_are_as_texts() {
        let (take, long) = (Word::numbered("take:", 17), Word::of(&"x".repeat(60)));
        assert_eq!((take.to_string(), format!("{take:?}"), format!("{take:>9}")), ("take:17".into(), "\"take:17\"".into(), "  take:17".into()));
        assert!(take == "take:17" && take == *"take:17" && take != Word::of("take:1") && take > Word::of("take:1"));
        assert_eq!((take.strip_prefix("take:"), long.len(), Word::of("").len()), (Some("17"), 47, 0));
        assert_eq!(HashSet::from([take, Word::of("take:17"), long]).len(), 2);
        assert_eq!(Word::of(&format!("{}\u{e9}", "x".repeat(46))).len(), 46); // no half of a character
    }
}

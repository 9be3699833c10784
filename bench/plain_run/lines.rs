//! Texts of scripts and histories: the tests of a line and the reader of lines.
//!
//! Almost every line is an entry as the program writes it, which `Entries::quick` reads in one go. Any
//! other line goes through the tests one after another.

use std::io::Read;

/// How many bytes of value 0 come after a text, so that eight bytes can be read anywhere in it.
pub const PADDING: usize = 16;

/// The most words that a line of any form has.
const MOST_WORDS: usize = 6;

#[derive(Clone, Copy, Debug)]
pub enum FaultKind {
    NotAscii,
    LineTooLong,
    Unterminated,
    UnknownWord,
    BadNumber,
    OutOfRange,
    OutOfOrder,
    Missing,
    AfterEnd,
}

#[derive(Debug)]
pub struct TextFault {
    pub line: usize,
    pub kind: FaultKind,
}

#[derive(Clone, Copy, PartialEq, Eq)]
pub enum Kind {
    Undo,
    Intentions,
    Escrow,
}

#[derive(Clone, Copy)]
pub struct ObjectLine {
    pub kind: Kind,
    pub file: u8,
}

/// What comes between the object lines and the end.
pub trait Entries {
    type Entry;

    /// Whether a `max` line comes before the objects.
    const HAS_MAX: bool;

    /// A whole line of the canonical text, and its length with the LF.
    fn quick(&mut self, text: &[u8], at: usize) -> Option<(Self::Entry, usize)>;

    /// The entry of a line, or the first fault of tests 5 and 6, or none where it is out of range.
    fn entry(&mut self, words: &[&[u8]]) -> Result<Option<Self::Entry>, FaultKind>;
}

/// What comes before the entries.
pub struct Head {
    pub max: u32,
    pub objects: Vec<ObjectLine>,
}

/// A text's value.
pub struct Parts<E> {
    pub head: Head,
    pub entries: Vec<E>,
}

/// The sections, in their order.
#[derive(Clone, Copy, PartialEq, Eq, PartialOrd, Ord)]
enum Section {
    Start,
    Max,
    Objects,
    Entries,
    End,
}

/// What a line says.
enum Said<E> {
    Max(u32),
    Object(Kind, u32),
    Entry(Option<E>),
    End,
}

/// The bytes of a file and the padding.
pub fn padded(path: &str) -> std::io::Result<Vec<u8>> {
    let mut file = std::fs::File::open(path)?;
    let length = file.metadata()?.len() as usize;
    let mut text = Vec::with_capacity(length + PADDING + 1);
    file.read_to_end(&mut text)?;
    text.extend_from_slice(&[0; PADDING]);
    Ok(text)
}

/// The eight bytes from here on, the first one lowest.
#[inline(always)]
pub fn eight(text: &[u8], at: usize) -> u64 {
    debug_assert!(at + PADDING <= text.len());
    // SAFETY: a place in a text is at most its length, as no byte of the padding is passed over, and
    // after the text comes the padding.
    unsafe { text.as_ptr().add(at).cast::<u64>().read_unaligned() }.to_le()
}

/// At most eight bytes with which a line begins, as a word, and the bits of that many bytes.
pub struct Key {
    word: u64,
    bits: u64,
}

impl Key {
    pub const fn new(text: &[u8]) -> Key {
        let (mut word, mut place) = (0, text.len());
        while place > 0 {
            place -= 1;
            word = word << 8 | text[place] as u64;
        }
        Key {
            word,
            bits: u64::MAX >> (64 - 8 * text.len()),
        }
    }

    #[inline]
    pub fn begins(&self, first: u64) -> bool {
        first & self.bits == self.word
    }
}

/// A number of one to seven digits at the beginning of eight bytes, and how many digits it has.
#[inline(always)]
pub fn digits(word: u64) -> Option<(u32, usize)> {
    const HIGH: u64 = 0x8080_8080_8080_8080;
    let values = word ^ 0x3030_3030_3030_3030;
    let others = (values.wrapping_add(0x7676_7676_7676_7676) | values) & HIGH;
    let count = others.trailing_zeros() as usize / 8;
    if count == 0 || count > 7 || (count > 1 && values & 0xff == 0) {
        return None;
    }
    let tens = (values << (64 - 8 * count)).wrapping_mul(10 * 256 + 1) >> 8;
    let hundreds = (tens & 0x00ff_00ff_00ff_00ff).wrapping_mul(100 * 65536 + 1) >> 16;
    let all = (hundreds & 0x0000_ffff_0000_ffff).wrapping_mul((10_000 << 32) + 1) >> 32;
    Some((all as u32, count))
}

/// The number from here on with this byte after it, and the place after that byte.
#[inline(always)]
pub fn number_before(text: &[u8], at: usize, behind: u8) -> Option<(u32, usize)> {
    let word = eight(text, at);
    let first = (word as u8).wrapping_sub(b'0');
    if first < 10 && (word >> 8) as u8 == behind {
        return Some((u32::from(first), at + 2));
    }
    let (number, count) = digits(word)?;
    ((word >> (8 * count)) as u8 == behind).then_some((number, at + count + 1))
}

/// A word as a number: `0`, or one to seven digits without a leading zero.
pub fn number(word: &[u8]) -> Result<u32, FaultKind> {
    let is_number = (1..=7).contains(&word.len())
        && word.iter().all(u8::is_ascii_digit)
        && (word[0] != b'0' || word.len() == 1);
    if !is_number {
        return Err(FaultKind::BadNumber);
    }
    Ok(word
        .iter()
        .fold(0, |sum, digit| sum * 10 + u32::from(digit - b'0')))
}

pub fn is_name(word: &[u8]) -> bool {
    let is_in_name = |&byte: &u8| matches!(byte, b'a'..=b'z' | b'0'..=b'9' | b'_' | b':' | b'-');
    word.len() <= 32 && word.iter().all(is_in_name)
}

/// What the lines before the one that is read said.
struct Lines<'a, E: Entries> {
    grammar: &'a mut E,
    section: Section,
    head: Head,
    entries: usize,
}

impl<E: Entries> Lines<'_, E> {
    fn new(grammar: &mut E) -> Lines<'_, E> {
        let head = Head {
            max: 0,
            objects: Vec::new(),
        };
        Lines {
            grammar,
            section: Section::Start,
            head,
            entries: 0,
        }
    }

    /// Reads lines from a place on, in whatever form, up to one that is an entry: the entry, if there is one, and the place
    /// after it.
    #[cold]
    fn next(
        &mut self,
        text: &[u8],
        mut at: usize,
        line: &mut usize,
    ) -> Result<Option<(E::Entry, usize)>, FaultKind> {
        while at < text.len() - PADDING {
            *line += 1;
            let rest = &text[at..text.len() - PADDING];
            let end = rest.iter().position(|&byte| byte == b'\n');
            let read = &rest[..end.unwrap_or(rest.len())];
            let entry = self.line(read, end.is_some())?;
            at += read.len() + 1;
            if let Some(entry) = entry {
                return Ok(Some((entry, at)));
            }
            if self.takes_entries()
                && let Some(found) = self.grammar.quick(text, at)
            {
                self.section = Section::Entries;
                *line += 1;
                return Ok(Some(found));
            }
        }
        Ok(None)
    }

    /// The entry that a line is, if it is one.
    fn line(&mut self, line: &[u8], is_terminated: bool) -> Result<Option<E::Entry>, FaultKind> {
        if line.iter().any(|byte| !(32..=126).contains(byte)) {
            return Err(FaultKind::NotAscii);
        }
        if line.len() > 200 {
            return Err(FaultKind::LineTooLong);
        }
        if !is_terminated {
            return Err(FaultKind::Unterminated);
        }
        if line.first() == Some(&b'#') || line.iter().all(|&byte| byte == b' ') {
            return Ok(None);
        }
        if self.section == Section::End {
            return Err(FaultKind::AfterEnd);
        }
        let mut words: [&[u8]; MOST_WORDS + 1] = [&[]; MOST_WORDS + 1];
        let mut count = 0;
        for word in line
            .split(|&byte| byte == b' ')
            .filter(|word| !word.is_empty())
        {
            words[count.min(MOST_WORDS)] = word;
            count += 1;
        }
        let said = self.said(&words[..count.min(MOST_WORDS + 1)])?;
        self.take(said)
    }

    /// Tests 5 and 6.
    fn said(&mut self, words: &[&[u8]]) -> Result<Said<E::Entry>, FaultKind> {
        match words {
            [b"max", most] if E::HAS_MAX => Ok(Said::Max(number(most)?)),
            [b"object", b"undo", file] => Ok(Said::Object(Kind::Undo, number(file)?)),
            [b"object", b"intentions", file] => Ok(Said::Object(Kind::Intentions, number(file)?)),
            [b"object", b"escrow", file] => Ok(Said::Object(Kind::Escrow, number(file)?)),
            [b"end"] => Ok(Said::End),
            words => Ok(Said::Entry(self.grammar.entry(words)?)),
        }
    }

    /// Tests 7 to 9.
    fn take(&mut self, said: Said<E::Entry>) -> Result<Option<E::Entry>, FaultKind> {
        let section = match said {
            Said::Max(_) => Section::Max,
            Said::Object(..) => Section::Objects,
            Said::Entry(_) => Section::Entries,
            Said::End => Section::End,
        };
        if section < self.section || (section == self.section && section == Section::Max) {
            return Err(FaultKind::OutOfOrder);
        }
        let lacks_max = E::HAS_MAX && self.section == Section::Start && section > Section::Max;
        if lacks_max || (section > Section::Objects && self.section < Section::Objects) {
            return Err(FaultKind::Missing);
        }
        self.section = section;
        match said {
            Said::Max(most) if (2..=1_000_000).contains(&most) => self.head.max = most,
            Said::Object(kind, file) if file <= 255 && self.head.objects.len() < 256 => {
                self.head.objects.push(ObjectLine {
                    kind,
                    file: file as u8,
                });
            }
            Said::Entry(Some(entry)) if self.has_room() => return Ok(Some(entry)),
            Said::End => {}
            _ => return Err(FaultKind::OutOfRange),
        }
        Ok(None)
    }

    #[inline]
    fn has_room(&self) -> bool {
        self.entries < 1_000_000
    }

    /// Whether a canonical entry line may be taken without any further test.
    #[inline]
    fn takes_entries(&self) -> bool {
        matches!(self.section, Section::Objects | Section::Entries) && self.has_room()
    }
}

/// Hands each entry of a text that has its padding on, until one isn't asked for, and answers what
/// comes before the entries, or the text's first fault.
#[inline(always)]
pub fn read_each<E: Entries>(
    text: &[u8],
    grammar: &mut E,
    mut each: impl FnMut(&E, E::Entry) -> bool,
) -> Result<Head, TextFault> {
    let mut lines = Lines::new(grammar);
    let (mut at, mut line) = (0, 0);
    loop {
        let entry;
        // in the padding nothing is found
        if lines.section == Section::Entries
            && lines.has_room()
            && let Some(found) = lines.grammar.quick(text, at)
        {
            (entry, at) = found;
            line += 1;
        } else {
            let next = lines.next(text, at, &mut line);
            match next.map_err(|kind| TextFault { line, kind })? {
                Some(found) => (entry, at) = found,
                None => break,
            }
        }
        lines.entries += 1;
        if !each(lines.grammar, entry) {
            return Ok(lines.head);
        }
    }
    if lines.section == Section::End {
        return Ok(lines.head);
    }
    Err(TextFault {
        line: line + 1,
        kind: FaultKind::Missing,
    })
}

/// The value of a text that has its padding, or the text's first fault.
pub fn read<E: Entries>(text: &[u8], grammar: &mut E) -> Result<Parts<E::Entry>, TextFault> {
    let mut entries = Vec::new();
    let head = read_each(text, grammar, |_, entry| {
        entries.push(entry);
        true
    })?;
    Ok(Parts { head, entries })
}

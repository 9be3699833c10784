//! Lines of a run, of which the numbers of transactions are written once.

use std::io::{Result, Write};

/// From how many bytes on a piece is written.
const PIECE: usize = 65_536;
/// The most bytes of a line.
const LONGEST: usize = 64;

/// A space and the digits of a number below 1,000,000, and how many bytes that is.
#[derive(Clone, Copy)]
pub struct Text {
    bytes: [u8; 8],
    length: u8,
}

impl Text {
    /// The text of a number below 10,000,000.
    pub fn of(number: u32) -> Text {
        let mut text = Text {
            bytes: [b' '; 8],
            length: 0,
        };
        for (place, byte) in format!(" {number}").bytes().enumerate() {
            text.bytes[place & 7] = byte;
            text.length += 1;
        }
        text
    }
}

/// The texts of the numbers from 0 on.
pub struct Texts {
    next: Text,
}

impl Texts {
    pub fn new() -> Texts {
        Texts {
            next: Text {
                bytes: *b" 0      ",
                length: 2,
            },
        }
    }

    #[inline]
    pub fn next(&mut self) -> Text {
        let text = self.next;
        let last = &mut self.next.bytes[(text.length as usize - 1) & 7];
        if *last < b'9' {
            *last += 1;
        } else {
            self.carry();
        }
        text
    }

    #[cold]
    fn carry(&mut self) {
        let Text { bytes, length } = &mut self.next;
        let mut place = *length as usize - 1;
        while bytes[place] == b'9' {
            bytes[place] = b'0';
            place -= 1;
        }
        if bytes[place] == b' ' {
            bytes.copy_within(1..7, 2);
            bytes[1] = b'1';
            *length += 1;
        } else {
            bytes[place] += 1;
        }
    }
}

/// The texts of the numbers below 256.
static SMALL: [Text; 256] = small();

const fn small() -> [Text; 256] {
    let mut table = [Text {
        bytes: [b' '; 8],
        length: 0,
    }; 256];
    let mut n = 0;
    while n < 256 {
        let digits = [
            b'0' + (n / 100) as u8,
            b'0' + (n / 10 % 10) as u8,
            b'0' + (n % 10) as u8,
        ];
        let first = if n < 10 {
            2
        } else if n < 100 {
            1
        } else {
            0
        };
        let mut place = first;
        while place < 3 {
            table[n].bytes[1 + place - first] = digits[place];
            place += 1;
        }
        table[n].length = (4 - first) as u8;
        n += 1;
    }
    table
}

/// The text of a number below 256.
#[inline]
pub fn small_text(number: u8) -> Text {
    SMALL[number as usize]
}

pub struct Telling<W> {
    writer: W,
    piece: Box<[u8; PIECE + LONGEST]>,
    length: usize,
}

impl<W: Write> Telling<W> {
    pub fn new(writer: W) -> Telling<W> {
        Telling {
            writer,
            piece: Box::new([0; PIECE + LONGEST]),
            length: 0,
        }
    }

    /// A line of a word and texts, of at most 32 bytes before the last one.
    #[inline(always)]
    pub fn line<const N: usize, const M: usize>(
        &mut self,
        word: &[u8; N],
        texts: [Text; M],
    ) -> Result<()> {
        let room: &mut [u8; LONGEST] = (&mut self.piece[self.length..self.length + LONGEST])
            .try_into()
            .expect("as many bytes");
        room[..N].copy_from_slice(word);
        let mut at = N;
        for text in texts {
            let from = at & 31;
            room[from..from + 8].copy_from_slice(&text.bytes);
            at += text.length as usize;
        }
        room[at & 63] = b'\n';
        self.length += at + 1;
        if self.length >= PIECE {
            self.flush()
        } else {
            Ok(())
        }
    }

    /// A text of at most LONGEST bytes, whole lines of it.
    pub fn text(&mut self, text: &str) -> Result<()> {
        self.piece[self.length..self.length + text.len()].copy_from_slice(text.as_bytes());
        self.length += text.len();
        if self.length >= PIECE {
            self.flush()
        } else {
            Ok(())
        }
    }

    #[inline(never)]
    pub fn flush(&mut self) -> Result<()> {
        self.writer.write_all(&self.piece[..self.length])?;
        self.length = 0;
        Ok(())
    }
}

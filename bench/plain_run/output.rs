//! Text that is written in pieces of 64 KB.

use crate::store::{Event, EventKind};
use std::io::{Result, Write};

/// From how many bytes on a piece is written.
const PIECE: usize = 65_536;

/// The most bytes of a line.
const LONGEST: usize = 64;

/// A space and the digits of each number below 1,000.
const SPACED: [[u8; 4]; 1000] = spaced();

/// The three digits of each number below 1,000.
const PADDED: [[u8; 3]; 1000] = padded();

const fn spaced() -> [[u8; 4]; 1000] {
    let mut table = [[b' '; 4]; 1000];
    let mut n = 0;
    while n < 1000 {
        let digits = [
            b'0' + (n / 100) as u8,
            b'0' + (n / 10 % 10) as u8,
            b'0' + (n % 10) as u8,
        ];
        let first = if n < 10 {
            2
        } else if n < 100 {
            1
        } else {
            0
        };
        let mut place = first;
        while place < 3 {
            table[n][1 + place - first] = digits[place];
            place += 1;
        }
        n += 1;
    }
    table
}

const fn padded() -> [[u8; 3]; 1000] {
    let mut table = [[0; 3]; 1000];
    let mut n = 0;
    while n < 1000 {
        table[n] = [
            b'0' + (n / 100) as u8,
            b'0' + (n / 10 % 10) as u8,
            b'0' + (n % 10) as u8,
        ];
        n += 1;
    }
    table
}

pub struct Output<W> {
    writer: W,
    piece: Box<[u8; PIECE + LONGEST]>,
    length: usize,
}

impl<W: Write> Output<W> {
    pub fn new(writer: W) -> Output<W> {
        Output {
            writer,
            piece: Box::new([0; PIECE + LONGEST]),
            length: 0,
        }
    }

    #[inline(always)]
    pub fn text<const N: usize>(&mut self, text: &[u8; N]) {
        self.piece[self.length..self.length + N].copy_from_slice(text);
        self.length += N;
    }

    /// A space and a number.
    #[inline(always)]
    pub fn number(&mut self, number: u32) {
        if number < 1000 {
            self.small(number);
        } else {
            self.large(number);
        }
    }

    #[inline(always)]
    fn small(&mut self, number: u32) {
        self.piece[self.length..self.length + 4].copy_from_slice(&SPACED[number as usize]);
        self.length += 2 + usize::from(number > 9) + usize::from(number > 99);
    }

    #[inline(always)]
    fn large(&mut self, number: u32) {
        if number < 1_000_000 {
            self.small(number / 1000);
        } else {
            self.number(number / 1000);
        }
        self.text(&PADDED[(number % 1000) as usize]);
    }

    /// Ends a line.
    #[inline]
    pub fn end_line(&mut self) -> Result<()> {
        self.text(b"\n");
        if self.length >= PIECE {
            self.flush()?;
        }
        Ok(())
    }

    #[inline(never)]
    pub fn flush(&mut self) -> Result<()> {
        self.writer.write_all(&self.piece[..self.length])?;
        self.length = 0;
        Ok(())
    }

    /// The line of an event.
    #[inline]
    pub fn event(&mut self, event: &Event) -> Result<()> {
        let worker = u32::from(event.worker);
        match event.kind {
            EventKind::Begin { t } => self.words(b"begin", [worker, t]),
            EventKind::Op { t, x, k } => self.words(b"op", [worker, t, x, u32::from(k)]),
            EventKind::Busy { t, x, c, u } => self.words(b"busy", [worker, t, x, u32::from(c), u]),
            EventKind::None { t, x, c } => self.words(b"none", [worker, t, x, u32::from(c)]),
            EventKind::Commit { t } => self.words(b"commit", [worker, t]),
            EventKind::Abort { t } => self.words(b"abort", [worker, t]),
            EventKind::Rollback { t, n } => self.words(b"rollback", [worker, t, n]),
        }
        self.end_line()
    }

    #[inline(always)]
    pub fn words<const N: usize, const M: usize>(&mut self, word: &[u8; N], numbers: [u32; M]) {
        self.text(word);
        for number in numbers {
            self.number(number);
        }
    }

    /// A line of a word and numbers.
    pub fn line<const N: usize, const M: usize>(
        &mut self,
        word: &[u8; N],
        numbers: [u32; M],
    ) -> Result<()> {
        self.words(word, numbers);
        self.end_line()
    }
}

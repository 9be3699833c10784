//! The id of the store in a file, which is in the names of its archived histories.
//!
//! The file is one of SQLite. Of its format this reads what a store has: the list of tables in a leaf on the first page,
//! and the one row of the table `store` in a leaf of its own. The id is there since the file was made, so nothing of its
//! log is needed; and the child that has the file open writes nothing before it is asked to.

use crate::error::Error;
use crate::failure::Failure;
use std::fs::File;
use std::io;
use std::os::unix::fs::FileExt;
use std::path::Path;

/// Where the tree of the first page begins, behind the header of the file.
const FIRST_TREE: usize = 100;

/// The kind of a page that is a leaf of a table.
const LEAF: u8 = 13;

/// How many bytes an id has.
const ID: usize = 16;

/// The id of the store in a file, in lower-case hex digits.
pub(crate) fn store_id(path: &Path) -> Result<String, Error> {
    let unread = |error| Error::CannotOpen(Failure::of(path.display(), error));
    let found = id_in(&Pages::of(path).map_err(unread)?).map_err(unread)?;
    let id = found.ok_or_else(|| Error::CannotOpen(format!("{}: the store has no id", path.display()).into()))?;
    Ok(id.iter().map(|byte| format!("{byte:02x}")).collect())
}

/// The pages of a file.
struct Pages {
    file: File,
    size: usize,
}

impl Pages {
    fn of(path: &Path) -> io::Result<Pages> {
        let file = File::open(path)?;
        let mut size = [0; 2];
        file.read_exact_at(&mut size, 16)?;
        // 65,536 has no place in two bytes
        let size = match u16::from_be_bytes(size) {
            1 => 65_536,
            size => usize::from(size),
        };
        Ok(Pages { file, size })
    }

    /// A page by its number, from 1.
    fn page(&self, number: u64) -> io::Result<Vec<u8>> {
        let mut page = vec![0; self.size];
        self.file.read_exact_at(&mut page, number.saturating_sub(1).saturating_mul(self.size as u64))?;
        Ok(page)
    }
}

/// The id in a file; nothing where it isn't as a store's.
fn id_in(pages: &Pages) -> io::Result<Option<Vec<u8>>> {
    let Some(root) = root_of(&pages.page(1)?, b"store") else {
        return Ok(None);
    };
    Ok(id_of_row(&pages.page(root)?))
}

/// The number of the page where a table begins, by the first page, whose rows have the kind, the name, the table and that
/// number.
fn root_of(first: &[u8], table: &[u8]) -> Option<u64> {
    let rows: Vec<Vec<&[u8]>> = rows(first, FIRST_TREE)?;
    let row = rows.iter().find(|row| row.first() == Some(&&b"table"[..]) && row.get(1) == Some(&table))?;
    Some(row.get(3)?.iter().fold(0, |number, byte| number << 8 | u64::from(*byte)))
}

/// The id in the one row of the table `store`: `position`, `format`, `id` and `s`.
fn id_of_row(page: &[u8]) -> Option<Vec<u8>> {
    match &rows(page, 0)?[..] {
        [row] => row.get(2).filter(|id| id.len() == ID).map(|id| id.to_vec()),
        _ => None,
    }
}

/// The rows of a leaf that begins at a place of its page, each with the bytes of its columns.
fn rows(page: &[u8], at: usize) -> Option<Vec<Vec<&[u8]>>> {
    if page.get(at) != Some(&LEAF) {
        return None;
    }
    let count = short(page, at + 3)?;
    (0..count).map(|cell| row(page.get(short(page, at + 8 + 2 * cell)?..)?)).collect()
}

/// A number of two bytes.
fn short(page: &[u8], at: usize) -> Option<usize> {
    Some(usize::from(u16::from_be_bytes([*page.get(at)?, *page.get(at + 1)?])))
}

/// The columns of the row that a cell has: its length, its number, and its bytes, which begin with those of a header
/// that says how long each column is.
fn row(cell: &[u8]) -> Option<Vec<&[u8]>> {
    let (length, behind) = varint(cell)?;
    let (_, behind) = varint(behind)?;
    let bytes = behind.get(..length)?;
    let header_length = varint(bytes)?.0;
    let mut header = varint(bytes.get(..header_length)?)?.1;
    let mut rest = bytes.get(header_length..)?;
    let mut columns = Vec::new();
    while !header.is_empty() {
        let (kind, next) = varint(header)?;
        let width = width(kind);
        columns.push(rest.get(..width)?);
        (header, rest) = (next, &rest[width..]);
    }
    Some(columns)
}

/// How many bytes a column has, by its kind.
fn width(kind: usize) -> usize {
    match kind {
        1..=4 => kind,
        5 => 6,
        6 | 7 => 8,
        0..=11 => 0,
        _ => (kind - 12) / 2,
    }
}

/// A number of seven bits in a byte, the first bit of each byte but the last being 1; and what is behind it. Longer ones
/// than a page can have are none.
fn varint(bytes: &[u8]) -> Option<(usize, &[u8])> {
    let last = bytes.iter().take(4).position(|byte| *byte < 0x80)?;
    let number = bytes[..=last].iter().fold(0, |number, byte| number << 7 | usize::from(byte & 0x7F));
    Some((number, &bytes[last + 1..]))
}

#[cfg(test)]
mod tests {
    use super::{id_of_row, root_of, row, varint, width};

    #[test]
    fn numbers_are_read() {
        assert_eq!(varint(&[0x7F, 9]), Some((127, &[9][..])));
        assert_eq!(varint(&[0x81, 0x00]), Some((128, &[][..])));
        assert_eq!(varint(&[0x81, 0x80, 0x00]), Some((16384, &[][..])));
        assert_eq!((varint(&[]), varint(&[0x81]), varint(&[0xFF; 9])), (None, None, None));
    }

    #[test]
    fn columns_are_read() {
        // the widths of NULL, of numbers, of 0 and 1, of bytes and of text, as SQLite's page on its format has them
        assert_eq!([0, 1, 2, 3, 4, 5, 6, 7, 8, 9, 12, 13, 44, 23].map(width), [0, 1, 2, 3, 4, 6, 8, 8, 0, 0, 0, 0, 16, 5]);
        // of 6 bytes and with the number 1: NULL, 3 in a byte, "ab"
        assert_eq!(row(&[7, 1, 4, 0, 1, 17, 3, b'a', b'b', 99]), Some(vec![&[][..], &[3], b"ab"]));
        assert_eq!((row(&[7, 1, 4, 0, 1, 17, 3]), row(&[2, 1, 9, 0]), row(&[])), (None, None, None));
    }

    /// A page with rows in a leaf that begins at a place.
    fn leaf(at: usize, rows: &[&[u8]]) -> Vec<u8> {
        let mut page = vec![0; 512];
        page[at] = super::LEAF;
        page[at + 4] = u8::try_from(rows.len()).unwrap();
        let mut end = page.len();
        for (place, row) in rows.iter().enumerate() {
            end -= row.len();
            page[end..end + row.len()].copy_from_slice(row);
            page[at + 8 + 2 * place..][..2].copy_from_slice(&u16::try_from(end).unwrap().to_be_bytes());
        }
        page
    }

    #[test]
    fn tables_are_found() {
        let event = b"\x15\x01\x05\x17\x17\x17\x01tableeventevent\x02";
        let store = b"\x15\x02\x05\x17\x17\x17\x01tablestorestore\x07";
        assert_eq!(root_of(&leaf(100, &[event, store]), b"store"), Some(7));
        assert_eq!((root_of(&leaf(100, &[event]), b"store"), root_of(&leaf(0, &[store]), b"store")), (None, None));
    }

    #[test]
    fn ids_are_found() {
        // NULL, 3, sixteen bytes and 5
        let row = |id: &[u8; 16]| [&[23, 0, 5, 0, 1, 44, 1, 3][..], id, &[5]].concat();
        let (one, other) = (row(b"0123456789abcdef"), row(b"................"));
        assert_eq!(id_of_row(&leaf(0, &[&one])), Some(b"0123456789abcdef".to_vec()));
        assert_eq!((id_of_row(&leaf(0, &[&one, &other])), id_of_row(&leaf(0, &[])), id_of_row(&[])), (None, None, None));
    }
}

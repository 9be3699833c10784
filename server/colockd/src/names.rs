//! Names as the store has them: of calls and types, of objects, of keys and of transactions.

use std::fmt;
use std::str::FromStr;

/// The most bytes of the name of a call or a type.
pub const LONGEST_NAME: usize = 32;

/// The most bytes of an object's name, and of a key.
pub const LONGEST_OBJECT_NAME: usize = 64;

/// Whether a word is the name of a call, a reply or a type.
pub fn is_name(word: &str) -> bool {
    (1..=LONGEST_NAME).contains(&word.len()) && word.bytes().all(|byte| matches!(byte, b'a'..=b'z' | b'0'..=b'9' | b'_' | b':' | b'-'))
}

/// Whether a word is the name of an object.
pub fn is_object_name(word: &str) -> bool {
    (1..=LONGEST_OBJECT_NAME).contains(&word.len()) && word.bytes().all(|byte| is_of_object_name(byte) || byte == b'/')
}

/// Whether a word is a key.
pub fn is_key(word: &str) -> bool {
    (1..=LONGEST_OBJECT_NAME).contains(&word.len()) && word.bytes().all(is_of_object_name)
}

fn is_of_object_name(byte: u8) -> bool {
    byte.is_ascii_alphanumeric() || matches!(byte, b'_' | b':' | b'-' | b'.')
}

/// The name of a transaction: the life of the store that began it, and its number in that life's history.
#[derive(Clone, Copy, Debug, PartialEq, Eq, PartialOrd, Ord, Hash)]
pub struct TransactionName {
    /// The life.
    pub life: u32,
    /// The number.
    pub number: u32,
}

impl TransactionName {
    /// Both in one number.
    pub fn packed(self) -> u64 {
        u64::from(self.life) << 32 | u64::from(self.number)
    }

    /// The name of which this is the number.
    pub fn unpacked(packed: u64) -> TransactionName {
        TransactionName { life: (packed >> 32) as u32, number: packed as u32 }
    }
}

impl fmt::Display for TransactionName {
    fn fmt(&self, f: &mut fmt::Formatter<'_>) -> fmt::Result {
        write!(f, "{}.{}", self.life, self.number)
    }
}

/// A word isn't the name of a transaction.
#[derive(Clone, Copy, Debug, PartialEq, Eq)]
pub struct NoTransactionName;

impl FromStr for TransactionName {
    type Err = NoTransactionName;

    fn from_str(word: &str) -> Result<TransactionName, NoTransactionName> {
        let (life, number) = word.split_once('.').ok_or(NoTransactionName)?;
        let life = number_of(life).ok_or(NoTransactionName)?;
        Ok(TransactionName { life, number: number_of(number).ok_or(NoTransactionName)? })
    }
}

/// A number as the store writes it: decimal digits without a leading zero.
pub fn number_of(word: &str) -> Option<u32> {
    let is_digits = word.bytes().all(|byte| byte.is_ascii_digit()) && (word == "0" || !word.starts_with('0'));
    if is_digits {
        word.parse().ok()
    } else {
        None
    }
}

#[cfg(test)]
mod tests {
    use super::{is_key, is_name, is_object_name, number_of, NoTransactionName, TransactionName};

    #[test]
    fn names_have_their_bytes_and_lengths() {
        assert!(is_name("withdraw:1") && is_name(&"a".repeat(32)));
        assert!(!is_name("") && !is_name(&"a".repeat(33)) && !is_name("A") && !is_name("a b") && !is_name("a\n"));
        assert!(is_object_name("stalls/B.1") && is_object_name(&"A".repeat(64)));
        assert!(!is_object_name("") && !is_object_name(&"A".repeat(65)) && !is_object_name("ä") && !is_object_name("a b"));
        assert!(is_key("order:4711") && !is_key("a/b") && !is_key("=a"));
    }

    #[test]
    fn names_of_transactions_are_read_as_they_are_written() {
        for (life, number) in [(4, 17), (5, 17), (1, 0), (0, u32::MAX), (u32::MAX, u32::MAX)] {
            let name = TransactionName { life, number };
            assert_eq!((name.to_string().parse(), TransactionName::unpacked(name.packed())), (Ok(name), name));
        }
        for word in ["", "4", "4.", ".1", "04.1", "4.01", "4.1.1", "-1.2", "4.4294967296", "+4.1"] {
            assert_eq!(word.parse::<TransactionName>(), Err(NoTransactionName), "{word}");
        }
    }

    #[test]
    fn numbers_have_no_leading_zero() {
        assert_eq!(["0", "17", "4294967295", "", "00", "x", "4294967296"].map(number_of), [Some(0), Some(17), Some(u32::MAX), None, None, None, None]);
    }
}

use crate::error::Error;
use std::fmt;
use std::str::FromStr;

/// How many numbers a life over a child has: those of its transactions are below.
const NUMBERS: u64 = 1 << 32;

/// The numbers of attempts that wait are from this one on: no transaction is seen by one.
pub(crate) const ATTEMPTS: u64 = 1 << 63;

/// The name of a transaction: the life of the store in which it began, and its number there. It is displayed as `S.N`, and
/// read of that.
///
/// In a file each opening is a life, and each epoch. One that goes on in a later epoch keeps its name. In memory a life ends where the store begins anew while nobody is open, and they
/// count from 0; where it begins anew by itself, or others go on, they count on.
///
/// ```
/// use colock::{Error, Kind, SharedStore, TransactionId, Type};
///
/// let store = SharedStore::new([&Type::counter(5, &[1], Kind::Undo)?], 100)?;
/// let transaction = store.begin()?;
/// let id = transaction.begun()?;
/// transaction.commit()?;
/// assert_eq!((id, id.to_string()), (TransactionId::new(0, 0), "0.0".into()));
/// assert_eq!(store.committed("0.0".parse()?)?, Some(true));
/// assert_eq!("0".parse::<TransactionId>(), Err(Error::BadParameter));
/// # Ok::<(), Error>(())
/// ```
#[derive(Clone, Copy, Debug, PartialEq, Eq, PartialOrd, Ord, Hash)]
pub struct TransactionId {
    /// The life of the store in which it began.
    pub life: u64,
    /// How many transactions began before it in the life, or in its epoch, those that went over into that among them. The events of that
    /// epoch tell it by this number, and those of a later one by another.
    pub number: u64,
}

impl TransactionId {
    /// That of a life and a number.
    pub const fn new(life: u64, number: u64) -> TransactionId {
        TransactionId { life, number }
    }

    /// It in one number, as it is seen over a child, which no other transaction of whatever life has.
    #[inline]
    pub(crate) fn seen(self) -> u64 {
        (self.life % (ATTEMPTS / NUMBERS)) * NUMBERS + self.number % NUMBERS
    }

    /// That of a number as it is seen over a child.
    #[inline]
    pub(crate) fn of_seen(seen: u64) -> TransactionId {
        TransactionId { life: seen / NUMBERS, number: seen % NUMBERS }
    }
}

/// How the transactions are seen that are told to one of a life by their numbers.
#[derive(Clone, Copy, Debug)]
pub(crate) enum Sight {
    /// All are of this life, which has as many numbers as it needs.
    InMemory(u64),
    /// Each is seen as of [`TransactionId::seen`], and an attempt as one of this life.
    OverChild(u64),
}

impl Sight {
    /// The id of a number.
    #[inline]
    pub(crate) fn id(self, seen: u64) -> TransactionId {
        match self {
            Sight::OverChild(_) if seen < ATTEMPTS => TransactionId::of_seen(seen),
            Sight::InMemory(life) | Sight::OverChild(life) => TransactionId { life, number: seen },
        }
    }
}

impl fmt::Display for TransactionId {
    fn fmt(&self, f: &mut fmt::Formatter<'_>) -> fmt::Result {
        write!(f, "{}.{}", self.life, self.number)
    }
}

/// The id of a text `S.N`: [`Error::BadParameter`] of any other.
impl FromStr for TransactionId {
    type Err = Error;

    fn from_str(text: &str) -> Result<TransactionId, Error> {
        let read = || {
            let (life, number) = text.split_once('.')?;
            Some(TransactionId::new(decimal(life)?, decimal(number)?))
        };
        read().ok_or(Error::BadParameter)
    }
}

/// A number of digits alone.
pub(crate) fn decimal(text: &str) -> Option<u64> {
    if text.bytes().all(|byte| byte.is_ascii_digit()) {
        text.parse().ok()
    } else {
        None
    }
}

#[cfg(test)]
mod tests {
    use super::{Sight, TransactionId, ATTEMPTS};
    use crate::Error;

    /// Each by a number that no other one has, whatever its life is, and no attempt.
    #[test]
    fn ids_are_seen_by_one_number() {
        let ids = [(0, 0), (0, 7), (4, 7), (5, 0), (5, u32::MAX.into()), (6, 7), (2_000_000_000, u32::MAX.into())]
            .map(|(life, number)| TransactionId::new(life, number));
        let seen = ids.map(TransactionId::seen);
        assert_eq!(seen.map(TransactionId::of_seen), ids);
        assert!(seen.windows(2).all(|two| two[0] < two[1]) && seen[seen.len() - 1] < ATTEMPTS, "{seen:?}");
    }

    /// In memory a life may have more numbers than over a child.
    #[test]
    fn sights_differ() {
        let seen = 9 * (1 << 32) + 7;
        assert_eq!((Sight::InMemory(5).id(seen), Sight::OverChild(5).id(seen)), (TransactionId::new(5, seen), TransactionId::new(9, 7)));
        for sight in [Sight::InMemory(5), Sight::OverChild(5)] {
            assert_eq!(sight.id(ATTEMPTS + 3), TransactionId::new(5, ATTEMPTS + 3));
        }
    }

    #[test]
    fn ids_are_read_as_they_are_displayed() {
        for id in [TransactionId::new(0, 0), TransactionId::new(3, 14), TransactionId::new(u64::MAX, 4_294_967_294)] {
            assert_eq!(id.to_string().parse(), Ok(id));
        }
        for wrong in ["", ".", "3", "3.", ".4", "3.+4", "-3.4", "3.4.5", " 3.4", "3.x", "18446744073709551616.0"] {
            assert_eq!(wrong.parse::<TransactionId>(), Err(Error::BadParameter), "{wrong}");
        }
    }
}

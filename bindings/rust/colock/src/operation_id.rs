use crate::error::Error;
use std::fmt;

/// The number of an operation of a type, by which events tell it; and that of a call, which is named by its first operation.
///
/// What a type lists is at places from 0 on, in the order of its lines. A number that takes any amount has at one place an
/// operation for each amount, and where its value is asked one for each value. It is displayed as in the line of an event:
/// the place, and the amount where it has one.
///
/// ```
/// use colock::{Kind, OperationId, Store, Type};
///
/// let purse = Type::read("number purse\nmax 10000\ninitial 500\ntake any\ngive any\nvalue\nend\n", Kind::Escrow)?;
/// let store = Store::new([&purse], 100)?;
/// let mut transaction = store.begin()?;
/// let taken = transaction.call(0, "take:17")?.executed()?;
/// assert_eq!((taken.to_string(), taken.id), ("take:17 ok".into(), OperationId::with(0, 17)));
/// assert_eq!((taken.id.to_string(), purse.call_name(taken.id)?), ("0 17".into(), "take:17".into()));
/// assert_eq!(transaction.call(0, "value")?.executed()?.id, OperationId::with(4, 483));
/// # Ok::<(), colock::Error>(())
/// ```
#[derive(Clone, Copy, Debug, PartialEq, Eq, PartialOrd, Ord, Hash)]
pub struct OperationId {
    /// Its place.
    pub place: u8,
    /// The amount of a call that may have any, or the value that was asked for; none of an operation that is listed.
    pub amount: Option<u32>,
}

/// How many places there are: a place is a byte.
const PLACES: u64 = 256;

impl OperationId {
    /// The operation at a place, which has no amount.
    pub const fn listed(place: u8) -> OperationId {
        OperationId { place, amount: None }
    }

    /// The operation at a place with an amount.
    pub const fn with(place: u8, amount: u32) -> OperationId {
        OperationId { place, amount: Some(amount) }
    }
}

impl fmt::Display for OperationId {
    fn fmt(&self, f: &mut fmt::Formatter<'_>) -> fmt::Result {
        match self.amount {
            None => write!(f, "{}", self.place),
            Some(amount) => write!(f, "{} {amount}", self.place),
        }
    }
}

/// The operation at a place, which has no amount.
impl From<u8> for OperationId {
    fn from(place: u8) -> OperationId {
        OperationId::listed(place)
    }
}

/// The number by which the library knows it: the place, and with the amount n 256 * (n + 1) more.
///
/// ```
/// use colock::OperationId;
///
/// assert_eq!((u64::from(OperationId::listed(2)), u64::from(OperationId::with(2, 17))), (2, 4610));
/// ```
impl From<OperationId> for u64 {
    #[inline]
    fn from(operation: OperationId) -> u64 {
        let place = u64::from(operation.place);
        operation.amount.map_or(place, |amount| place + PLACES * (u64::from(amount) + 1))
    }
}

/// The operation of such a number: [`Error::NoOperation`] above that of the last place with the greatest amount.
///
/// ```
/// use colock::{Error, OperationId};
///
/// assert_eq!(OperationId::try_from(4610_u64), Ok(OperationId::with(2, 17)));
/// assert_eq!(OperationId::try_from(u64::MAX), Err(Error::NoOperation));
/// ```
impl TryFrom<u64> for OperationId {
    type Error = Error;

    #[inline]
    fn try_from(number: u64) -> Result<OperationId, Error> {
        let place = (number % PLACES) as u8;
        match number / PLACES {
            0 => Ok(OperationId::listed(place)),
            above => u32::try_from(above - 1).map(|amount| OperationId::with(place, amount)).map_err(|_| Error::NoOperation),
        }
    }
}

#[cfg(test)]
mod tests {
    use super::OperationId;
    use crate::Error;

    #[test]
    fn operations_are_numbered() {
        let rows = [
            (OperationId::listed(0), 0),
            (OperationId::listed(255), 255),
            (OperationId::with(0, 0), 256),
            (OperationId::with(255, 0), 511),
            (OperationId::with(0, 1), 512),
            (OperationId::with(2, 17), 4610),
            (OperationId::with(255, u32::MAX), (1 << 40) + 255),
        ];
        for (operation, number) in rows {
            assert_eq!((u64::from(operation), OperationId::try_from(number)), (number, Ok(operation)));
        }
        assert_eq!((OperationId::try_from((1_u64 << 40) + 256), OperationId::try_from(u64::MAX)), (Err(Error::NoOperation), Err(Error::NoOperation)));
    }
}

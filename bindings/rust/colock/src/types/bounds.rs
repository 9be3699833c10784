//! Between which states the operations of a numeric type are legal, and which of them may block one another.

use crate::error::Error;
use crate::operation_id::OperationId;
use crate::types::Type;

/// An operation of a numeric type: it is legal from `low` to `high`, and moves each of these as far. All are below 2^33.
#[derive(Clone, Copy, Debug, PartialEq, Eq)]
pub(crate) struct Bounds {
    low: i64,
    high: i64,
    moves: i64,
}

impl Bounds {
    /// Those of an operation of a numeric type; `None` where it is legal nowhere. Of a number that is a value 0 or the
    /// greatest one, or no value.
    pub(crate) fn of(of: &Type, operation: OperationId) -> Result<Option<Bounds>, Error> {
        let greatest = of.states() - 1;
        let Some((state, to)) = some_step(of, operation, greatest)? else { return Ok(None) };
        let (low, high) = (farthest(of, operation, state, 0)?, farthest(of, operation, state, greatest)?);
        Ok(Some(Bounds { low: low as i64, high: high as i64, moves: to as i64 - state as i64 }))
    }

    /// Whether there is a number at which both are legal, and one of them isn't legal after the other.
    pub(crate) fn may_block(self, other: Bounds) -> bool {
        let (low, high) = (self.low.max(other.low), self.high.min(other.high));
        low <= high && !(self.is_legal_behind(other, low, high) && other.is_legal_behind(self, low, high))
    }

    /// Whether it is legal after another operation, from one number to another.
    fn is_legal_behind(self, other: Bounds, low: i64, high: i64) -> bool {
        self.low <= low + other.moves && high + other.moves <= self.high
    }
}

/// A state in which an operation is legal, and the state to which it leads. Each operation of a number without a table is
/// legal at 0 or at its greatest state, so only a table's states, of which there are few, are gone through.
fn some_step(of: &Type, operation: OperationId, greatest: u64) -> Result<Option<(u64, u64)>, Error> {
    for state in [0, greatest].into_iter().chain(1..greatest) {
        if let Some(to) = of.step(state, operation)? {
            return Ok(Some((state, to)));
        }
    }
    Ok(None)
}

/// The last state, from one in which an operation is legal towards an end, in which it is: all between two such are.
fn farthest(of: &Type, operation: OperationId, legal: u64, end: u64) -> Result<u64, Error> {
    if of.step(end, operation)?.is_some() {
        return Ok(end);
    }
    let (mut legal, mut illegal) = (legal, end);
    while legal.abs_diff(illegal) > 1 {
        let middle = (legal + illegal) / 2;
        if of.step(middle, operation)?.is_some() {
            legal = middle;
        } else {
            illegal = middle;
        }
    }
    Ok(legal)
}

#[cfg(test)]
mod tests {
    use super::Bounds;
    use crate::{Error, Kind, OperationId, Type};

    fn bounds_at(of: &Type, operation: OperationId) -> Option<(i64, i64, i64)> {
        Bounds::of(of, operation).unwrap().map(|bounds| (bounds.low, bounds.high, bounds.moves))
    }

    fn bounds_of(of: &Type) -> Vec<Option<(i64, i64, i64)>> {
        (0..of.operations()).map(|place| bounds_at(of, OperationId::listed(place))).collect()
    }

    #[test]
    fn operations_of_an_account_have_bounds() {
        let bounds = bounds_of(&Type::account(5, &[1, 2], Kind::Escrow).unwrap());
        // of each amount a deposit, its refusal, a withdrawal and its refusal; and the balances 0 and 5
        assert_eq!(bounds[..4], [Some((0, 4, 1)), Some((5, 5, 0)), Some((1, 5, -1)), Some((0, 0, 0))]);
        assert_eq!(bounds[4..8], [Some((0, 3, 2)), Some((4, 5, 0)), Some((2, 5, -2)), Some((0, 1, 0))]);
        assert_eq!((bounds[8], bounds[13]), (Some((0, 0, 0)), Some((5, 5, 0))));
    }

    #[test]
    fn what_is_legal_nowhere_has_none() {
        let never = Type::read("type never\nstates 2\ninitial 0\nop a b\nop c d\nstep 0 1 1\nend\n", Kind::Escrow).unwrap();
        assert_eq!(bounds_of(&never), [None, Some((0, 0, 1))]);
    }

    #[test]
    fn what_is_legal_in_the_middle_has_bounds() {
        let steps = (3..=5).map(|state| format!("step {state} 0 {}\n", state - 2)).collect::<String>();
        let middle = Type::read(format!("type middle\nstates 9\ninitial 0\nop a b\n{steps}end\n"), Kind::Escrow).unwrap();
        assert_eq!(bounds_of(&middle), [Some((3, 5, -2))]);
    }

    #[test]
    fn a_number_of_32_bits_has_bounds() {
        let most = i64::from(u32::MAX);
        let text = format!("number large\nmax {most}\ninitial 0\ntake 1\ntake {most}\ngive 5\natleast 1000000\nend\n");
        let bounds = bounds_of(&Type::read(text, Kind::Escrow).unwrap());
        assert_eq!(bounds[..4], [Some((1, most, -1)), Some((0, 0, 0)), Some((most, most, -most)), Some((0, most - 1, 0))]);
        assert_eq!(bounds[4..6], [Some((0, most - 5, 5)), Some((most - 4, most, 0))]);
        assert_eq!(bounds[6..], [Some((1_000_000, most, 0)), Some((0, 999_999, 0))]);
    }

    #[test]
    fn operations_with_amounts_have_bounds() {
        let purse = Type::read("number purse\nmax 4294967295\ninitial 0\ntake any\ngive any\nvalue\nend\n", Kind::Escrow).unwrap();
        let (most, at) = (i64::from(u32::MAX), |place, amount| bounds_at(&purse, OperationId::with(place, amount)));
        assert_eq!((at(0, 17), at(1, 17)), (Some((17, most, -17)), Some((0, 16, 0))));
        assert_eq!((at(2, 3), at(3, 3)), (Some((0, most - 3, 3)), Some((most - 2, most, 0))));
        assert_eq!((at(4, 0), at(4, u32::MAX)), (Some((0, 0, 0)), Some((most, most, 0))));
        assert_eq!(Bounds::of(&purse, OperationId::listed(0)), Err(Error::NoOperation));
    }

    #[test]
    fn ups_block_ups_where_there_may_be_no_room() {
        let counter = Type::counter(5, &[1], Kind::Escrow).unwrap();
        let [up, down] = [0, 1].map(|place| Bounds::of(&counter, OperationId::listed(place)).unwrap().unwrap());
        assert_eq!((up.may_block(up), down.may_block(down)), (true, true));
        assert_eq!((up.may_block(down), down.may_block(up)), (false, false));
    }
}

//! What a client knows of an object's type: its calls and replies by name, and which calls block which.

use crate::error::Error;
use crate::operation_id::OperationId;
use crate::reply::Operation;
use crate::transaction_id::decimal;
use crate::types::bounds::Bounds;
use crate::types::{Kind, Type};
use crate::word::Word;
use std::borrow::Cow;

/// What ends the name of a line whose call may have any amount.
const ANY: &str = "any";

/// The calls of a type. A call is named by the first operation that has its name.
#[derive(Debug)]
pub(crate) struct Calls {
    /// What is at each place.
    rows: Vec<Row>,
    /// The greatest amount, and the greatest value.
    greatest: u32,
    /// For the first place of each call, as bits, those of the calls that are blocked while it is held.
    blocked: Vec<u64>,
}

/// What a type lists at a place.
#[derive(Debug)]
struct Row {
    /// The first place of its call.
    first: u8,
    /// Its operation, by its place alone; where it has amounts, with the words of its line.
    listed: Operation,
    amounts: Amounts,
}

/// Which amounts the operations at a place have.
#[derive(Clone, Copy, Debug, PartialEq, Eq)]
enum Amounts {
    /// None: it is one operation.
    Listed,
    /// Those from 1 to the greatest that no other line lists. They are in the name of the call.
    Any,
    /// The values from 0 to the greatest, which are replies.
    Values,
}

impl Calls {
    /// Those of a type.
    pub(crate) fn of(of: &Type) -> Result<Calls, Error> {
        let mut calls = Calls { rows: rows(of)?, greatest: u32::try_from(of.states() - 1).unwrap_or(u32::MAX), blocked: Vec::new() };
        calls.blocked = blocked(of, &calls)?;
        Ok(calls)
    }

    /// The call of this name.
    pub(crate) fn number(&self, name: &str) -> Option<OperationId> {
        let listed = self.rows.iter().find(|row| row.listed.call == *name && row.amounts != Amounts::Any);
        match listed {
            Some(row) => Some(row.at_least()),
            None => self.rows.iter().find_map(|row| self.with_amount(row, name)),
        }
    }

    /// The call of this name, where it is one at a place for any amount.
    fn with_amount(&self, row: &Row, name: &str) -> Option<OperationId> {
        let amount = number_of(name.strip_prefix(row.stem()?)?)?;
        (1..=self.greatest).contains(&amount).then(|| OperationId::with(row.first, amount))
    }

    /// The name of a call.
    pub(crate) fn name(&self, call: OperationId) -> Option<Cow<'_, str>> {
        let row = self.rows.get(usize::from(call.place))?;
        match (row.stem(), call.amount) {
            (Some(stem), Some(amount)) => Some(Cow::Owned(format!("{stem}{amount}"))).filter(|name| self.number(name) == Some(call)),
            (Some(_), None) => None,
            (None, _) => (row.at_least() == call).then_some(Cow::Borrowed(&row.listed.call)),
        }
    }

    /// The operation of a call that has this reply.
    pub(crate) fn operation(&self, call: OperationId, reply: &str) -> Option<OperationId> {
        let mut rows = (0..).zip(&self.rows).filter(|(_, row)| row.first == call.place);
        rows.find_map(|(place, row)| match row.amounts {
            Amounts::Values => number_of(reply).filter(|value| *value <= self.greatest).map(|value| OperationId::with(place, value)),
            Amounts::Listed | Amounts::Any => (row.listed.reply == *reply).then_some(OperationId { place, amount: call.amount }),
        })
    }

    /// An operation that the type has, in words.
    #[inline]
    pub(crate) fn in_words(&self, id: OperationId) -> Option<Operation> {
        let row = self.rows.get(usize::from(id.place))?;
        match id.amount {
            None => Some(row.listed),
            Some(amount) => Some(row.with_amount(amount, id)),
        }
    }

    /// Whether it is an operation that the type lists with this reply, or takes any amount with it.
    #[inline]
    pub(crate) fn replies(&self, id: OperationId, reply: &str) -> bool {
        let row = self.rows.get(usize::from(id.place));
        row.is_some_and(|row| row.amounts != Amounts::Values && row.listed.reply == *reply)
    }

    /// Whether some operation of a call that is held may be in the way of some operation of another one. Amounts are of no
    /// account for that.
    pub(crate) fn blocks(&self, held: OperationId, requested: OperationId) -> bool {
        let bits = self.blocked.get(usize::from(held.place)).copied().unwrap_or(0);
        requested.place < 64 && (bits >> requested.place) & 1 == 1
    }

    /// The bounds of operations at a place that stand for all of them: whether they block others doesn't depend on which
    /// amount it is. A take blocks a value that is great enough, and a give one that is small enough.
    fn bounds_at(&self, of: &Type, place: u8) -> Result<Vec<Bounds>, Error> {
        let row = &self.rows[usize::from(place)];
        let operations = match row.amounts {
            Amounts::Listed => vec![OperationId::listed(place)],
            Amounts::Any => self.least_amount(row).map(|amount| OperationId::with(place, amount)).into_iter().collect(),
            Amounts::Values => vec![OperationId::with(place, 0), OperationId::with(place, self.greatest)],
        };
        let bounds = operations.into_iter().map(|operation| Bounds::of(of, operation)).collect::<Result<Vec<Option<Bounds>>, Error>>()?;
        Ok(bounds.into_iter().flatten().collect())
    }

    /// The least amount at a place for any amount: there may be none that isn't listed.
    fn least_amount(&self, row: &Row) -> Option<u32> {
        (1..=self.greatest).find(|amount| self.name(OperationId::with(row.first, *amount)).is_some())
    }
}

impl Row {
    /// The first operation of its call, of the least amount where there are more.
    fn at_least(&self) -> OperationId {
        match self.amounts {
            Amounts::Listed => OperationId::listed(self.first),
            Amounts::Any => OperationId::with(self.first, 1),
            Amounts::Values => OperationId::with(self.first, 0),
        }
    }

    /// An operation at this place with an amount, in words.
    fn with_amount(&self, amount: u32, id: OperationId) -> Operation {
        match self.stem() {
            Some(stem) => Operation::new(Word::numbered(stem, amount), self.listed.reply, id),
            None => Operation::new(self.listed.call, Word::numbered("", amount), id),
        }
    }

    /// What comes before the amount in the name of a call, at a place for any amount.
    fn stem(&self) -> Option<&str> {
        self.listed.call.strip_suffix(ANY).filter(|_| self.amounts == Amounts::Any)
    }
}

/// A number as names have it: in digits, without a zero before others.
fn number_of(word: &str) -> Option<u32> {
    let is_shortest = word.len() == 1 || !word.starts_with('0');
    decimal(word).filter(|_| is_shortest)?.try_into().ok()
}

/// What a type lists at its places.
fn rows(of: &Type) -> Result<Vec<Row>, Error> {
    let calls = (0..of.operations()).map(|place| Ok(Word::of(&of.call_name(place)?))).collect::<Result<Vec<Word>, Error>>()?;
    let row = |place: u8| {
        let call = calls[usize::from(place)];
        let first = (0..place).find(|other| calls[usize::from(*other)] == call).unwrap_or(place);
        let amounts = match call.ends_with(ANY) {
            _ if of.is_operation(OperationId::listed(place)) => Amounts::Listed,
            true => Amounts::Any,
            false => Amounts::Values,
        };
        let listed = Operation::new(call, Word::of(&of.reply_name(place)?), OperationId::listed(place));
        Ok(Row { first, listed, amounts })
    };
    (0..of.operations()).map(row).collect()
}

/// For the first place of each call, as bits, those of the calls that it blocks: there are at most 64 places.
fn blocked(of: &Type, calls: &Calls) -> Result<Vec<u64>, Error> {
    let (count, bounds) = (of.operations(), bounds(of, calls)?);
    let first = |place: u8| calls.rows[usize::from(place)].first;
    let mut blocked = vec![0; calls.rows.len()];
    for (held, requested) in (0..count).flat_map(|held| (0..count).map(move |requested| (held, requested))) {
        if of.conflicts(requested, held)? || may_block(&bounds, held, requested) {
            blocked[usize::from(first(held))] |= 1_u64 << first(requested);
        }
    }
    Ok(blocked)
}

/// Of a type for escrow, which has no conflict table, the bounds at each place of operations that are legal anywhere.
fn bounds(of: &Type, calls: &Calls) -> Result<Vec<Vec<Bounds>>, Error> {
    match of.kind() {
        Kind::Undo | Kind::Intentions => Ok(Vec::new()),
        Kind::Escrow => (0..of.operations()).map(|place| calls.bounds_at(of, place)).collect(),
    }
}

/// Whether operations at two places may block one another by their bounds, where they have any.
fn may_block(bounds: &[Vec<Bounds>], one: u8, other: u8) -> bool {
    let of = |place: u8| bounds.get(usize::from(place)).map_or(&[][..], Vec::as_slice);
    of(one).iter().any(|one| of(other).iter().any(|other| one.may_block(*other)))
}

#[cfg(test)]
mod tests {
    use super::Calls;
    use crate::{Error, Kind, OperationId, Type};

    /// The call or the operation at a place.
    const fn at(place: u8) -> OperationId {
        OperationId::listed(place)
    }

    #[test]
    fn calls_of_an_account_have_the_numbers_of_their_first_operations() {
        // deposit:1 ok 0, full 1; withdraw:1 ok 2, short 3; balance 0 to 2 from 4 on
        let account = Calls::of(&Type::account(2, &[1], Kind::Undo).unwrap()).unwrap();
        assert_eq!((account.number("withdraw:1"), account.number("balance"), account.number("x")), (Some(at(2)), Some(at(4)), None));
        assert_eq!((account.name(at(4)).as_deref(), account.name(at(5)), account.name(at(200))), (Some("balance"), None, None));
        assert_eq!((account.name(OperationId::with(4, 0)), account.name(OperationId::with(2, 1))), (None, None));
        let done = |call, reply| account.operation(at(call), reply);
        assert_eq!((done(2, "short"), done(4, "2"), done(2, "full")), (Some(at(3)), Some(at(6)), None));
        // a withdrawal that is held may come back, which a reading would have seen otherwise
        assert!(account.blocks(at(2), at(4)));
        assert!(account.blocks(at(4), at(2)));
        assert!(!account.blocks(at(4), at(4)));
        assert!(!account.blocks(at(200), at(4)) && !account.blocks(at(4), at(200)));
    }

    #[test]
    fn ups_block_downs() {
        let counter = Calls::of(&Type::counter(5, &[1], Kind::Undo).unwrap()).unwrap();
        let blocks = |held, requested| counter.blocks(at(held), at(requested));
        assert_eq!((blocks(0, 0), blocks(0, 1), blocks(1, 0), blocks(1, 1)), (false, true, true, false));
    }

    /// Of numbers, two operations that can't be done one after the other are those that don't commute.
    #[test]
    fn in_escrow_calls_block_as_in_deferred_update() {
        let all =
            |calls: &Calls| (0..64).flat_map(|held| (0..64).map(move |call| (held, call))).filter(|(held, call)| calls.blocks(at(*held), at(*call))).collect();
        let blocks = |of: Type| -> Vec<(u8, u8)> { all(&Calls::of(&of).unwrap()) };
        let counter = |kind| blocks(Type::counter(7, &[1, 2, 5], kind).unwrap());
        assert_eq!(counter(Kind::Escrow), counter(Kind::Intentions));
        let account = |kind| blocks(Type::account(6, &[1, 4], kind).unwrap());
        assert_eq!(account(Kind::Escrow), account(Kind::Intentions));
        let items = |kind| blocks(Type::semiqueue(&["a", "b", "c"], 1, kind).unwrap());
        assert_eq!(items(Kind::Escrow), items(Kind::Intentions));
        // by reasoning: a withdrawal makes room for a deposit that was refused, and two balances block nobody
        let small = Calls::of(&Type::account(5, &[1], Kind::Escrow).unwrap()).unwrap();
        let blocks = |held, requested| small.blocks(at(held), at(requested));
        assert!(blocks(0, 2) && blocks(2, 0) && blocks(4, 0) && !blocks(4, 4));
    }

    fn purse(lines: &str) -> (Type, Calls) {
        let of = Type::read(format!("number purse\nmax 40\ninitial 7\n{lines}\nend\n"), Kind::Escrow).unwrap();
        let calls = Calls::of(&of).unwrap();
        (of, calls)
    }

    // take:3 ok 0, short 1; take:any ok 2, short 3; give:any ok 4, full 5; atleast:9 yes 6, no 7; value 8
    const LINES: &str = "take 3\ntake any\ngive any\natleast 9\nvalue";

    #[test]
    fn calls_have_amounts() {
        let calls = purse(LINES).1;
        let numbers = ["take:17", "take:3", "take:40", "give:3", "value"].map(|name| calls.number(name));
        assert_eq!(numbers, [OperationId::with(2, 17), at(0), OperationId::with(2, 40), OperationId::with(4, 3), OperationId::with(8, 0)].map(Some));
        for none in ["take:0", "take:007", "take:41", "take:4294967313", "take:+7", "take:any", "take:", "take", "value:0", "give:any"] {
            assert_eq!(calls.number(none), None, "{none}");
        }
        assert_eq!((calls.name(OperationId::with(2, 17)).as_deref(), calls.name(OperationId::with(8, 0)).as_deref()), (Some("take:17"), Some("value")));
        let none =
            [at(2), at(8), OperationId::with(2, 3), OperationId::with(3, 17), OperationId::with(2, 41), OperationId::with(8, 1), OperationId::with(0, 3)];
        assert_eq!(none.map(|call| calls.name(call)), [const { None }; 7]);
    }

    #[test]
    fn replies_have_amounts() {
        let calls = purse(LINES).1;
        let [take, give, value] = [OperationId::with(2, 17), OperationId::with(4, 3), OperationId::with(8, 0)];
        assert_eq!((calls.operation(take, "ok"), calls.operation(take, "short")), (Some(take), Some(OperationId::with(3, 17))));
        assert_eq!((calls.operation(give, "full"), calls.operation(give, "short")), (Some(OperationId::with(5, 3)), None));
        assert_eq!((calls.operation(value, "40"), calls.operation(value, "0")), (Some(OperationId::with(8, 40)), Some(value)));
        assert_eq!((calls.operation(value, "41"), calls.operation(value, "n"), calls.operation(value, "04")), (None, None, None));
    }

    /// What the client says of names is what the library does.
    #[test]
    fn names_are_those_of_the_library() {
        for lines in [LINES, "take any\nvalue", "give 1\ngive 2\ngive any", "value"] {
            let (of, calls) = purse(lines);
            let amounts = || [None].into_iter().chain((0..50).map(Some));
            for operation in (0..12).flat_map(|place| amounts().map(move |amount| OperationId { place, amount })) {
                let (call, reply) = (of.call_name(operation), of.reply_name(operation));
                // at a place that has operations with amounts the names are those of its line
                let Some(call) = call.ok().filter(|_| of.is_operation(operation)) else {
                    assert_eq!(calls.name(operation), None, "{operation:?}");
                    continue;
                };
                let (first, found) = (calls.number(&call).unwrap(), of.operation(&call, &reply.clone().unwrap()).unwrap());
                assert_eq!((of.call_name(first), calls.name(first).as_deref()), (Ok(call.clone()), Some(call.as_str())));
                assert_eq!(calls.operation(first, &reply.unwrap()), Some(found), "{operation:?}");
                // an amount that another line lists is that line's
                assert!(found == operation || (found.amount.is_none() && of.step(7, operation) == Ok(None)), "{operation:?}");
            }
            assert_eq!(of.operation("take:41", "ok").err(), Some(Error::NoOperation));
        }
    }

    /// A take and a give are done side by side, and so are two that only look. A value blocks what moves the number.
    #[test]
    fn amounts_block_whatever_they_are() {
        let calls = purse(LINES).1;
        let of = |name: &str| calls.number(name).unwrap();
        let blocks = |held: &str, requested: &str| calls.blocks(of(held), of(requested));
        for take in ["take:1", "take:3", "take:40"] {
            assert!(blocks(take, "take:1") && blocks("take:1", take) && blocks(take, "value") && blocks("value", take), "{take}");
            assert!(blocks(take, "atleast:9") && blocks("atleast:9", take), "{take}");
        }
        // a take makes room for a give that was refused, and a give for a take
        assert!(blocks("take:5", "give:5") && blocks("give:5", "take:5") && blocks("give:40", "value") && blocks("value", "give:1"));
        assert!(!blocks("value", "value") && !blocks("value", "atleast:9") && !blocks("atleast:9", "atleast:9"));
        // where each amount is listed, none is left for `any`
        let all: String = (1..=31).map(|amount| format!("take {amount}\n")).collect();
        let full = Type::read(format!("number small\nmax 31\ninitial 0\n{all}take any\nend\n"), Kind::Escrow).unwrap();
        let calls = Calls::of(&full).unwrap();
        assert_eq!((calls.number("take:31"), calls.number("take:32")), (Some(at(60)), None));
        assert!(calls.blocks(at(0), at(60)) && !calls.blocks(at(0), at(62)) && !calls.blocks(at(62), at(62)));
    }
}

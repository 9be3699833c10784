//! Calls that are asked together, in one attempt or in one peek.

use crate::error::Error;
use crate::few::Few;
use crate::object::{Object, ObjectRef};
use crate::objects::Objects;
use crate::operation_id::OperationId;
use crate::reply::Operation;
use std::str;

/// How many calls, and how many bytes of their names, take no heap memory.
pub(crate) const FEW_CALLS: usize = 8;
const FEW_BYTES: usize = 96;

/// What is no call's number.
const NO_CALL: u64 = u64::MAX;

/// Calls by the numbers of their objects and by their names, each of which is a word.
#[derive(Debug, Default)]
pub(crate) struct Asked {
    objects: Few<u32, FEW_CALLS>,
    /// With a space between two.
    names: Few<u8, FEW_BYTES>,
}

/// A call that isn't asked, by its place from 0.
#[derive(Debug, PartialEq, Eq)]
pub(crate) struct Unasked {
    pub(crate) at: usize,
    pub(crate) error: Error,
}

impl Asked {
    /// The calls of these objects and names. `number_of` gives the number of an object.
    pub(crate) fn of(
        calls: impl IntoIterator<Item = (impl ObjectRef, impl AsRef<str>)>,
        number_of: impl Fn(Object<'_>) -> Result<u32, Error>,
    ) -> Result<Asked, Unasked> {
        let mut asked = Asked::default();
        for (at, (object, name)) in calls.into_iter().enumerate() {
            let object = number_of(object.as_object()).map_err(|error| Unasked { at, error })?;
            asked.push(object, name.as_ref()).map_err(|error| Unasked { at, error })?;
        }
        Ok(asked)
    }

    /// One more call.
    fn push(&mut self, object: u32, name: &str) -> Result<(), Error> {
        // a text with a space would be two names
        if name.is_empty() || name.contains(' ') {
            return Err(Error::NoCall);
        }
        if !self.objects.is_empty() {
            self.names.append(b" ");
        }
        self.objects.append(&[object]);
        self.names.append(name.as_bytes());
        Ok(())
    }

    /// The objects, in the order of the calls.
    pub(crate) fn objects(&self) -> &[u32] {
        &self.objects
    }

    /// Each object with the name of its call.
    pub(crate) fn calls(&self) -> impl Iterator<Item = (u32, &str)> {
        // whole names were written
        let names = str::from_utf8(&self.names).unwrap_or_default();
        self.objects.iter().copied().zip(names.split(' '))
    }

    /// The words `X NAME X NAME..` of the calls, so many calls in a text.
    pub(crate) fn lines(&self, most: usize) -> Vec<String> {
        let words: Vec<String> = self.calls().map(|(object, name)| format!("{object} {name}")).collect();
        words.chunks(most).map(|words| words.join(" ")).collect()
    }

    /// The numbers of the calls.
    pub(crate) fn numbers(&self, objects: &Objects) -> Result<Vec<OperationId>, Unasked> {
        let number = |object: u32, name: &str| objects.calls_at(object)?.number(name).ok_or(Error::NoCall);
        self.calls().enumerate().map(|(at, (object, name))| number(object, name).map_err(|error| Unasked { at, error })).collect()
    }

    /// The numbers of the calls, as the library has them. One that isn't there has that of none.
    pub(crate) fn numbers_or_none(&self, objects: &Objects) -> Result<Few<u64, FEW_CALLS>, Error> {
        let mut numbers = Few::room_of(self.objects.len())?;
        for (number, (object, name)) in numbers.iter_mut().zip(self.calls()) {
            let call = objects.calls_at(object).ok().and_then(|calls| calls.number(name));
            *number = call.map_or(NO_CALL, u64::from);
        }
        Ok(numbers)
    }

    /// The operations of calls of these numbers that have these replies, as the library has them; nothing where there are
    /// none, or more replies or fewer than calls.
    pub(crate) fn operations(&self, calls: &[OperationId], replies: &str, objects: &Objects) -> Option<Vec<u64>> {
        let replies = words_in(replies);
        let asked = self.objects.iter().zip(calls).zip(&replies);
        let operations = asked.map(|((object, call), reply)| objects.calls_at(*object).ok()?.operation(*call, reply).map(u64::from));
        operations.collect::<Option<Vec<u64>>>().filter(|_| replies.len() == calls.len())
    }

    /// Operations of the calls, as the library has them, in words.
    pub(crate) fn in_words(&self, operations: &[u64], objects: &Objects) -> Result<Vec<Operation>, Error> {
        let mut words = Vec::with_capacity(operations.len());
        for (object, number) in self.objects.iter().zip(operations) {
            let id = OperationId::try_from(*number).map_err(|_| Error::Unknown(*number))?;
            words.push(objects.calls_at(*object)?.in_words(id).ok_or(Error::Unknown(*number))?);
        }
        Ok(words)
    }

    /// The replies of operations of the calls, as the library has them, with a space between two.
    pub(crate) fn replies(&self, operations: &[u64], objects: &Objects) -> Result<String, Error> {
        let done = self.in_words(operations, objects)?;
        let replies: Vec<&str> = done.iter().map(|operation| operation.reply.as_str()).collect();
        Ok(replies.join(" "))
    }
}

/// The words of a text that has a space between two. An empty one has none.
pub(crate) fn words_in(text: &str) -> Vec<&str> {
    text.split(' ').filter(|_| !text.is_empty()).collect()
}

#[cfg(test)]
mod tests {
    use super::{Asked, Unasked, NO_CALL};
    use crate::object::Object;
    use crate::objects::Objects;
    use crate::{Error, Kind, OperationId, Type};

    /// Objects by their numbers, of which `a` is 7.
    fn number_of(object: Object<'_>) -> Result<u32, Error> {
        match object {
            Object::Number(number) => Ok(number),
            Object::Name("a") => Ok(7),
            Object::Name(name) => Err(Error::NoObjectNamed(name.to_string())),
        }
    }

    #[test]
    fn calls_are_asked_in_their_order() {
        let asked = Asked::of([(Object::Number(3), "inc:1"), (Object::Name("a"), "hold")], number_of).unwrap();
        assert_eq!((asked.objects(), asked.calls().collect::<Vec<_>>()), (&[3, 7][..], vec![(3, "inc:1"), (7, "hold")]));
        assert_eq!((asked.lines(64), asked.lines(1)), (vec!["3 inc:1 7 hold".to_string()], vec!["3 inc:1".to_string(), "7 hold".to_string()]));
        let none: [(u32, &str); 0] = [];
        assert_eq!(Asked::of(none, number_of).unwrap().calls().count(), 0);
    }

    #[test]
    fn there_may_be_many() {
        let names: Vec<String> = (0..100).map(|call| format!("take:{call}")).collect();
        for count in [7, 8, 9, 13, 14, 100] {
            let asked = Asked::of((0..).zip(&names[..count]), number_of).unwrap();
            assert_eq!(asked.objects(), (0..count as u32).collect::<Vec<u32>>());
            assert!(asked.calls().map(|(_, name)| name).eq(names[..count].iter().map(String::as_str)));
        }
    }

    #[test]
    fn a_call_that_isnt_there_has_the_number_of_none() {
        let counter = Type::counter(5, &[1, 2], Kind::Undo).unwrap();
        let purse = Type::read("number purse\nmax 40\ninitial 7\ntake any\nvalue\nend\n", Kind::Escrow).unwrap();
        let objects = Objects::of(Objects::none().checked([&counter, &purse]).unwrap(), 2);
        let asked = Asked::of([(0, "dec:1"), (0, "x"), (1, "take:17"), (1, "take:41"), (1, "value"), (2, "dec:1")], number_of).unwrap();
        let numbers = [OperationId::listed(1), OperationId::with(0, 17), OperationId::with(2, 0)].map(u64::from);
        assert_eq!(*asked.numbers_or_none(&objects).unwrap(), [numbers[0], NO_CALL, numbers[1], NO_CALL, numbers[2], NO_CALL]);
        assert!(OperationId::try_from(NO_CALL).is_err());
    }

    /// What an attempt is told again is what it was told.
    #[test]
    fn replies_are_those_of_such_calls_or_not() {
        let account = Type::account(2, &[1], Kind::Undo).unwrap();
        let objects = Objects::of(Objects::none().checked([&account]).unwrap(), 1);
        let asked = Asked::of([(0, "withdraw:1"), (0, "balance")], number_of).unwrap();
        let calls = asked.numbers(&objects).unwrap();
        for replies in ["ok 0", "short 2"] {
            let operations = asked.operations(&calls, replies, &objects).unwrap();
            assert_eq!(asked.replies(&operations, &objects).as_deref(), Ok(replies));
        }
        for other in ["", "ok", "ok ", " ok", "ok 0 ok", "full 0", "ok 3", "ok  0"] {
            assert_eq!(asked.operations(&calls, other, &objects), None, "{other:?}");
        }
        let none = Asked::default();
        assert_eq!((none.operations(&[], "", &objects), none.operations(&[], "ok", &objects)), (Some(vec![]), None));
        assert_eq!(none.replies(&[], &objects).as_deref(), Ok(""));
    }

    #[test]
    fn what_is_no_name_is_no_call() {
        for wrong in ["", " ", "inc:1 dec:1", " inc:1", "inc:1 "] {
            let told = Asked::of([(0, "inc:1"), (0, wrong)], number_of).err();
            assert_eq!(told, Some(Unasked { at: 1, error: Error::NoCall }), "{wrong:?}");
        }
        let told = Asked::of([("a", "x"), ("b", "")], number_of).err();
        assert_eq!(told, Some(Unasked { at: 1, error: Error::NoObjectNamed("b".to_string()) }));
    }
}

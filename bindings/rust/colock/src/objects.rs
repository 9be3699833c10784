//! What a client knows of the objects of a store: of each its type, and its name where it has one.

use crate::error::Error;
use crate::object::{NewObject, Object};
use crate::types::calls::Calls;
use crate::types::Type;
use std::borrow::Cow;
use std::collections::{HashMap, HashSet};
use std::iter::repeat_with;
use std::sync::{Arc, OnceLock, PoisonError, RwLock};

/// The most objects of a store.
pub(crate) const MOST_OBJECTS: usize = 65_536;

/// The longest name, in bytes.
const LONGEST_NAME: usize = 64;

/// An object.
#[derive(Debug)]
pub(crate) struct Known {
    of: Type,
    name: Option<Arc<str>>,
}

/// The numbers of objects by their names.
type Numbers = HashMap<Arc<str>, u32>;

/// The objects of a store. They become more and are never changed, so who reads of one takes no lock. Only the name of one
/// that was added later is looked up under a lock, which is held for no longer than that.
#[derive(Debug)]
pub(crate) struct Objects {
    /// There is room for as many as the store may have.
    known: Box<[OnceLock<Known>]>,
    /// Of those with which the store began.
    numbers: Numbers,
    /// Of those that were added.
    later_numbers: RwLock<Numbers>,
}

impl Objects {
    /// Those of a store that begins, with room for as many as it may have.
    pub(crate) fn of(first: Vec<Known>, most: usize) -> Objects {
        let numbers = numbers(&first, 0).collect();
        let left = most.saturating_sub(first.len());
        let known = first.into_iter().map(OnceLock::from).chain(repeat_with(OnceLock::new).take(left)).collect();
        Objects { known, numbers, later_numbers: RwLock::default() }
    }

    /// None yet, of a store that isn't made.
    pub(crate) fn none() -> Objects {
        Objects::of(Vec::new(), 0)
    }

    #[inline]
    fn get(&self, object: u32) -> Option<&Known> {
        self.known.get(usize::try_from(object).unwrap_or(usize::MAX))?.get()
    }

    /// The type of an object.
    #[inline]
    pub(crate) fn type_at(&self, object: u32) -> Option<&Type> {
        self.get(object).map(|known| &known.of)
    }

    /// The calls of an object.
    #[inline]
    pub(crate) fn calls_at(&self, object: u32) -> Result<&Calls, Error> {
        self.type_at(object).map(Type::calls).ok_or(Error::NoObject)
    }

    /// The types of all, in their order.
    pub(crate) fn types(&self) -> impl Iterator<Item = &Type> {
        (0..).map_while(|object| self.type_at(object))
    }

    pub(crate) fn len(&self) -> usize {
        self.types().count()
    }

    /// The name of an object, where it has one.
    pub(crate) fn name_at(&self, object: u32) -> Option<&str> {
        self.get(object)?.name.as_deref()
    }

    fn number(&self, name: &str) -> Option<u32> {
        let first = self.numbers.get(name).copied();
        first.or_else(|| self.later_numbers.read().unwrap_or_else(PoisonError::into_inner).get(name).copied())
    }

    /// The number of an object.
    #[inline]
    pub(crate) fn number_of(&self, object: Object<'_>) -> Result<u32, Error> {
        match object {
            Object::Number(number) => Ok(number),
            Object::Name(name) => self.number(name).ok_or_else(|| Error::NoObjectNamed(name.to_string())),
        }
    }

    /// Objects that are to be added, each with a name that no other has, or with none.
    pub(crate) fn checked<'t>(&self, objects: impl IntoIterator<Item = impl Into<NewObject<'t>>>) -> Result<Vec<Known>, Error> {
        let mut given = HashSet::new();
        let mut check = |object: NewObject<'_>| {
            let name = object.name.map(name_of).transpose()?;
            match &name {
                Some(name) if self.number(name).is_some() || !given.insert(Arc::clone(name)) => Err(Error::NameTaken(name.to_string())),
                _ => Ok(Known { of: object.of.clone(), name }),
            }
        };
        objects.into_iter().map(|object| check(object.into())).collect()
    }

    /// Adds objects that were checked, from this number on, where there is room for them. One thread does so at a time.
    pub(crate) fn add(&self, from: u32, added: Vec<Known>) {
        let numbers: Vec<(Arc<str>, u32)> = numbers(&added, from).collect();
        for (room, known) in self.known.iter().skip(from as usize).zip(added) {
            // nobody else has set it
            let _ = room.set(known);
        }
        self.later_numbers.write().unwrap_or_else(PoisonError::into_inner).extend(numbers);
    }
}

impl Known {
    pub(crate) fn of(&self) -> &Type {
        &self.of
    }

    pub(crate) fn name(&self) -> Option<&str> {
        self.name.as_deref()
    }
}

/// The numbers of those that have names. They count from one on.
fn numbers(objects: &[Known], from: u32) -> impl Iterator<Item = (Arc<str>, u32)> + '_ {
    (from..).zip(objects).filter_map(|(number, known)| Some((Arc::clone(known.name.as_ref()?), number)))
}

/// Whether a text has the shape of a name.
pub(crate) fn is_name(text: &str) -> bool {
    let may_have = |byte: u8| byte.is_ascii_alphanumeric() || b"_:-./".contains(&byte);
    (1..=LONGEST_NAME).contains(&text.len()) && text.bytes().all(may_have)
}

/// A name, where it is one.
fn name_of(name: Cow<'_, str>) -> Result<Arc<str>, Error> {
    if is_name(&name) {
        Ok(Arc::from(name))
    } else {
        Err(Error::BadName(name.into_owned()))
    }
}

#[cfg(test)]
mod tests {
    use super::Objects;
    use crate::object::Object;
    use crate::{Error, Kind, Type};

    fn counter() -> Type {
        Type::counter(1, &[1], Kind::Undo).unwrap()
    }

    /// Objects of a counter, with room for 1,000.
    fn objects(first: u32, of: &Type) -> Objects {
        Objects::of(Objects::none().checked((0..first).map(|number| (number.to_string(), of))).unwrap(), 1000)
    }

    #[test]
    fn objects_become_more() {
        let of = counter();
        for first in [0, 1, 5] {
            let objects = objects(first, &of);
            for number in first..40 {
                assert_eq!((objects.types().count(), objects.name_at(number)), (number as usize, None));
                assert_eq!(objects.number_of(Object::Number(number)), Ok(number)); // whether it is there or not
                objects.add(number, objects.checked([(number.to_string(), &of)]).unwrap());
            }
            assert!((0..40).all(|number| objects.number(&number.to_string()) == Some(number)));
            assert!((0..40).all(|number| objects.name_at(number) == Some(&number.to_string())));
            assert_eq!((objects.number("40"), objects.name_at(40)), (None, None));
            assert_eq!(objects.checked([("new", &of), ("39", &of)]).err(), Some(Error::NameTaken("39".to_string())));
            assert!(objects.type_at(u32::MAX).is_none() && objects.calls_at(40).is_err());
        }
    }

    /// Whoever looks meanwhile finds a name with all that belongs to it.
    #[test]
    fn others_look_meanwhile() {
        let (of, last) = (counter(), 999);
        let objects = objects(1, &of);
        std::thread::scope(|scope| {
            scope.spawn(|| {
                for number in 0..=last {
                    while objects.number(&number.to_string()).is_none() {
                        std::thread::yield_now();
                    }
                    assert_eq!((objects.name_at(number), objects.type_at(number).is_some()), (Some(number.to_string().as_str()), true));
                }
            });
            for number in 1..=last {
                objects.add(number, objects.checked([(number.to_string(), &of)]).unwrap());
            }
        });
    }
}

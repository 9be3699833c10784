use crate::types::Type;
use std::borrow::Cow;

/// An object of a store, by its number or its name.
#[derive(Clone, Copy, Debug, PartialEq, Eq, Hash)]
pub enum Object<'n> {
    /// They count from 0, in the order in which the store was given them.
    Number(u32),
    /// One that the store was given with the object.
    Name(&'n str),
}

/// What stands for an object in a call: a number of 32 bits, a `&str`, a `&String`, an [`Object`], or what implements this.
///
/// ```
/// use colock::{Kind, Object, ObjectRef, Store, Type};
///
/// struct Seat(char, u8);
///
/// impl ObjectRef for Seat {
///     fn as_object(&self) -> Object<'_> {
///         Object::Number((u32::from(self.0) - u32::from('A')) * 2 + u32::from(self.1) - 1)
///     }
/// }
///
/// let free = Type::seats(1, Kind::Undo)?;
/// let store = Store::new([("A1", &free), ("A2", &free), ("B1", &free), ("B2", &free)], 1_000_000)?;
/// let mut transaction = store.begin()?;
/// transaction.expect("A1", "hold:1", "ok")?;
/// transaction.expect(1, "hold:1", "ok")?; // A2
/// transaction.expect(Seat('B', 1), "hold:1", "ok")?;
/// assert_eq!((store.kept("B1")?, store.kept("B2")?), (1, 0));
/// # Ok::<(), colock::Error>(())
/// ```
pub trait ObjectRef {
    /// The object. It is asked once in each call.
    fn as_object(&self) -> Object<'_>;
}

impl ObjectRef for u32 {
    #[inline]
    fn as_object(&self) -> Object<'_> {
        Object::Number(*self)
    }
}

impl ObjectRef for &str {
    #[inline]
    fn as_object(&self) -> Object<'_> {
        Object::Name(self)
    }
}

impl ObjectRef for &String {
    #[inline]
    fn as_object(&self) -> Object<'_> {
        Object::Name(self)
    }
}

impl ObjectRef for Object<'_> {
    #[inline]
    fn as_object(&self) -> Object<'_> {
        *self
    }
}

/// An object that a store is to have: its type, and its name where it has one.
///
/// A name has 1 to 64 bytes of `a-z`, `A-Z`, `0-9`, `_`, `:`, `-`, `.` and `/`, and no other object of the store has it. An
/// object may be given as its type, or as a pair of a name and its type. A list that has both is one of these:
///
/// ```
/// use colock::{Kind, NewObject, Store, Type};
///
/// let (seat, stock) = (Type::seats(1, Kind::Undo)?, Type::stock(9, &[1], Kind::Escrow)?);
/// let store = Store::new([NewObject::from(&stock), ("A12", &seat).into()], 1_000_000)?;
/// let other = Store::new([(None, &stock), (Some("A12"), &seat)], 1_000_000)?;
/// assert_eq!((store.find("A12")?, other.find("A12")?, store.name_of(0)), (1, 1, None));
/// # Ok::<(), colock::Error>(())
/// ```
#[derive(Clone, Debug)]
pub struct NewObject<'t> {
    pub(crate) name: Option<Cow<'t, str>>,
    pub(crate) of: &'t Type,
}

impl<'t> From<&'t Type> for NewObject<'t> {
    fn from(of: &'t Type) -> Self {
        NewObject { name: None, of }
    }
}

impl<'t> From<&&'t Type> for NewObject<'t> {
    fn from(of: &&'t Type) -> Self {
        NewObject { name: None, of }
    }
}

impl<'t> From<(&'t str, &'t Type)> for NewObject<'t> {
    fn from((name, of): (&'t str, &'t Type)) -> Self {
        NewObject { name: Some(Cow::Borrowed(name)), of }
    }
}

impl<'t> From<&(&'t str, &'t Type)> for NewObject<'t> {
    fn from((name, of): &(&'t str, &'t Type)) -> Self {
        NewObject { name: Some(Cow::Borrowed(name)), of }
    }
}

impl<'t> From<(&'t String, &'t Type)> for NewObject<'t> {
    fn from((name, of): (&'t String, &'t Type)) -> Self {
        NewObject { name: Some(Cow::Borrowed(name)), of }
    }
}

impl<'t> From<(String, &'t Type)> for NewObject<'t> {
    fn from((name, of): (String, &'t Type)) -> Self {
        NewObject { name: Some(Cow::Owned(name)), of }
    }
}

impl<'t> From<(Option<&'t str>, &'t Type)> for NewObject<'t> {
    fn from((name, of): (Option<&'t str>, &'t Type)) -> Self {
        NewObject { name: name.map(Cow::Borrowed), of }
    }
}

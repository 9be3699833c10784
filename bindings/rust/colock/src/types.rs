pub(crate) mod bounds;
pub(crate) mod calls;
pub(crate) mod source;
mod steps;

use crate::error::Error;
use crate::locks::locked;
use crate::memory::handle::{done, Handle};
use crate::operation_id::OperationId;
use crate::reply::Operation;
use crate::types::calls::Calls;
use crate::types::source::Source;
use colock_sys as sys;
use std::fmt;
use std::sync::{Arc, Mutex, MutexGuard, OnceLock};

/// How an object recovers from aborts.
#[derive(Clone, Copy, Debug, PartialEq, Eq, Hash)]
#[non_exhaustive]
pub enum Kind {
    /// It is updated in place, and operations are taken back.
    Undo = 0,
    /// Each transaction keeps its operations by itself until it commits.
    Intentions = 1,
    /// The same of a number: how far others may move it says what has to wait, and no conflict table does.
    ///
    /// A type has to be numeric: each operation is legal from a lowest to a highest state, and moves all of these as far.
    /// A counter, a stock and an account are, a set isn't, a semiqueue and a queue are where they have one element, or a
    /// capacity of 1, and seats are where there is one.
    Escrow = 2,
}

impl Kind {
    /// The kind of a word in the lines of objects.
    pub(crate) fn of_word(word: &str) -> Option<Kind> {
        [Kind::Undo, Kind::Intentions, Kind::Escrow].into_iter().find(|kind| kind.word() == word)
    }

    fn word(self) -> &'static str {
        match self {
            Kind::Undo => "undo",
            Kind::Intentions => "intentions",
            Kind::Escrow => "escrow",
        }
    }
}

/// The word of the kind, as in the lines of objects: `undo`, `intentions` or `escrow`.
impl fmt::Display for Kind {
    fn fmt(&self, f: &mut fmt::Formatter<'_>) -> fmt::Result {
        f.write_str(self.word())
    }
}

/// The type of an object: states, operations, and which operations conflict, checked for a [`Kind`].
///
/// Many objects of many stores may have one type, and outlive it. A clone is the same type, and threads may share it. It is
/// displayed as the grid of its conflicts, and one of [`Kind::Escrow`] by a line that says that it has no conflict table.
#[derive(Clone)]
pub struct Type(Arc<Made>);

/// What clones of a type share.
struct Made {
    /// Each call of the library has it to itself.
    handle: Mutex<Handle>,
    source: Source,
    shape: sys::Shape,
    name: String,
    /// They are read as soon as all else is there.
    calls: OnceLock<Calls>,
}

impl Type {
    /// The type of a text, with its own conflicts, which for [`Kind::Escrow`] aren't looked at. A text whose first word is
    /// `number` is of a number up to 4,294,967,295, which has no table and is for [`Kind::Escrow`] alone. It lists amounts,
    /// or with `take any` and `give any` takes and gives each one from 1 to the greatest number, as `take:17`; with `value`
    /// it answers what it is.
    ///
    /// ```
    /// use colock::{Error, FaultKind, Kind, Type};
    ///
    /// let cents = Type::read("number cents\nmax 100000\ninitial 500\ntake 250\ngive 250\nend\n", Kind::Escrow)?;
    /// assert_eq!((cents.states(), cents.call_name(0)?, cents.step(500, 0)?), (100_001, "take:250".into(), Some(250)));
    ///
    /// let text = "type flag\nstates 2\ninitial 0\nop raise ok\nstep 0 0 1\nconflict undo 0 0\nend\n";
    /// assert_eq!(Type::read(text, Kind::Undo)?.states(), 2);
    /// let wrong = Type::read("type flag\nstates two\n", Kind::Undo);
    /// assert_eq!(wrong.err(), Some(Error::BadText { line: 2, kind: FaultKind::BadNumber }));
    /// # Ok::<(), Error>(())
    /// ```
    ///
    /// # Errors
    ///
    /// [`Error::BadText`], [`Error::NeedsEscrow`], [`Error::Refused`] or [`Error::NoMemory`].
    pub fn read(text: impl AsRef<[u8]>, kind: Kind) -> Result<Type, Error> {
        let text = text.as_ref();
        // SAFETY: `made` gives pointers of its own, and the text is one slice.
        Type::made(Source::Text(text.to_vec()), |handle, fault| unsafe { sys::colock_type_read(handle, kind as u32, text.as_ptr(), text.len(), fault) })
    }

    /// The type of a text whose conflicts are found out: those of the text aren't used.
    ///
    /// ```
    /// use colock::{Kind, Type};
    ///
    /// let text = "type flag\nstates 2\ninitial 0\nop raise ok\nstep 0 0 1\nend\n";
    /// assert!(Type::read(text, Kind::Intentions).is_err());
    /// assert!(Type::with_made_tables(text, Kind::Intentions)?.conflicts(0, 0)?);
    /// # Ok::<(), colock::Error>(())
    /// ```
    ///
    /// # Errors
    ///
    /// [`Error::BadText`], [`Error::Refused`] or [`Error::NoMemory`].
    pub fn with_made_tables(text: impl AsRef<[u8]>, kind: Kind) -> Result<Type, Error> {
        let text = text.as_ref();
        // SAFETY: as in `read`.
        Type::made(Source::Tables(text.to_vec()), |handle, fault| unsafe { sys::colock_type_tables(handle, kind as u32, text.as_ptr(), text.len(), fault) })
    }

    /// An account of 0 to `cap`: `deposit:A` and `withdraw:A` for each amount A, and `balance`. Amounts are 1 to
    /// `cap`, ascending.
    ///
    /// ```
    /// use colock::{Error, Kind, Type};
    ///
    /// let account = Type::account(5, &[1, 2], Kind::Undo)?;
    /// assert_eq!((account.call_name(7)?, account.reply_name(7)?), ("withdraw:2".into(), "short".into()));
    /// // an operation for each balance
    /// assert_eq!(Type::account(100, &[1], Kind::Undo).err(), Some(Error::TooLarge));
    /// # Ok::<(), Error>(())
    /// ```
    ///
    /// # Errors
    ///
    /// [`Error::BadParameter`], [`Error::TooLarge`] or [`Error::NoMemory`].
    pub fn account(cap: u64, amounts: &[u64], kind: Kind) -> Result<Type, Error> {
        // SAFETY: as in `read`.
        Type::made(Source::family("account", cap, amounts), |handle, fault| unsafe {
            sys::colock_type_account(handle, kind as u32, cap, amounts.as_ptr(), amounts.len(), fault)
        })
    }

    /// A counter of 0 to `cap`: `inc:A` and `dec:A` for each amount A. Amounts are 1 to `cap`, ascending.
    ///
    /// ```
    /// let counter = colock::Type::counter(1000, &[1, 10], colock::Kind::Undo)?;
    /// assert_eq!(counter.call_name(2)?, "inc:10");
    /// # Ok::<(), colock::Error>(())
    /// ```
    ///
    /// # Errors
    ///
    /// As of [`Type::account`].
    pub fn counter(cap: u64, amounts: &[u64], kind: Kind) -> Result<Type, Error> {
        // SAFETY: as in `read`.
        Type::made(Source::family("counter", cap, amounts), |handle, fault| unsafe {
            sys::colock_type_counter(handle, kind as u32, cap, amounts.as_ptr(), amounts.len(), fault)
        })
    }

    /// A stock of 0 to `cap`: `give:A` and `take:A` for each amount A, whose refusals, `full` and `short`, are replies.
    /// Amounts are 1 to `cap`, ascending.
    ///
    /// ```
    /// let stock = colock::Type::stock(1000, &[1, 10], colock::Kind::Undo)?;
    /// assert_eq!((stock.call_name(3)?, stock.reply_name(3)?), ("take:1".into(), "short".into()));
    /// # Ok::<(), colock::Error>(())
    /// ```
    ///
    /// # Errors
    ///
    /// As of [`Type::account`].
    pub fn stock(cap: u64, amounts: &[u64], kind: Kind) -> Result<Type, Error> {
        // SAFETY: as in `read`.
        Type::made(Source::family("stock", cap, amounts), |handle, fault| unsafe {
            sys::colock_type_stock(handle, kind as u32, cap, amounts.as_ptr(), amounts.len(), fault)
        })
    }

    /// A set: `insert:E`, `delete:E` and `member:E` for each element E, which are names.
    ///
    /// ```
    /// let set = colock::Type::set(&["mon", "tue"], colock::Kind::Intentions)?;
    /// assert_eq!(set.states(), 4);
    /// # Ok::<(), colock::Error>(())
    /// ```
    ///
    /// # Errors
    ///
    /// As of [`Type::account`].
    pub fn set(elements: &[&str], kind: Kind) -> Result<Type, Error> {
        let text = spaced(elements)?;
        // SAFETY: as in `read`.
        Type::made(Source::family("set", 0, elements), |handle, fault| unsafe { sys::colock_type_set(handle, kind as u32, text.as_ptr(), text.len(), fault) })
    }

    /// A semiqueue of at most `capacity` items: `enq:E` for each element E, and `deq`, whose reply is any item.
    ///
    /// ```
    /// let pool = colock::Type::semiqueue(&["mail", "report"], 2, colock::Kind::Undo)?;
    /// assert_eq!(pool.call_name(0)?, "enq:mail");
    /// # Ok::<(), colock::Error>(())
    /// ```
    ///
    /// # Errors
    ///
    /// As of [`Type::account`].
    pub fn semiqueue(elements: &[&str], capacity: u64, kind: Kind) -> Result<Type, Error> {
        let text = spaced(elements)?;
        // SAFETY: as in `read`.
        Type::made(Source::family("semiqueue", capacity, elements), |handle, fault| unsafe {
            sys::colock_type_semiqueue(handle, kind as u32, text.as_ptr(), text.len(), capacity, fault)
        })
    }

    /// A queue of at most `capacity` items: `enq:E` for each element E, and `deq`, whose reply is the item that is longest
    /// there.
    ///
    /// ```
    /// let queue = colock::Type::queue(&["mail", "report"], 2, colock::Kind::Undo)?;
    /// assert_eq!((queue.states(), queue.reply_name(3)?), (7, "report".into()));
    /// # Ok::<(), colock::Error>(())
    /// ```
    ///
    /// # Errors
    ///
    /// As of [`Type::account`].
    pub fn queue(elements: &[&str], capacity: u64, kind: Kind) -> Result<Type, Error> {
        let text = spaced(elements)?;
        // SAFETY: as in `read`.
        Type::made(Source::family("queue", capacity, elements), |handle, fault| unsafe {
            sys::colock_type_queue(handle, kind as u32, text.as_ptr(), text.len(), capacity, fault)
        })
    }

    /// 1 to 6 seats, each free, held or booked: `hold:I`, `release:I`, `book:I` and `cancel:I` for each I from 1 to
    /// `count`, and `free`, whose reply is how many are free.
    ///
    /// ```
    /// let seats = colock::Type::seats(3, colock::Kind::Undo)?;
    /// assert_eq!((seats.call_name(1)?, seats.reply_name(1)?), ("hold:1".into(), "taken".into()));
    /// # Ok::<(), colock::Error>(())
    /// ```
    ///
    /// # Errors
    ///
    /// As of [`Type::account`].
    pub fn seats(count: u64, kind: Kind) -> Result<Type, Error> {
        // SAFETY: as in `read`.
        Type::made(Source::family("seats", count, &[""; 0]), |handle, fault| unsafe { sys::colock_type_seats(handle, kind as u32, count, fault) })
    }

    /// A number of 0 to `max`, at 0, which has no table and is of [`Kind::Escrow`]: `take:A` and `give:A` for each amount A,
    /// whose refusals, `short` and `full`, are replies. Amounts are 1 to `max`, ascending, at most 16.
    ///
    /// ```
    /// let cents = colock::Type::number(u32::MAX, &[250, 1000])?;
    /// assert_eq!((cents.states(), cents.call_name(4)?, cents.step(0, 4)?), (1 << 32, "give:250".into(), Some(250)));
    /// # Ok::<(), colock::Error>(())
    /// ```
    ///
    /// # Errors
    ///
    /// As of [`Type::account`].
    pub fn number(max: u32, amounts: &[u32]) -> Result<Type, Error> {
        // SAFETY: as in `read`.
        Type::made(Source::family("number", max.into(), amounts), |handle, fault| unsafe {
            sys::colock_type_number(handle, Kind::Escrow as u32, max, amounts.as_ptr(), amounts.len(), fault)
        })
    }

    fn made(source: Source, make: impl FnOnce(*mut sys::Handle, *mut sys::Fault) -> u32) -> Result<Type, Error> {
        let mut fault = sys::Fault::default();
        match Handle::made(|handle| make(handle, &mut fault)) {
            Ok(handle) => Type::of(handle, source),
            Err((code, _)) => Err(Error::of_type(code, &fault)),
        }
    }

    /// The type of a handle. What is asked often is read here, once.
    fn of(handle: Handle, source: Source) -> Result<Type, Error> {
        let mut shape = sys::Shape::default();
        // SAFETY: a handle as `Handle::at` says, as in all below.
        done(unsafe { sys::colock_type_shape(handle.at(), &mut shape) })?;
        // SAFETY: `told` gives a room of its own.
        let name = told(|room, count| unsafe { sys::colock_type_name(handle.at(), room.as_mut_ptr(), room.len(), count) })?;
        let made = Type(Arc::new(Made { handle: Mutex::new(handle), source, shape, name, calls: OnceLock::new() }));
        let calls = Calls::of(&made)?;
        made.0.calls.get_or_init(|| calls);
        Ok(made)
    }

    /// The handle, for one call of the library.
    pub(crate) fn handle(&self) -> MutexGuard<'_, Handle> {
        locked(&self.0.handle)
    }

    pub(crate) fn source(&self) -> &Source {
        &self.0.source
    }

    /// Its calls and replies.
    #[inline]
    pub(crate) fn calls(&self) -> &Calls {
        self.0.calls.get().expect("they are read where a type is made")
    }

    /// Whether the two are clones of one type.
    pub(crate) fn is(&self, other: &Type) -> bool {
        Arc::ptr_eq(&self.0, &other.0)
    }

    fn shape(&self) -> &sys::Shape {
        &self.0.shape
    }

    /// How many states there are: they are the numbers below.
    ///
    /// ```
    /// # let counter = colock::Type::counter(5, &[1], colock::Kind::Undo)?;
    /// assert_eq!(counter.states(), 6);
    /// # Ok::<(), colock::Error>(())
    /// ```
    pub fn states(&self) -> u64 {
        self.shape().states
    }

    /// The initial state.
    ///
    /// ```
    /// # let counter = colock::Type::counter(5, &[1], colock::Kind::Undo)?;
    /// assert_eq!(counter.initial(), 0);
    /// # Ok::<(), colock::Error>(())
    /// ```
    pub fn initial(&self) -> u64 {
        self.shape().initial
    }

    /// How many places of operations there are: they are the numbers below.
    ///
    /// ```
    /// # let counter = colock::Type::counter(5, &[1], colock::Kind::Undo)?;
    /// assert_eq!(counter.operations(), 2);
    /// # Ok::<(), colock::Error>(())
    /// ```
    pub fn operations(&self) -> u8 {
        self.shape().ops as u8 // of a table at most 64, and of a number two for each of its 32 lines
    }

    /// The kind of recovery for which it was checked.
    ///
    /// ```
    /// # use colock::{Kind, Type};
    /// # let counter = Type::counter(5, &[1], Kind::Undo)?;
    /// assert_eq!(counter.kind(), Kind::Undo);
    /// # Ok::<(), colock::Error>(())
    /// ```
    pub fn kind(&self) -> Kind {
        match self.shape().kind {
            0 => Kind::Undo,
            1 => Kind::Intentions,
            _ => Kind::Escrow,
        }
    }

    /// Its name.
    ///
    /// ```
    /// # let counter = colock::Type::counter(5, &[1], colock::Kind::Undo)?;
    /// assert_eq!(counter.name(), "counter");
    /// # Ok::<(), colock::Error>(())
    /// ```
    pub fn name(&self) -> String {
        self.0.name.clone()
    }

    /// The call of an operation. At a place that has operations with amounts alone it is that of its line.
    ///
    /// ```
    /// use colock::{Kind, OperationId, Type};
    ///
    /// let purse = Type::read("number purse\nmax 10000\ninitial 0\ntake any\nend\n", Kind::Escrow)?;
    /// assert_eq!((purse.call_name(1)?, purse.call_name(OperationId::with(1, 17))?), ("take:any".into(), "take:17".into()));
    /// # Ok::<(), colock::Error>(())
    /// ```
    ///
    /// # Errors
    ///
    /// [`Error::NoOperation`].
    pub fn call_name(&self, operation: impl Into<OperationId>) -> Result<String, Error> {
        let operation = u64::from(operation.into());
        let handle = self.handle();
        // SAFETY: as in `of`.
        told(|room, count| unsafe { sys::colock_type_call(handle.at(), operation, room.as_mut_ptr(), room.len(), count) })
    }

    /// The reply of an operation.
    ///
    /// ```
    /// # let counter = colock::Type::counter(5, &[1], colock::Kind::Undo)?;
    /// assert_eq!(counter.reply_name(1)?, "ok");
    /// # Ok::<(), colock::Error>(())
    /// ```
    ///
    /// # Errors
    ///
    /// [`Error::NoOperation`].
    pub fn reply_name(&self, operation: impl Into<OperationId>) -> Result<String, Error> {
        let operation = u64::from(operation.into());
        let handle = self.handle();
        // SAFETY: as in `of`.
        told(|room, count| unsafe { sys::colock_type_reply(handle.at(), operation, room.as_mut_ptr(), room.len(), count) })
    }

    /// The state to which an operation leads from a state; `None` where it isn't legal there.
    ///
    /// ```
    /// # let counter = colock::Type::counter(5, &[1], colock::Kind::Undo)?;
    /// assert_eq!(counter.step(0, 0)?, Some(1));
    /// assert_eq!(counter.step(0, 1)?, None);
    /// # Ok::<(), colock::Error>(())
    /// ```
    ///
    /// # Errors
    ///
    /// [`Error::NoState`] or [`Error::NoOperation`].
    pub fn step(&self, state: u64, operation: impl Into<OperationId>) -> Result<Option<u64>, Error> {
        let (operation, mut to) = (u64::from(operation.into()), 0);
        // SAFETY: as in `of`.
        match unsafe { sys::colock_type_step(self.handle().at(), state, operation, &mut to) } {
            sys::code::NOT_LEGAL => Ok(None),
            code => done(code).map(|()| Some(to)),
        }
    }

    /// Whether an operation that is requested conflicts with one that another transaction holds, both by their places. Of
    /// [`Kind::Escrow`] none do, since it has no conflict table.
    ///
    /// ```
    /// # let counter = colock::Type::counter(5, &[1], colock::Kind::Undo)?;
    /// assert!(counter.conflicts(1, 0)?);
    /// assert!(!counter.conflicts(0, 0)?);
    /// # Ok::<(), colock::Error>(())
    /// ```
    ///
    /// # Errors
    ///
    /// [`Error::NoOperation`], also of one with an amount.
    pub fn conflicts(&self, requested: impl Into<OperationId>, held: impl Into<OperationId>) -> Result<bool, Error> {
        let (requested, held) = (u64::from(requested.into()), u64::from(held.into()));
        let mut told = 0;
        // SAFETY: as in `of`.
        done(unsafe { sys::colock_type_conflict(self.handle().at(), requested, held, &mut told) })?;
        Ok(told == 1)
    }

    /// The operation of a call and a reply.
    ///
    /// ```
    /// # use colock::{Error, Kind, Type};
    /// # let counter = Type::counter(5, &[1], Kind::Undo)?;
    /// assert_eq!(counter.operation("dec:1", "ok"), Ok(1.into()));
    /// assert_eq!(counter.operation("dec:1", "short"), Err(Error::NoOperation));
    /// # Ok::<(), Error>(())
    /// ```
    ///
    /// # Errors
    ///
    /// [`Error::NoOperation`].
    pub fn operation(&self, call: &str, reply: &str) -> Result<OperationId, Error> {
        let has_names = |k: &OperationId| self.call_name(*k).as_deref() == Ok(call) && self.reply_name(*k).as_deref() == Ok(reply);
        let mut listed = (0..self.operations()).map(OperationId::listed);
        if let Some(found) = listed.find(|k| has_names(k) && self.is_operation(*k)) {
            return Ok(found);
        }
        // an amount is in the name of its call, and a value is a reply
        let amount = call.rsplit(':').next().and_then(|word| word.parse().ok()).or_else(|| reply.parse().ok()).ok_or(Error::NoOperation)?;
        (0..self.operations()).map(|place| OperationId::with(place, amount)).find(has_names).ok_or(Error::NoOperation)
    }

    /// The operation of this number, in words: so that an event can be told in words.
    ///
    /// ```
    /// # use colock::{Error, Event, Kind, Store, Type};
    /// # let store = Store::new([&Type::counter(5, &[1], Kind::Undo)?], 100)?;
    /// store.begin()?.expect(0, "inc:1", "ok")?;
    /// if let Event::Operation { object, operation, .. } = store.events(1)?[0] {
    ///     assert_eq!(store.type_of(object)?.in_words(operation)?.to_string(), "inc:1 ok");
    /// }
    /// assert_eq!(store.type_of(0)?.in_words(2), Err(Error::NoOperation));
    /// # Ok::<(), Error>(())
    /// ```
    ///
    /// # Errors
    ///
    /// [`Error::NoOperation`].
    pub fn in_words(&self, operation: impl Into<OperationId>) -> Result<Operation, Error> {
        let operation = operation.into();
        let told = self.calls().in_words(operation).filter(|_| self.is_operation(operation));
        told.ok_or(Error::NoOperation)
    }

    /// Whether there is such an operation. At a place that has those with amounts alone the place is none.
    pub(crate) fn is_operation(&self, operation: OperationId) -> bool {
        self.step(0, operation) != Err(Error::NoOperation)
    }

    /// As [`Type::conflicts`], of operations by their calls and replies.
    ///
    /// ```
    /// # let counter = colock::Type::counter(5, &[1], colock::Kind::Undo)?;
    /// assert!(counter.conflicts_named(("dec:1", "ok"), ("inc:1", "ok"))?);
    /// # Ok::<(), colock::Error>(())
    /// ```
    ///
    /// # Errors
    ///
    /// [`Error::NoOperation`].
    pub fn conflicts_named(&self, requested: (&str, &str), held: (&str, &str)) -> Result<bool, Error> {
        self.conflicts(self.operation(requested.0, requested.1)?, self.operation(held.0, held.1)?)
    }
}

impl fmt::Debug for Type {
    fn fmt(&self, f: &mut fmt::Formatter<'_>) -> fmt::Result {
        let shape = self.shape();
        f.debug_struct("Type").field("name", &self.name()).field("kind", &self.kind()).field("states", &shape.states).field("operations", &shape.ops).finish()
    }
}

/// Elements with a space between two. One that has a space in it would be read as two.
fn spaced(elements: &[&str]) -> Result<String, Error> {
    if elements.iter().any(|element| element.is_empty() || element.contains(' ')) {
        return Err(Error::BadParameter);
    }
    Ok(elements.join(" "))
}

/// A name, which is at most 32 bytes of ASCII.
fn told(tell: impl FnOnce(&mut [u8], *mut u64) -> u32) -> Result<String, Error> {
    let (mut room, mut count) = ([0; 32], 0);
    done(tell(&mut room, &mut count))?;
    let name = usize::try_from(count).ok().and_then(|count| room.get(..count)).ok_or(Error::Unknown(count))?;
    Ok(String::from_utf8_lossy(name).into_owned())
}

// Made by bindings/declare of bindings/c/colock.h.

use std::ffi::c_void;

/// The version of this header's calls, and that of the library's: they have to be the same.
pub const VERSION: u32 = 3;

/// An operation, and a call, which has the number of its first operation, cross as one number: its place, which is
/// below 256, and with an amount, of 32 bits, 256 * (amount + 1) more. Those of a table, and the amounts that a number
/// lists, are at their places, from 0 in the order of their lines, without an amount. A number that takes any amount
/// has at one place an operation for each amount, and where its value is asked one for each value.
pub const PLACES: u32 = 256;

/// Its name, without an ending zero: the first bytes of the room, and their number, which is at most
/// `COLOCK_LONGEST_NAME`. [`code::NO_ROOM`].
pub const LONGEST_NAME: u32 = 32;

/// The codes that a call returns.
pub mod code {
    /// it was done
    pub const OK: u32 = 0;
    /// the transaction isn't open
    pub const NOT_OPEN: u32 = 1;
    /// the store has no object of this number
    pub const NO_OBJECT: u32 = 2;
    /// no operation of the object's type has this call
    pub const NO_CALL: u32 = 3;
    /// as many transactions are open as the store may have
    pub const TOO_MANY_OPEN: u32 = 4;
    /// the history has no room for the event and the end of each open transaction
    pub const HISTORY_FULL: u32 = 5;
    /// memory was refused
    pub const NO_MEMORY: u32 = 6;
    /// a rollback of no operation, or of more than the transaction has
    pub const BAD_ROLLBACK: u32 = 7;
    /// the handle holds nothing, or another sort of thing than is meant
    pub const NOT_HELD: u32 = 8;
    /// the handle holds something already
    pub const IN_USE: u32 = 9;
    /// the text has a fault
    pub const BAD_TEXT: u32 = 10;
    /// the checker refuses the type for this kind
    pub const REFUSED: u32 = 11;
    /// no kind of recovery has this number
    pub const BAD_KIND: u32 = 12;
    /// a store of no object
    pub const NO_OBJECTS: u32 = 13;
    /// a store of more objects than it may have
    pub const TOO_MANY_OBJECTS: u32 = 14;
    /// an object isn't as it was made (no caller of these calls sees it)
    pub const NOT_FRESH: u32 = 15;
    /// a limit of the store is out of its range
    pub const BAD_MAX: u32 = 16;
    /// a transaction is open
    pub const STILL_OPEN: u32 = 17;
    /// no command makes this event now
    pub const NOT_MADE: u32 = 18;
    /// these events were forgotten, or some of them
    pub const FORGOTTEN: u32 = 19;
    /// a parameter of a family is out of its range or in a wrong order
    pub const BAD_PARAMETER: u32 = 20;
    /// the family's table would have more than 64 operations or 1,024 states
    pub const TOO_LARGE: u32 = 21;
    /// the type has no state of this number
    pub const NO_STATE: u32 = 22;
    /// the type has no operation of this number
    pub const NO_OPERATION: u32 = 23;
    /// the operation isn't legal in the state
    pub const NOT_LEGAL: u32 = 24;
    /// the room is too small
    pub const NO_ROOM: u32 = 25;
    /// the type is a number, which is for COLOCK_ESCROW alone
    pub const NEEDS_ESCROW: u32 = 26;
    /// an operation of the call may change something, so it isn't a read
    pub const CHANGES: u32 = 27;
}

/// What holds a type or a store. Of zeros before its first call. It may be moved, and never be used as two.
#[repr(C)]
#[derive(Debug)]
pub struct Handle {
    pub live: bool,
    pub at: *mut c_void,
}

/// What a call is answered: `number` is the operation, or the blocker, or 0.
#[repr(C)]
#[derive(Clone, Copy, Debug, Default, PartialEq, Eq)]
pub struct Answer {
    pub kind: u64,
    pub number: u64,
}

/// Why a type wasn't made. [`code::BAD_TEXT`]: `line`, from 1, is the first refused line and `kind` a
/// colock_fault_kind. [`code::REFUSED`]: `line` is 0 and `kind` a colock_refusal, which says what the others are.
#[repr(C)]
#[derive(Clone, Copy, Debug, Default, PartialEq, Eq)]
pub struct Fault {
    pub line: u64,
    pub kind: u64,
    pub first: u64,
    pub second: u64,
    pub third: u64,
}

/// A type: its states are 0 to states - 1, the places of its operations 0 to ops - 1, and `kind` a colock_kind. A
/// table has at most 1,024 states, a number 4,294,967,296.
#[repr(C)]
#[derive(Clone, Copy, Debug, Default, PartialEq, Eq)]
pub struct Shape {
    pub states: u64,
    pub initial: u64,
    pub ops: u64,
    pub kind: u64,
}

/// What came of colock_attempt: `kind` is a colock_outcome_kind, and where it isn't 0 `at` is the place of that call,
/// from 0, at which it aborted. What a kind doesn't have is 0.
#[repr(C)]
#[derive(Clone, Copy, Debug, Default, PartialEq, Eq)]
pub struct Outcome {
    pub kind: u64,
    pub at: u64,
    pub number: u64,
}

/// An event of a store. What its kind doesn't have is 0, and isn't read by colock_follow, nor is `reserved`.
#[repr(C)]
#[derive(Clone, Copy, Debug, Default, PartialEq, Eq)]
pub struct Event {
    pub transaction: u64,
    pub other: u64,
    pub op: u64,
    pub object: u32,
    pub kind: u32,
    pub worker: u32,
    pub reserved: u32,
}

extern "C" {
    /// The version of this header's calls, and that of the library's: they have to be the same.
    pub fn colock_version() -> u32;
    /// The type of a text, with its own tables, which for `COLOCK_ESCROW` aren't looked at. Where the text's first word is
    /// `number` and not `type`, it is a number up to 4,294,967,295 (docs/formats.md), which has no table and is for
    /// `COLOCK_ESCROW` alone. It lists amounts, and with `take any` or `give any` a call may have each one from 1 to the
    /// greatest number, as take:17; with `value` it answers what it is. [`code::BAD_TEXT`], [`code::NEEDS_ESCROW`].
    pub fn colock_type_read(type_: *mut Handle, kind: u32, text: *const u8, text_count: usize, fault: *mut Fault) -> u32;
    /// The type of a text with made tables in place of its own: which operations conflict is found out. It isn't a
    /// number's. [`code::BAD_TEXT`].
    pub fn colock_type_tables(type_: *mut Handle, kind: u32, text: *const u8, text_count: usize, fault: *mut Fault) -> u32;
    /// An account of 0 to `cap`: calls deposit:A and withdraw:A for each amount A, and balance. Amounts are 1 to cap,
    /// ascending. [`code::BAD_PARAMETER`], [`code::TOO_LARGE`].
    pub fn colock_type_account(type_: *mut Handle, kind: u32, cap: u64, amounts: *const u64, amounts_count: usize, fault: *mut Fault) -> u32;
    /// A counter of 0 to `cap`: calls inc:A and dec:A for each amount A. As an account.
    pub fn colock_type_counter(type_: *mut Handle, kind: u32, cap: u64, amounts: *const u64, amounts_count: usize, fault: *mut Fault) -> u32;
    /// A stock of 0 to `cap`: calls give:A and take:A for each amount A, whose refusals, full and short, are replies. As
    /// an account.
    pub fn colock_type_stock(type_: *mut Handle, kind: u32, cap: u64, amounts: *const u64, amounts_count: usize, fault: *mut Fault) -> u32;
    /// A set of the words of a text of `elements_count` bytes, with spaces between them: calls insert:E, delete:E and
    /// member:E for each element E. [`code::BAD_PARAMETER`], [`code::TOO_LARGE`].
    pub fn colock_type_set(type_: *mut Handle, kind: u32, elements: *const u8, elements_count: usize, fault: *mut Fault) -> u32;
    /// A semiqueue of at most `capacity` items: calls enq:E for each element E, and deq, whose reply is any item. As a
    /// set.
    pub fn colock_type_semiqueue(type_: *mut Handle, kind: u32, elements: *const u8, elements_count: usize, capacity: u64, fault: *mut Fault) -> u32;
    /// A queue of at most `capacity` items: calls enq:E for each element E, and deq, whose reply is the item that is
    /// longest there. As a set.
    pub fn colock_type_queue(type_: *mut Handle, kind: u32, elements: *const u8, elements_count: usize, capacity: u64, fault: *mut Fault) -> u32;
    /// `count` seats, 1 to 6, each free, held or booked: calls hold:I, release:I, book:I and cancel:I for each I from 1 to
    /// `count`, and free, whose reply is how many are free. [`code::BAD_PARAMETER`], [`code::TOO_LARGE`].
    pub fn colock_type_seats(type_: *mut Handle, kind: u32, count: u64, fault: *mut Fault) -> u32;
    /// A number of 0 to `max`, which has no table and is for `COLOCK_ESCROW` alone: calls take:A and give:A for each
    /// amount A, whose refusals, short and full, are replies. Amounts are 1 to max, ascending, at most 16.
    /// [`code::BAD_PARAMETER`], [`code::TOO_LARGE`], [`code::NEEDS_ESCROW`].
    pub fn colock_type_number(type_: *mut Handle, kind: u32, max: u32, amounts: *const u32, amounts_count: usize, fault: *mut Fault) -> u32;
    /// What is read of a type. [`code::NOT_HELD`] where the handle holds no type.
    pub fn colock_type_shape(type_: *mut Handle, shape: *mut Shape) -> u32;
    /// Its name, without an ending zero: the first bytes of the room, and their number, which is at most
    /// `COLOCK_LONGEST_NAME`. [`code::NO_ROOM`].
    pub fn colock_type_name(type_: *mut Handle, room: *mut u8, room_count: usize, count: *mut u64) -> u32;
    /// The call of operation k, and its reply, as the name; at a place alone those of its line, as take:any and ok.
    /// [`code::NO_OPERATION`], [`code::NO_ROOM`].
    pub fn colock_type_call(type_: *mut Handle, k: u64, room: *mut u8, room_count: usize, count: *mut u64) -> u32;
    /// The call of operation k, and its reply, as the name; at a place alone those of its line, as take:any and ok.
    /// [`code::NO_OPERATION`], [`code::NO_ROOM`].
    pub fn colock_type_reply(type_: *mut Handle, k: u64, room: *mut u8, room_count: usize, count: *mut u64) -> u32;
    /// The state to which operation k leads from state s. [`code::NO_STATE`], [`code::NO_OPERATION`], [`code::NOT_LEGAL`].
    pub fn colock_type_step(type_: *mut Handle, s: u64, k: u64, to: *mut u64) -> u32;
    /// Whether operation `requested` conflicts with `other`, which another transaction holds: 1 or 0. Of `COLOCK_ESCROW`
    /// it is 0: there is no conflict table, and the numbers say what has to wait. Both are places. [`code::NO_OPERATION`].
    pub fn colock_type_conflict(type_: *mut Handle, requested: u64, other: u64, told: *mut u32) -> u32;
    /// Begins a store behind a handle that holds nothing: no object yet. [`code::IN_USE`], [`code::NO_MEMORY`].
    pub fn colock_store_new(store: *mut Handle) -> u32;
    /// Adds an object of a type, in its initial state. Objects are numbered from 0; several may have one type. The type
    /// may be closed before the store. [`code::NOT_HELD`], [`code::NO_MEMORY`].
    pub fn colock_store_add(store: *mut Handle, type_: *mut Handle) -> u32;
    /// Makes the store of its objects, of which there may be 256. At most 1,024 transactions are open at once, and its
    /// history has at most `max_events` events, 2 to 4,294,967,295, those that were forgotten among them. It returns the
    /// first that holds of [`code::NOT_HELD`], [`code::NO_OBJECTS`], [`code::TOO_MANY_OBJECTS`], [`code::BAD_MAX`] and
    /// [`code::NO_MEMORY`]: the objects stay.
    pub fn colock_store_open(store: *mut Handle, max_events: u64) -> u32;
    /// The same with limits of the store's own: 2 to 4,294,967,295 events, 1 to 65,536 open transactions, and 1 to 65,536
    /// objects. [`code::BAD_MAX`] where one of them is out of its range.
    pub fn colock_store_open_with(store: *mut Handle, events: u64, open: u32, objects: u32) -> u32;
    /// Begins a transaction, and gives its number: they count from 0. [`code::TOO_MANY_OPEN`], [`code::HISTORY_FULL`],
    /// [`code::NO_MEMORY`].
    pub fn colock_begin(store: *mut Handle, worker: u8, transaction: *mut u64) -> u32;
    /// Calls, for a transaction, the call of this name at an object. [`code::OK`] whether the answer is `COLOCK_REPLY`,
    /// `COLOCK_BUSY` or `COLOCK_NONE`: each is an event. [`code::NOT_OPEN`], [`code::NO_OBJECT`], [`code::NO_CALL`],
    /// [`code::HISTORY_FULL`], [`code::NO_MEMORY`].
    pub fn colock_call(store: *mut Handle, worker: u8, transaction: u64, object: u32, name: *const u8, name_count: usize, answer: *mut Answer) -> u32;
    /// The same by the number of the call, for which colock_call_number is asked once; of take:17 it is
    /// `COLOCK_OPERATION`(p, 17), p being the place of take:any.
    pub fn colock_call_op(store: *mut Handle, worker: u8, transaction: u64, object: u32, call: u64, answer: *mut Answer) -> u32;
    /// The number of the call of this name at an object: that of the first operation that has it, of `value` that of the
    /// value 0. [`code::NO_OBJECT`], [`code::NO_CALL`].
    pub fn colock_call_number(store: *mut Handle, object: u32, name: *const u8, name_count: usize, call: *mut u64) -> u32;
    /// What colock_call or colock_call_op would be answered now. It is no event, and needs no memory. The codes are
    /// theirs, [`code::HISTORY_FULL`] too.
    pub fn colock_would(store: *mut Handle, transaction: u64, object: u32, name: *const u8, name_count: usize, answer: *mut Answer) -> u32;
    /// What colock_call or colock_call_op would be answered now. It is no event, and needs no memory. The codes are
    /// theirs, [`code::HISTORY_FULL`] too.
    pub fn colock_would_op(store: *mut Handle, transaction: u64, object: u32, call: u64, answer: *mut Answer) -> u32;
    /// A whole transaction of a worker: it begins, calls at each of these objects, in their order, the call whose name is
    /// the word at its place in `names` (words with spaces between them), and commits. At the first call that isn't
    /// replied to it aborts in the place of what follows. [`code::OK`] whether it committed or aborted: `outcome` says
    /// which. Where it committed the operations of its calls are in the first places of the room. [`code::BAD_PARAMETER`]
    /// where there are more names or fewer than objects, [`code::NO_ROOM`] where the room has fewer places than there are
    /// objects. Room for all its events is made first: at [`code::TOO_MANY_OPEN`], [`code::HISTORY_FULL`] and
    /// [`code::NO_MEMORY`] it wasn't begun.
    pub fn colock_attempt(
        store: *mut Handle,
        worker: u8,
        objects: *const u32,
        objects_count: usize,
        names: *const u8,
        names_count: usize,
        operations: *mut u64,
        operations_count: usize,
        outcome: *mut Outcome,
    ) -> u32;
    /// The same by the numbers of the calls, each at the place of its object: with no memory but what its events and
    /// operations take. Where it aborts, the first places of the room may have operations of calls before the one that
    /// ended it; what isn't a call's number is refused at its place as [`code::NO_CALL`]. [`code::BAD_PARAMETER`] where
    /// there are more calls or fewer than objects.
    pub fn colock_attempt_op(
        store: *mut Handle,
        worker: u8,
        objects: *const u32,
        objects_count: usize,
        calls: *const u64,
        calls_count: usize,
        operations: *mut u64,
        operations_count: usize,
        outcome: *mut Outcome,
    ) -> u32;
    /// Ends a transaction, which needs no memory and no more room in the history. [`code::NOT_OPEN`].
    pub fn colock_commit(store: *mut Handle, worker: u8, transaction: u64) -> u32;
    /// Ends a transaction, which needs no memory and no more room in the history. [`code::NOT_OPEN`].
    pub fn colock_abort(store: *mut Handle, worker: u8, transaction: u64) -> u32;
    /// Takes back the last operations of a transaction, which stays open. [`code::NOT_OPEN`], [`code::BAD_ROLLBACK`],
    /// [`code::HISTORY_FULL`], [`code::NO_MEMORY`].
    pub fn colock_rollback(store: *mut Handle, worker: u8, transaction: u64, operations: u64) -> u32;
    /// The state that is kept of an object: of `COLOCK_UNDO` with what open transactions did, and of the other kinds
    /// without it. [`code::NO_OBJECT`].
    pub fn colock_kept(store: *mut Handle, object: u32, state: *mut u64) -> u32;
    /// How many transactions are open.
    pub fn colock_open_count(store: *mut Handle, count: *mut u64) -> u32;
    /// Aborts each open transaction, in ascending order, as the worker that began it.
    pub fn colock_abort_all(store: *mut Handle) -> u32;
    /// What the call of this name at an object is answered to a transaction that only reads committed states:
    /// `COLOCK_REPLY` and its first operation that is legal there, or `COLOCK_NONE`. [`code::CHANGES`] where an operation
    /// of the call may change something; [`code::NO_OBJECT`], [`code::NO_CALL`].
    pub fn colock_peek(store: *mut Handle, object: u32, name: *const u8, name_count: usize, answer: *mut Answer, commits: *mut u64) -> u32;
    /// The committed state of an object. [`code::NO_OBJECT`].
    pub fn colock_committed(store: *mut Handle, object: u32, state: *mut u64, commits: *mut u64) -> u32;
    /// The committed states of all objects, in their order: the first places of the room get them. [`code::NO_ROOM`] where
    /// it has fewer places than there are objects.
    pub fn colock_snapshot(store: *mut Handle, states: *mut u64, states_count: usize, commits: *mut u64) -> u32;
    /// How many transactions have committed since the store was made or began anew.
    pub fn colock_commit_count(store: *mut Handle, commits: *mut u64) -> u32;
    /// Copies the events from `from` on into the room, as many as there are and it has room for; gives how many.
    /// [`code::FORGOTTEN`] where `from` is below the number of those that were forgotten.
    pub fn colock_events(store: *mut Handle, from: u64, room: *mut Event, room_count: usize, count: *mut u64) -> u32;
    /// How many events there were, and how many of the first of them were forgotten.
    pub fn colock_event_count(store: *mut Handle, count: *mut u64, forgotten: *mut u64) -> u32;
    /// Forgets the first `events` of those that are in memory, or all.
    pub fn colock_forget(store: *mut Handle, events: u64) -> u32;
    /// Makes events again, one after another, each as its worker: a store becomes what another was. `made` gets how many
    /// were made, at [`code::NOT_MADE`] and [`code::NO_MEMORY`] too: those before that place are made.
    pub fn colock_follow(store: *mut Handle, events: *const Event, events_count: usize, made: *mut u64) -> u32;
    /// Begins anew, with the same limits, so that a store has no end. Where no transaction is open: at the states that are
    /// kept, with no event, and transactions count from 0 again. Where some are, and each yes of the checker is strong
    /// (that of `COLOCK_INTENTIONS` or `COLOCK_ESCROW` always is; of `COLOCK_UNDO` `colock check` says it): all of them go
    /// on, and no later answer can tell it. They get the numbers 0, 1, 2, .. in the order of their old ones, so that a new
    /// number is how many of the open ones had a lower one; who begins later counts on from there. An answer `COLOCK_BUSY`
    /// says the new numbers. The first events are the begins of those that went on and what they did, but for what they
    /// took back, each by the worker that began its transaction. colock_follow needn't make these again: a store that
    /// follows begins anew where the other one does. [`code::STILL_OPEN`] where one is open and some yes is one-way;
    /// [`code::NO_MEMORY`].
    pub fn colock_renew(store: *mut Handle) -> u32;
    /// The same with more objects, which come after those that there are, each in its initial state: those of `added`,
    /// which was begun and isn't opened. They are taken, whatever it returns but [`code::NOT_HELD`]: `added` is begun
    /// without an object then, and may be used again. It returns the first that holds of [`code::NOT_HELD`],
    /// [`code::STILL_OPEN`], [`code::TOO_MANY_OBJECTS`] and [`code::NO_MEMORY`]: the store stays.
    pub fn colock_store_extend(store: *mut Handle, added: *mut Handle) -> u32;
    /// Ends what the handle holds; a store aborts what is open. The handle may be used again. [`code::NOT_HELD`] where it
    /// holds nothing. In C it is called by one of the two below.
    pub fn colock_close(handle: *mut Handle) -> u32;
}

//! A transactional store of shared, typed objects in which only operations that don't commute keep each other waiting:
//! two transactions may count one counter up side by side. It is in memory, or in a file.
//!
//! A [`Type`] is read of a text or made of a family, and checked for a [`Kind`] of recovery. A [`Store`] has
//! objects of such types. A [`Transaction`] calls operations of the objects, and commits, or aborts where it
//! is dropped. A call has a [`Reply`]: the operation that was executed, in words, or the blocker, which is a transaction
//! that did what is in its way. What was executed may be a refusal, as `withdraw:1 short`: `expect` makes an error of each
//! reply but the one that is wanted.
//!
//! ```
//! use colock::{Kind, Reply, Store, Type};
//!
//! let counter = Type::counter(5, &[1], Kind::Undo)?;
//! let store = Store::new([&counter], 1_000_000)?;
//! let mut first = store.begin()?;
//! let mut second = store.begin()?;
//! assert_eq!(first.call(0, "inc:1")?.to_string(), "inc:1 ok");
//! assert_eq!(second.call(0, "inc:1")?.to_string(), "inc:1 ok"); // beside the first
//! assert_eq!(second.call(0, "dec:1")?.to_string(), "busy 0.0");
//! drop(first); // aborts it, which takes its up out of the middle
//! assert_eq!(second.call(0, "dec:1")?.to_string(), "dec:1 ok");
//! second.commit()?;
//! assert_eq!(store.kept(0)?, 0);
//! # Ok::<(), colock::Error>(())
//! ```
//!
//! # Numbers in escrow
//!
//! An object of [`Kind::Escrow`] is a number. One transaction may give to it and another one take from it, as long as all
//! that is open stays legal, whoever commits, aborts or rolls back, and in whatever order. What is kept is what is
//! committed.
//!
//! ```
//! use colock::{Kind, Reply, Store, Type};
//!
//! // from 0 to 5 pieces, 2 at first
//! let operations = [("take", "ok"), ("give", "ok")];
//! let stock = Type::from_steps("stock", 2_u32, &operations, Kind::Escrow, |pieces, (call, _)| match call {
//!     "take" => pieces.checked_sub(1),
//!     _ => (*pieces < 5).then_some(pieces + 1),
//! })?;
//! let store = Store::new([&stock], 1_000_000)?;
//! let (mut first, mut second, mut third) = (store.begin()?, store.begin()?, store.begin()?);
//! assert!(first.call(0, "take")?.is("ok") && first.call(0, "take")?.is("ok"));
//! assert!(second.call(0, "give")?.is("ok")); // beside the first
//! assert_eq!(third.call(0, "take")?.to_string(), "busy 0.0"); // the second may yet be aborted
//! second.commit()?;
//! assert!(third.call(0, "take")?.is("ok") && store.kept(0)? == 3);
//! # Ok::<(), colock::Error>(())
//! ```
//!
//! A number that has no table may take and give any amount, and answer what it is. Its [`Operation`]s have an
//! amount. Its value is read where no other open transaction may move it, and then nobody may until the reader has ended.
//!
//! ```
//! use colock::{Kind, OperationId, Reply, Store, Type};
//!
//! let purse = Type::read("number purse\nmax 10000\ninitial 500\ntake any\ngive any\nvalue\nend\n", Kind::Escrow)?;
//! let store = Store::new([&purse], 1_000_000)?;
//! let (mut first, mut second) = (store.begin()?, store.begin()?);
//! assert_eq!(first.call(0, "take:17")?.to_string(), "take:17 ok");
//! assert_eq!(second.call(0, "give:3")?.to_string(), "give:3 ok"); // beside the first
//! assert_eq!(first.call(0, "value")?.to_string(), "busy 0.1"); // the give may yet be aborted
//! second.commit()?;
//! assert_eq!(first.call(0, "value")?.executed()?.amount, Some(486));
//! assert_eq!(store.events(2)?[0].to_string(), "op 0 0 0 0 17");
//! # Ok::<(), colock::Error>(())
//! ```
//!
//! # Names, and more objects
//!
//! An object may have a name, by which calls then have it ([`NewObject`], [`ObjectRef`]). While no transaction is open a store
//! gets more objects: [`Store::extend`] begins anew with them, at the states that are kept. In a file [`SharedStore::extend`]
//! waits until none is open, and the file keeps the names.
//!
//! ```
//! use colock::{Kind, Store, Type};
//!
//! let seat = Type::seats(1, Kind::Undo)?;
//! let mut hall = Store::new([("A1", &seat), ("A2", &seat)], 1_000_000)?;
//! let mut transaction = hall.begin()?;
//! transaction.expect("A2", "hold:1", "ok")?;
//! transaction.commit()?;
//! hall.extend([("B1", &seat), ("B2", &seat)])?;
//! assert_eq!((hall.find("B1")?, hall.kept("A2")?, hall.kept("B2")?), (2, 1, 0));
//! # Ok::<(), colock::Error>(())
//! ```
//!
//! # Whole transactions in one call, and reads that wait for nobody
//!
//! [`SharedStore::attempt`] begins, makes its calls and commits, or says which call ended it; [`SharedStore::attempt_op`] does so
//! with one call by its number. [`SharedStore::peek`] reads what is committed, all of it at one [`Moment`], whoever holds the
//! objects.
//!
//! ```
//! use colock::{Attempt, Ending, Kind, SharedStore, Type};
//!
//! let (counter, seat) = (Type::counter(100, &[1], Kind::Undo)?, Type::seats(1, Kind::Undo)?);
//! let store = SharedStore::new([("sold", &counter), ("A12", &seat), ("A13", &seat)], 1_000_000)?;
//! let mut holder = store.begin()?;
//! holder.expect("A13", "hold:1", "ok")?;
//! let done = store.attempt([("A12", "hold:1"), ("A12", "book:1"), ("sold", "inc:1")])?.executed()?;
//! assert_eq!(done[0].reply, "ok");
//! let mine = store.moment()?;
//! let seen = store.peek([("A12", "free"), ("A13", "free")])?; // the hold of A13 isn't committed
//! assert!(seen.at >= mine && seen.value[0].reply == "0" && seen.value[1].reply == "1");
//! match store.attempt([("sold", "inc:1"), ("A13", "hold:1")])? {
//!     Attempt::Done(replies) => println!("{}", replies[1]),
//!     Attempt::Ended { at: 1, how: Ending::Busy { blocker } } => println!("{blocker} is in the way"),
//!     Attempt::Ended { at, how } => println!("call {at}: {how:?}"),
//! }
//! assert_eq!(store.snapshot()?.value, [1, 2, 0]);
//! # Ok::<(), colock::Error>(())
//! ```
//!
//! # Threads
//!
//! A [`Store`] may go to another thread, and isn't shared between threads but behind a lock, as
//! `Mutex<Store>`. A transaction that outlives the lock's guard is left open by [`Transaction::leave`] and
//! taken up again by [`Store::resume`]:
//!
//! ```
//! use colock::{Kind, Store, Type};
//! use std::sync::Mutex;
//!
//! let counter = Type::counter(100, &[1], Kind::Undo)?;
//! let store = Mutex::new(Store::new([&counter], 1_000_000)?);
//! std::thread::scope(|scope| {
//!     for worker in 0..16 {
//!         let store = &store;
//!         scope.spawn(move || -> Result<(), colock::Error> {
//!             let left = store.lock().unwrap().begin_as(worker)?.leave();
//!             let guard = store.lock().unwrap();
//!             let mut transaction = guard.resume(left)?;
//!             let _reply = transaction.call(0, "inc:1")?;
//!             transaction.commit()
//!         });
//!     }
//! });
//! assert_eq!(store.lock().unwrap().kept(0)?, 16);
//! # Ok::<(), colock::Error>(())
//! ```
//!
//! # Waiting
//!
//! A [`SharedStore`] is shared between threads as it is, and its calls may wait: [`SharedTransaction::call_within`]
//! sleeps until who is in the way has ended or taken operations back. [`SharedTransaction::call`] never waits.
//!
//! - **The gate.** A call goes after an older transaction that waits at the same object, where it would block that
//!   one's call. So a stream of young ones keeps nobody waiting for ever. Who is waited for passes.
//! - **Deadlock.** Where transactions wait in a circle, the youngest of them is aborted at once, and its call fails
//!   with [`Error::Deadlock`].
//! - **Again.** [`SharedStore::retry`] runs a function as a transaction, and again where it was in the way of others;
//!   it keeps the age of its first try, so that it isn't the youngest for ever. An error that comes from another one counts
//!   as that one, by [`cause_in`].
//! - **At once.** [`SharedStore::transact`] does a whole transaction in one turn of the lock, which is the fastest where
//!   nobody thinks between two calls.
//!
//! ```
//! use colock::{Error, Kind, Retry, SharedStore, Type};
//! use std::time::Duration;
//!
//! // each moves a piece from one stock to the other, half of them the other way
//! let stock = Type::counter(16, &[1, 8], Kind::Undo)?;
//! let store = SharedStore::new([&stock, &stock], 1_000_000)?;
//! for object in 0..2 {
//!     store.transact(|turn| turn.expect(object, "inc:8", "ok"))?;
//! }
//! std::thread::scope(|scope| {
//!     for worker in 0..8 {
//!         let store = &store;
//!         scope.spawn(move || {
//!             let moved = store.retry(&Retry { tries: 100, ..Retry::default() }, |transaction| {
//!                 let wait = Duration::from_secs(10);
//!                 transaction.expect_within(worker % 2, "dec:1", "ok", wait)?;
//!                 transaction.expect_within(1 - worker % 2, "inc:1", "ok", wait)
//!             });
//!             assert!(moved.is_ok());
//!         });
//!     }
//! });
//! assert_eq!((store.kept(0)?, store.kept(1)?), (8, 8));
//! # Ok::<(), Error>(())
//! ```
//!
//! # Durable stores
//!
//! [`OpenOptions`] opens a store in a file, with the same calls. The program `colock serve` has the file, as a child
//! process; a commit that was answered survives a crash. A child that is lost isn't started again: each call fails with
//! [`Error::ConnectionLost`] then, and a commit that was in flight with [`Error::OutcomeUnknown`]. Open the file again,
//! and [`SharedStore::committed`] says what became of it; or give the work a [key](#once), and do it again.
//!
//! ```no_run
//! use colock::{Error, Kind, OpenOptions, Type};
//!
//! let seats = Type::set(&["a1", "a2", "b1"], Kind::Undo)?;
//! let path = std::env::temp_dir().join("seats.db");
//! let options = OpenOptions::new().objects([&seats]).create(true);
//! let store = options.clone().open(&path)?;
//! let mut transaction = store.begin()?;
//! transaction.expect(0, "insert:a1", "ok")?;
//! if let Err(Error::OutcomeUnknown(id)) = transaction.commit() {
//!     drop(store);
//!     println!("{:?}", options.open(&path)?.committed(id)?);
//! }
//! # Ok::<(), Error>(())
//! ```
//!
//! # Once
//!
//! Who was to do something and lost the answer doesn't know whether to do it again: the request may come twice, or the child be lost
//! with a commit in flight. So a transaction may have a key, which the caller chooses for the work, as the number of an order. Under a
//! key it is done once, in whatever life of the child it is asked again: by [`SharedStore::retry_under`],
//! [`SharedTransaction::commit_under`] or, in one call, [`SharedStore::attempt_under`], which tells the replies of the first time.
//! [`SharedStore::outcome`] says what became of a key.
//!
//! At least the last 1,000,000 outcomes stay, or as many as [`OpenOptions::outcomes`] or [`Limits`] say; a [`Store`] has no keys. Who asks
//! again while fewer came since finds the key, as [`SharedStore::retry_under`] does, within seconds. Later it may be unknown, and the work
//! would be done again: who asks after days looks in records of their own.
//!
//! ```
//! use colock::{Attempt, Error, Keyed, KeyOutcome, Kind, Retry, SharedStore, Type};
//!
//! let (counter, seat) = (Type::counter(100, &[1], Kind::Undo)?, Type::seats(1, Kind::Undo)?);
//! let store = SharedStore::new([("sold", &counter), ("A12", &seat)], 1_000_000)?;
//! let book = || {
//!     store.retry_under("order:4711", &Retry::default(), |transaction| {
//!         transaction.expect("A12", "hold:1", "ok")?;
//!         transaction.expect("A12", "book:1", "ok")?;
//!         transaction.expect("sold", "inc:1", "ok").map(|_| "A12")
//!     })
//! };
//! assert_eq!(book()?, Keyed::Done("A12"));
//! assert_eq!(book()?, Keyed::Known { replies: vec![] }); // the seat isn't asked for again
//!
//! let pay = || store.attempt_under("payment:17", [("sold", "inc:1"), ("sold", "inc:1")]);
//! let first = pay()?;
//! assert_eq!((pay()?, store.kept("sold")?), (first, 3));
//! assert_eq!(store.outcome("payment:17")?, KeyOutcome::Committed { replies: vec!["ok".into(), "ok".into()] });
//! assert_eq!(store.outcome("payment:18")?, KeyOutcome::Unknown);
//! # Ok::<(), Error>(())
//! ```
//!
//! # Held until it is decided
//!
//! Where something elsewhere has to be asked before a commit, as a bank, a transaction is [prepared](SharedTransaction::prepare) under a
//! key. It holds its operations from then on, and neither a drop nor, in a file, a crash or a restart ends it: only
//! [`SharedStore::decide`] does. [`SharedStore::prepared`] says what isn't decided, in whatever life.
//!
//! ```
//! use colock::{Decision, Error, KeyOutcome, Kind, SharedStore, Type};
//!
//! let store = SharedStore::new([("sold", &Type::counter(9, &[1, 2], Kind::Escrow)?)], 1_000)?;
//! let mut transaction = store.begin()?;
//! transaction.expect("sold", "inc:2", "ok")?;
//! transaction.prepare("order:4711", 1_800_000_000)?;
//! drop(transaction); // it stays
//! // whoever comes back finds it
//! for prepared in store.prepared()? {
//!     let is_paid = prepared.key == "order:4711"; // as the bank says
//!     store.decide(&prepared.key, if is_paid { Decision::Commit } else { Decision::Abort })?;
//! }
//! assert_eq!((store.outcome("order:4711")?, store.kept("sold")?), (KeyOutcome::Committed { replies: vec![] }, 2));
//! # Ok::<(), Error>(())
//! ```
//!
//! # What is proved
//!
//! What each call of the library does is proved, and so is what the program `colock serve` answers. This crate is
//! tested only: its layer of `unsafe` calls, and all of the waiting and of the child.

mod asked;
mod attempt;
mod error;
mod event;
mod failure;
mod few;
mod fork;
mod key;
mod limits;
mod locks;
mod memory;
mod moment;
mod object;
mod objects;
mod operation_id;
mod prepared;
mod reply;
mod shared;
mod stats;
mod transaction_id;
mod types;
mod wait;
mod wire;
mod word;

pub use attempt::{Attempt, Ending};
pub use error::{CheckRefusal, Error, FaultKind, NotFollowed};
pub use event::Event;
pub use failure::Failure;
pub use key::KeyOutcome;
pub use limits::Limits;
pub use memory::store::Store;
pub use memory::transaction::{LeftOpen, Transaction};
pub use moment::{Moment, Seen};
pub use object::{NewObject, Object, ObjectRef};
pub use operation_id::OperationId;
pub use prepared::{Decision, Prepared};
pub use reply::{Operation, Reply};
pub use shared::transaction::{OwnedTransaction, SharedTransaction};
pub use shared::turn::Turn;
pub use shared::SharedStore;
pub use stats::Stats;
pub use transaction_id::TransactionId;
pub use types::{Kind, Type};
pub use wait::retry::{cause_in, Cause, Keyed, Retry};
pub use wire::opening::OpenOptions;
pub use word::Word;

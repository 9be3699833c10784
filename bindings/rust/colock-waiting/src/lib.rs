//! Who waits for whom at a store of colock, and who may go first: events in, decisions out.
//!
//! There are no threads here, no time and no store. A driver tells what happened, and drains the decisions under the
//! lock of its store.
//!
//! A call that waits is behind one other transaction at most. The store says so where the other one has done something
//! that keeps it out. The gate of the object says so where the call would keep out an older one that waits there. So
//! that nobody looks through all that wait, they stand in lanes, by the classes of their calls: who goes behind a lane
//! goes behind whoever is its oldest. Where that one leaves, the others go behind the next one, and nothing is done
//! about them.
//!
//! A circle is broken as soon as it is there: one in it whom the gate keeps passes, else the youngest is the victim.
//!
//! ```
//! use colock_waiting::{Age, Asker, Class, Decision, Number, ObjectIndex, Touched, Waiting};
//!
//! // at each object a call keeps each other one out
//! let mut waiting = Waiting::new(|_object, _call, _other| true);
//! let asker = |number, age| Asker { number: Number(number), age: Age(age), object: ObjectIndex(0), call: Class(0) };
//! waiting.enter(asker(10, 1));
//! assert_eq!(waiting.next_decision(), Some(Decision::Ask(asker(10, 1))));
//! waiting.busy(Number(10), Number(90));
//! // who goes after it by the gate isn't asked for
//! waiting.enter(asker(20, 2));
//! assert_eq!(waiting.next_decision(), None);
//! waiting.ended(Number(90), Touched::from_iter([ObjectIndex(0)]));
//! assert_eq!(waiting.next_decision(), Some(Decision::Ask(asker(10, 1))));
//! waiting.may_go(Number(10));
//! assert_eq!(waiting.next_decision(), Some(Decision::Wake(Number(10))));
//! assert_eq!(waiting.next_decision(), None);
//! ```

#![forbid(unsafe_code)]

mod asker;
mod decision;
mod graph;
mod lane;
mod onlookers;
#[cfg(test)]
mod rules;
mod touched;
mod waiter;
mod waiting;
#[cfg(test)]
mod work;

pub use asker::{Age, Asker, Class, Conflicts, Number, ObjectIndex};
pub use decision::{Decision, Verdict};
pub use graph::Edge;
pub use onlookers::OnlookerId;
pub use touched::{place, Touched, PLACES};
pub use waiting::Waiting;

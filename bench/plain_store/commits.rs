//! Commits whose instructions are counted: `counted` is what callgrind collects, and it dumps what it has behind each.

use crate::escrow::{Bounded, Escrow};
use crate::intentions::Intentions;
use crate::recovery::Recovery;
use crate::store::{Event, EventKind, Object, Store};
use crate::transactions::Transactions;
use crate::types::Type;
use crate::undo::Undo;
use std::sync::Arc;

/// How many transactions are open at the object, the one that commits among them.
const OPEN: [u32; 3] = [1, 16, 1024];
/// How many commit in a row.
const TURNS: u32 = 1000;
const MOST_EVENTS: usize = 1_000_000;

/// Begins a transaction that makes one call at the object.
fn begin<R: Recovery>(store: &mut Store<R>, call: u8) -> u32 {
    let Ok(t) = store.begin(0) else {
        panic!("no begin")
    };
    assert!(store.call_op(0, t, 0, call).is_ok(), "no call");
    t
}

#[inline(never)]
fn counted(work: &mut dyn FnMut()) {
    work();
}

/// A row: a line of how many commits there are and its name, and then these.
fn row(kind: &str, open: u32, commit: &mut dyn FnMut()) {
    println!("{TURNS} commit {kind} {open}");
    counted(&mut || (0..TURNS).for_each(|_| commit()));
}

fn of_kind<R: Recovery>(kind: &str, text: &str, name: &str) {
    let table = Arc::new(Type::read(text, kind));
    let found = table.calls.iter().find(|call| call.name == name);
    let call = found.expect("a call").first;
    for open in OPEN {
        let mut store = Store::new(vec![Object::<R>::new(Arc::clone(&table))], MOST_EVENTS);
        (1..open).for_each(|_| {
            begin(&mut store, call);
        });
        row(kind, open, &mut || {
            let t = begin(&mut store, call);
            assert!(store.commit(0, t).is_ok(), "no commit");
        });
    }
}

/// A store of one number in escrow.
struct Numbers {
    number: Escrow,
    /// Who did an operation, in order.
    log: Vec<u32>,
    transactions: Transactions,
    history: Vec<Event>,
}

impl Numbers {
    fn new(top: u64, initial: u64) -> Numbers {
        Numbers {
            number: Escrow::new(top, initial),
            log: Vec::new(),
            transactions: Transactions::new(),
            history: Vec::new(),
        }
    }

    fn note(&mut self, kind: EventKind) {
        assert!(self.history.len() + self.transactions.slots.len() < MOST_EVENTS);
        self.history.push(Event { worker: 0, kind });
    }

    /// Begins a transaction that makes one call.
    fn begin(&mut self, operations: &[Bounded]) -> u32 {
        let t = self.transactions.begin(0);
        self.note(EventKind::Begin { t });
        let Ok(slot) = self.transactions.slot(t) else {
            panic!("not open")
        };
        let at = self.number.place(t);
        let number = self.number.number(at, t);
        let is_legal = |op: &Bounded| (op.low..=op.high).contains(&number);
        let place = operations.iter().position(is_legal).expect("a reply");
        assert!(self.number.blocker(at, t, operations[place]).is_none());
        let k = place as u8;
        self.number.apply(at, t, operations[place]);
        self.log.push(t);
        self.transactions.slots[slot].places.push(0);
        self.note(EventKind::Op { t, x: 0, k });
        t
    }

    fn commit(&mut self, t: u32) {
        let Ok(slot) = self.transactions.slot(t) else {
            panic!("not open")
        };
        for _ in self.transactions.end(slot).places.as_slice() {
            self.number.commit(t);
            self.log.retain(|&by| by != t);
        }
        self.note(EventKind::Commit { t });
    }
}

fn of_escrow() {
    let (top, amount) = (u64::from(u32::MAX), 1);
    // there is room for so much, or there isn't
    let gives = |low, high, gives| Bounded {
        low,
        high,
        gives,
        takes: 0,
    };
    let operations = [
        gives(0, top - amount, amount),
        gives(top - amount + 1, top, 0),
    ];
    for open in OPEN {
        let mut store = Numbers::new(top, top / 2);
        (1..open).for_each(|_| {
            store.begin(&operations);
        });
        row("escrow", open, &mut || {
            let t = store.begin(&operations);
            store.commit(t);
        });
    }
}

pub fn write_rows(text: &str, name: &str) {
    of_kind::<Undo>("undo", text, name);
    of_kind::<Intentions>("intentions", text, name);
    of_escrow();
}

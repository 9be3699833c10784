//! A store of a few objects whose calls take nothing but locks, and numbers that a seed draws.

use colock_waiting::{Asker, Class, Number, ObjectIndex};

/// Numbers that a seed draws.
pub struct Draw(u64);

impl Draw {
    pub fn new(seed: u64) -> Draw {
        Draw(seed.wrapping_mul(0x9e37_79b9_7f4a_7c15).wrapping_add(1))
    }

    /// A number below another one.
    pub fn below(&mut self, end: usize) -> usize {
        self.0 = self.0.wrapping_mul(6_364_136_223_846_793_005).wrapping_add(1_442_695_040_888_963_407);
        (self.0 >> 33) as usize % end.max(1)
    }

    /// Whether it happens that has this chance of a hundred.
    pub fn is_hit(&mut self, percent: usize) -> bool {
        self.below(100) < percent
    }

    pub fn one_of<T: Copy>(&mut self, some: &[T]) -> Option<T> {
        (!some.is_empty()).then(|| some[self.below(some.len())])
    }
}

/// Which classes keep out which.
#[derive(Clone, Debug)]
pub struct Table(Vec<Vec<bool>>);

impl Table {
    pub fn drawn(draw: &mut Draw, classes: usize) -> Table {
        let percent = 20 + draw.below(80);
        Table((0..classes).map(|_| (0..classes).map(|_| draw.is_hit(percent)).collect()).collect())
    }

    pub fn blocks(&self, call: Class, other: Class) -> bool {
        self.0[usize::from(call.0)][usize::from(other.0)]
    }
}

/// An operation that an open transaction has done.
#[derive(Clone, Copy, Debug)]
pub struct Held {
    pub number: Number,
    pub object: ObjectIndex,
    pub class: Class,
}

/// The store.
#[derive(Debug)]
pub struct Model {
    table: Table,
    held: Vec<Held>,
}

impl Model {
    pub fn new(table: Table) -> Model {
        Model { table, held: Vec::new() }
    }

    /// Who is in the way of a call, if anyone.
    pub fn blocker(&self, asker: Asker) -> Option<Number> {
        self.held.iter().find(|held| self.is_in_the_way(held, asker)).map(|held| held.number)
    }

    /// Whether a transaction is in the way of a call.
    pub fn keeps_out(&self, number: Number, asker: Asker) -> bool {
        self.held.iter().any(|held| held.number == number && self.is_in_the_way(held, asker))
    }

    fn is_in_the_way(&self, held: &Held, asker: Asker) -> bool {
        held.object == asker.object && held.number != asker.number && self.table.blocks(held.class, asker.call)
    }

    pub fn does(&mut self, asker: Asker) {
        assert_eq!(self.blocker(asker), None, "{asker:?} isn't free");
        self.held.push(Held { number: asker.number, object: asker.object, class: asker.call });
    }

    /// Takes the last operations of a transaction back.
    pub fn take_back(&mut self, number: Number, mut operations: usize) {
        while operations > 0 {
            let Some(last) = self.held.iter().rposition(|held| held.number == number) else { return };
            self.held.remove(last);
            operations -= 1;
        }
    }

    pub fn end(&mut self, number: Number) {
        self.held.retain(|held| held.number != number);
    }
}

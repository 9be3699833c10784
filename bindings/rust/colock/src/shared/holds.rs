//! At which objects a transaction in memory holds operations. It is told of what is prepared.

use crate::few::Few;

/// How many turns from one object to another take no heap memory.
const FEW_RUNS: usize = 4;

/// The objects of a transaction's operations, in their order: each with how many operations came there one after another.
#[derive(Debug, Default)]
pub(crate) struct Holds(Few<(u32, u32), FEW_RUNS>);

impl Holds {
    /// An operation was executed at an object.
    #[inline]
    pub(crate) fn note(&mut self, object: u32) {
        match self.0.last_mut() {
            Some((last, count)) if *last == object => *count += 1,
            _ => self.0.append(&[(object, 1)]),
        }
    }

    /// The last operations were taken back.
    pub(crate) fn take_back(&mut self, operations: u64) {
        // there are never more events than that
        let mut left = u32::try_from(operations).unwrap_or(u32::MAX);
        while let Some((_, count)) = self.0.last_mut() {
            if *count > left {
                *count -= left;
                return;
            }
            left -= *count;
            self.0.truncate(self.0.len() - 1);
        }
    }

    /// The objects, ascending.
    pub(crate) fn objects(&self) -> Vec<u32> {
        let mut objects: Vec<u32> = self.0.iter().map(|(object, _)| *object).collect();
        objects.sort_unstable();
        objects.dedup();
        objects
    }
}

#[cfg(test)]
mod tests {
    use super::Holds;

    #[test]
    fn what_is_taken_back_isnt_held() {
        for operations in [vec![], vec![7], vec![3, 3, 3], vec![5, 1, 5, 5, 2, 1, 9, 9, 0, 4, 4, 1]] {
            for kept in 0..=operations.len() {
                let mut holds = Holds::default();
                operations.iter().for_each(|object| holds.note(*object));
                holds.take_back((operations.len() - kept) as u64);
                holds.note(8);
                let mut wanted = operations[..kept].to_vec();
                wanted.push(8);
                wanted.sort_unstable();
                wanted.dedup();
                assert_eq!(holds.objects(), wanted, "{operations:?} {kept}");
            }
        }
    }
}

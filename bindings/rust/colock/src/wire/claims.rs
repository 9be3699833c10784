//! Which of several requests under one key a child did: the first of them that it answers as done.

use crate::key::Key;
use std::collections::HashMap;
use std::sync::atomic::{AtomicBool, Ordering};
use std::sync::{Arc, Weak};

/// How many keys more than those that are asked under are kept before the others are looked for.
const FEW: usize = 64;

/// The keys under which something is asked, or is about to be.
#[derive(Debug, Default)]
pub(crate) struct Claims {
    claims: HashMap<Box<str>, Weak<Claim>>,
    /// With how many of them those are left out that nobody has any more.
    most: usize,
}

/// A key under which something is asked. All have one that ask under it at the same time, and who is to know whether its own
/// request was the first has it from before it asks for the key's outcome.
#[derive(Debug, Default)]
pub(crate) struct Claim {
    is_done: AtomicBool,
}

impl Claim {
    /// A request under the key is answered as done, in the order of the answers. Whether another one was before.
    pub(crate) fn was_done(&self) -> bool {
        self.is_done.swap(true, Ordering::Relaxed)
    }
}

impl Claims {
    /// That of a key.
    pub(crate) fn of(&mut self, key: Key<'_>) -> Arc<Claim> {
        if let Some(claim) = self.claims.get(key.as_str()).and_then(Weak::upgrade) {
            return claim;
        }
        if self.claims.len() >= self.most {
            self.claims.retain(|_, claim| claim.strong_count() > 0);
            self.most = 2 * self.claims.len() + FEW;
        }
        let claim = Arc::default();
        self.claims.insert(Box::from(key.as_str()), Arc::downgrade(&claim));
        claim
    }
}

#[cfg(test)]
mod tests {
    use super::{Claims, FEW};
    use crate::key::Key;

    #[test]
    fn who_asks_at_the_same_time_has_the_same() {
        let mut claims = Claims::default();
        let (key, other) = (Key::of("a").unwrap(), Key::of("b").unwrap());
        let (one, two) = (claims.of(key), claims.of(key));
        assert_eq!([one.was_done(), two.was_done(), claims.of(other).was_done()], [false, true, false]);
        drop(one);
        assert!(claims.of(key).was_done());
        drop(two);
        assert!(!claims.of(key).was_done());
    }

    #[test]
    fn those_that_nobody_has_are_left_out() {
        let mut claims = Claims::default();
        let kept: Vec<_> = (0..10).map(|number| claims.of(Key::of(&format!("kept-{number}")).unwrap())).collect();
        for number in 0..10_000 {
            claims.of(Key::of(&number.to_string()).unwrap());
            assert!(claims.claims.len() <= 2 * kept.len() + 2 * FEW);
        }
        assert!((0..10).all(|number| claims.claims[format!("kept-{number}").as_str()].strong_count() == 1));
    }
}

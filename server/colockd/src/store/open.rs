//! The transactions that are open, and what became of those that were a while ago.

use crate::locks::locked;
use crate::names::TransactionName;
use crate::store::about::{Beginning, Cause, Hold};
use colock_waiting::{Age, ObjectIndex, Touched, PLACES};
use std::collections::{HashMap, VecDeque};
use std::sync::{Arc, Mutex};
use std::time::{Duration, Instant};

/// The most transactions of which it is known what became of them.
pub const MOST_ENDED: usize = 4_096;

/// The most operations of a transaction that are shown.
pub const MOST_HELD: usize = 64;

/// What became of a transaction.
#[derive(Clone, Copy, Debug, PartialEq, Eq)]
pub enum Standing {
    /// It committed.
    Committed,
    /// It was aborted, for this reason.
    Aborted(Cause),
    /// The store ended before it answered the commit.
    Unknown,
}

/// An operation that a transaction did.
#[derive(Clone, Debug, PartialEq, Eq)]
pub struct Held {
    /// At which object.
    pub object: ObjectIndex,
    /// The class of the call.
    pub class: u8,
    /// The reply.
    pub reply: String,
}

#[derive(Debug)]
struct State {
    asked: Instant,
    in_use: usize,
    /// Whether its commit is asked for, and not answered.
    commits: bool,
    calls: u64,
    touched: Touched,
    held: VecDeque<Held>,
    hold: Option<Hold>,
}

impl State {
    fn of(touched: Touched, hold: Option<Hold>) -> State {
        State { asked: Instant::now(), in_use: 0, commits: false, calls: 0, touched, held: VecDeque::new(), hold }
    }
}

/// A transaction that is open.
#[derive(Debug)]
pub struct OpenTransaction {
    /// Its name.
    pub name: TransactionName,
    /// The name of the token that began it.
    pub owner: Arc<str>,
    /// Its age among those that wait.
    pub age: Age,
    /// When it began.
    pub begun: Instant,
    /// How long nothing may be asked of it.
    pub idle: Duration,
    /// Who asks something of it: one at a time.
    pub turn: tokio::sync::Mutex<()>,
    state: Mutex<State>,
}

impl OpenTransaction {
    /// Something is asked of it, until the result is dropped.
    pub fn used(self: &Arc<OpenTransaction>) -> Use {
        let mut state = locked(&self.state);
        state.in_use += 1;
        Use(Arc::clone(self))
    }

    /// How many operations it did, and the last of them.
    pub fn held(&self) -> (u64, Vec<Held>) {
        let state = locked(&self.state);
        (state.calls, state.held.iter().cloned().collect())
    }

    /// How long nothing was asked of it.
    pub fn idle_for(&self) -> Duration {
        let state = locked(&self.state);
        if state.in_use > 0 {
            Duration::ZERO
        } else {
            state.asked.elapsed()
        }
    }

    /// What holds it, where it is prepared.
    pub fn hold(&self) -> Option<Hold> {
        locked(&self.state).hold.clone()
    }

    /// What becomes of it where the store ends, for this reason.
    fn left(&self, cause: Cause) -> Standing {
        if locked(&self.state).commits {
            Standing::Unknown
        } else {
            Standing::Aborted(cause)
        }
    }

    fn is_prepared(&self) -> bool {
        locked(&self.state).hold.is_some()
    }

    fn touched(&self) -> Touched {
        locked(&self.state).touched
    }
}

/// Something is being asked of a transaction.
#[derive(Debug)]
pub struct Use(Arc<OpenTransaction>);

impl Drop for Use {
    fn drop(&mut self) {
        let mut state = locked(&self.0.state);
        state.in_use -= 1;
        state.asked = Instant::now();
    }
}

/// A transaction that has ended.
#[derive(Clone, Debug, PartialEq, Eq)]
pub struct Ended {
    /// The name of the token that began it.
    pub owner: Arc<str>,
    /// What became of it.
    pub standing: Standing,
}

/// What is known of a transaction.
#[derive(Clone, Debug)]
pub enum Known {
    /// It is open.
    Open(Arc<OpenTransaction>),
    /// It has ended.
    Ended(Ended),
}

#[derive(Debug, Default)]
struct Table {
    open: HashMap<TransactionName, Arc<OpenTransaction>>,
    keys: HashMap<Arc<str>, TransactionName>,
    ended: HashMap<TransactionName, Ended>,
    order: VecDeque<TransactionName>,
}

impl Table {
    fn end(&mut self, name: TransactionName, standing: Standing) -> Option<Arc<OpenTransaction>> {
        let open = self.open.remove(&name)?;
        if let Some(hold) = open.hold() {
            self.keys.remove(&hold.key);
        }
        self.ended.insert(name, Ended { owner: Arc::clone(&open.owner), standing });
        self.order.push_back(name);
        if self.order.len() > MOST_ENDED {
            if let Some(oldest) = self.order.pop_front() {
                self.ended.remove(&oldest);
            }
        }
        Some(open)
    }
}

/// All transactions that are open.
#[derive(Debug, Default)]
pub struct OpenTransactions(Mutex<Table>);

impl OpenTransactions {
    /// One has begun.
    pub fn begins(&self, name: TransactionName, beginning: &Beginning, age: Age) {
        let open = open_now(name, beginning, age, State::of(Touched::default(), None));
        locked(&self.0).open.insert(name, Arc::new(open));
    }

    /// One is prepared, now or before. What held it before holds it still. Of one that isn't known it isn't known either what it did,
    /// nor where.
    pub fn prepares(&self, name: TransactionName, hold: &Hold, age: impl FnOnce() -> Age) {
        let mut table = locked(&self.0);
        if !table.open.contains_key(&name) {
            let owner = table.ended.remove(&name).map_or_else(|| Arc::from(""), |ended| ended.owner);
            let everywhere = (0..PLACES).map(ObjectIndex).collect();
            let open = open_now(name, &Beginning { owner, idle: Duration::ZERO }, age(), State::of(everywhere, None));
            table.open.insert(name, Arc::new(open));
        }
        let Some(open) = table.open.get(&name) else { return };
        let key = Arc::clone(&locked(&open.state).hold.get_or_insert_with(|| hold.clone()).key);
        table.keys.insert(key, name);
    }

    /// The one that is prepared under a key.
    pub fn under(&self, key: &str) -> Option<TransactionName> {
        locked(&self.0).keys.get(key).copied()
    }

    /// What holds those that are prepared.
    pub fn holds(&self) -> Vec<Hold> {
        locked(&self.0).open.values().filter_map(|open| open.hold()).collect()
    }

    /// One has done an operation.
    pub fn executes(&self, name: TransactionName, held: Held) {
        let Some(open) = locked(&self.0).open.get(&name).cloned() else { return };
        let mut state = locked(&open.state);
        state.calls += 1;
        state.touched.note(held.object);
        if state.held.len() == MOST_HELD {
            state.held.pop_front();
        }
        state.held.push_back(held);
    }

    /// One has taken back its last operations; the result is where it had done some.
    pub fn takes_back(&self, name: TransactionName, count: usize) -> Touched {
        let Some(open) = locked(&self.0).open.get(&name).cloned() else { return Touched::default() };
        let mut state = locked(&open.state);
        let left = state.held.len().saturating_sub(count);
        state.held.truncate(left);
        state.calls = state.calls.saturating_sub(count as u64);
        state.touched
    }

    /// One has ended; the result is where it had done operations, where it was open.
    pub fn ends(&self, name: TransactionName, standing: Standing) -> Option<Touched> {
        locked(&self.0).end(name, standing).map(|open| open.touched())
    }

    /// The commit of one is asked for, or was answered.
    pub fn commits(&self, name: TransactionName, is_asked: bool) {
        if let Some(open) = locked(&self.0).open.get(&name) {
            locked(&open.state).commits = is_asked;
        }
    }

    /// All have ended that weren't prepared: they were aborted, but for those whose commit is asked for. How many were aborted.
    pub fn end_unprepared(&self, cause: Cause) -> usize {
        let mut table = locked(&self.0);
        let left: Vec<_> = table.open.values().filter(|open| !open.is_prepared()).map(|open| (open.name, open.left(cause))).collect();
        left.iter().for_each(|(name, standing)| drop(table.end(*name, *standing)));
        left.iter().filter(|(_, standing)| *standing != Standing::Unknown).count()
    }

    /// It is known now what became of one of which it wasn't; whether that is so.
    pub fn learns(&self, name: TransactionName, standing: Standing) -> bool {
        let mut table = locked(&self.0);
        let Some(ended) = table.ended.get_mut(&name).filter(|ended| ended.standing == Standing::Unknown) else { return false };
        ended.standing = standing;
        true
    }

    /// What is known of one.
    pub fn known(&self, name: TransactionName) -> Option<Known> {
        let table = locked(&self.0);
        let open = table.open.get(&name).map(|open| Known::Open(Arc::clone(open)));
        open.or_else(|| table.ended.get(&name).cloned().map(Known::Ended))
    }

    /// What became of one, where it has ended.
    pub fn standing(&self, name: TransactionName) -> Option<Standing> {
        locked(&self.0).ended.get(&name).map(|ended| ended.standing)
    }

    /// All that are open, the oldest first.
    pub fn all(&self) -> Vec<Arc<OpenTransaction>> {
        let mut all: Vec<_> = locked(&self.0).open.values().cloned().collect();
        all.sort_by_key(|open| open.age);
        all
    }

    /// Those that aren't prepared, the oldest first.
    pub fn unprepared(&self) -> Vec<Arc<OpenTransaction>> {
        self.all().into_iter().filter(|open| !open.is_prepared()).collect()
    }

    /// How many are open.
    pub fn len(&self) -> usize {
        locked(&self.0).open.len()
    }

    /// Whether none is open.
    pub fn is_empty(&self) -> bool {
        self.len() == 0
    }

    /// How many of a token are open.
    pub fn count_of(&self, owner: &str) -> usize {
        locked(&self.0).open.values().filter(|open| &*open.owner == owner).count()
    }
}

fn open_now(name: TransactionName, beginning: &Beginning, age: Age, state: State) -> OpenTransaction {
    let (owner, idle) = (Arc::clone(&beginning.owner), beginning.idle);
    OpenTransaction { name, owner, age, begun: state.asked, idle, turn: tokio::sync::Mutex::new(()), state: Mutex::new(state) }
}

#[cfg(test)]
mod tests {
    use super::{Cause, Held, Hold, Known, OpenTransactions, Standing, MOST_ENDED, MOST_HELD};
    use crate::names::TransactionName;
    use crate::store::about::Beginning;
    use colock_waiting::{Age, ObjectIndex, Touched};
    use std::sync::Arc;
    use std::time::Duration;

    fn name(life: u32, number: u32) -> TransactionName {
        TransactionName { life, number }
    }

    fn begin(all: &OpenTransactions, name: TransactionName) {
        all.begins(name, &Beginning { owner: Arc::from("shop"), idle: Duration::from_secs(30) }, Age(u64::from(name.number)));
    }

    fn held(object: u32) -> Held {
        Held { object: ObjectIndex(object), class: 0, reply: "ok".to_string() }
    }

    #[test]
    fn what_a_transaction_touched_is_known_at_its_end() {
        let all = OpenTransactions::default();
        begin(&all, name(1, 0));
        all.executes(name(1, 0), held(5));
        all.executes(name(1, 0), held(6));
        let touched: Touched = [5, 6].map(ObjectIndex).into_iter().collect();
        assert_eq!(all.takes_back(name(1, 0), 1), touched);
        assert_eq!(all.all()[0].held(), (1, vec![held(5)]));
        assert_eq!(all.ends(name(1, 0), Standing::Committed), Some(touched));
        assert_eq!(all.ends(name(1, 0), Standing::Aborted(Cause::Idle)), None);
        assert!(matches!(all.known(name(1, 0)), Some(Known::Ended(ended)) if ended.standing == Standing::Committed));
        assert!(all.known(name(1, 1)).is_none());
    }

    #[test]
    fn one_of_an_earlier_life_is_another_one() {
        let all = OpenTransactions::default();
        [name(1, 0), name(1, 1), name(2, 0)].into_iter().for_each(|name| begin(&all, name));
        all.ends(name(2, 0), Standing::Committed);
        assert!(matches!((all.known(name(1, 0)), all.known(name(2, 0))), (Some(Known::Open(_)), Some(Known::Ended(_)))));
        assert_eq!((all.count_of("shop"), all.end_unprepared(Cause::Lost), all.len()), (2, 2, 0));
    }

    #[test]
    fn a_commit_that_wasnt_answered_may_be_known_later() {
        let all = OpenTransactions::default();
        let standing = |number| all.standing(name(1, number));
        (0..4).for_each(|number| begin(&all, name(1, number)));
        (0..3).for_each(|number| all.commits(name(1, number), true));
        all.commits(name(1, 2), false);
        assert_eq!(all.end_unprepared(Cause::Lost), 2);
        let lost = Some(Standing::Aborted(Cause::Lost));
        assert_eq!([0, 1, 2, 3].map(standing), [Some(Standing::Unknown), Some(Standing::Unknown), lost, lost]);
        assert!(all.learns(name(1, 0), Standing::Committed) && all.learns(name(1, 1), Standing::Aborted(Cause::Lost)));
        // what is known stays so
        assert!(!all.learns(name(1, 0), Standing::Aborted(Cause::Lost)) && !all.learns(name(1, 2), Standing::Committed));
        assert!(!all.learns(name(1, 4), Standing::Committed));
        assert_eq!([0, 1, 2, 4].map(standing), [Some(Standing::Committed), lost, lost, None]);
    }

    #[test]
    fn one_that_is_prepared_outlives_its_life() {
        let all = OpenTransactions::default();
        let hold = |key: &str, until| Hold { key: Arc::from(key), until };
        begin(&all, name(1, 0));
        begin(&all, name(1, 1));
        all.prepares(name(1, 0), &hold("k", 7), || Age(8));
        all.prepares(name(1, 0), &hold("k", 9), || Age(8));
        assert_eq!((all.under("k"), all.unprepared().len(), all.end_unprepared(Cause::Lost)), (Some(name(1, 0)), 1, 1));
        all.prepares(name(1, 1), &hold("l", 8), || Age(9));
        assert!(matches!(all.known(name(1, 1)), Some(Known::Open(open)) if &*open.owner == "shop" && open.hold() == Some(hold("l", 8))));
        all.prepares(name(1, 2), &hold("m", 9), || Age(10));
        assert_eq!((all.len(), all.under("m")), (3, Some(name(1, 2))));
        assert!(all.ends(name(1, 2), Standing::Committed).is_some_and(|touched| touched.has(ObjectIndex(77))));
        assert!(all.holds().contains(&hold("k", 7)));
        assert_eq!((all.ends(name(1, 0), Standing::Committed), all.under("k"), all.holds()), (Some(Touched::default()), None, vec![hold("l", 8)]));
    }

    #[test]
    fn memory_is_bounded() {
        let all = OpenTransactions::default();
        (0..=MOST_ENDED as u32).for_each(|number| {
            begin(&all, name(1, number));
            all.ends(name(1, number), Standing::Committed);
        });
        assert!(all.known(name(1, 0)).is_none() && all.known(name(1, 1)).is_some());
        begin(&all, name(2, 0));
        (0..100).for_each(|object| all.executes(name(2, 0), held(object)));
        let (calls, shown) = all.all()[0].held();
        assert_eq!((calls, shown.len(), shown[0].object), (100, MOST_HELD, ObjectIndex(36)));
    }

    #[test]
    fn one_that_is_used_isnt_idle() {
        let all = OpenTransactions::default();
        begin(&all, name(1, 0));
        let open = Arc::clone(&all.all()[0]);
        let used = open.used();
        std::thread::sleep(Duration::from_millis(3));
        assert_eq!(open.idle_for(), Duration::ZERO);
        drop(used);
        std::thread::sleep(Duration::from_millis(3));
        assert!(open.idle_for() >= Duration::from_millis(3));
    }
}

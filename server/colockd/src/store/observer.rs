//! What is noted of each answer, in the order in which the store gave them.

use crate::engine::answer::{Answer, Refusal};
use crate::engine::child::Greeting;
use crate::engine::Listener;
use crate::metrics::Metrics;
use crate::names::{number_of, TransactionName};
use crate::store::about::{About, AttemptCalls, Cause, Ending, Hold};
use crate::store::bell::Bell;
use crate::store::calls::Call;
use crate::store::open::{Held, Known, OpenTransactions, Standing};
use crate::store::waits::Waits;
use colock_waiting::{Asker, Number, Touched};
use std::sync::atomic::{AtomicU32, AtomicU64, Ordering};
use std::sync::Arc;
use std::time::Duration;

/// The number of whoever ends and isn't known.
const NOBODY: Number = Number(u64::MAX);

/// Keeps what is open, who waits, and the metrics.
#[derive(Debug)]
pub struct Observer {
    /// What is open.
    pub open: Arc<OpenTransactions>,
    /// Who waits.
    pub waits: Arc<Waits>,
    /// What is counted.
    pub metrics: Arc<Metrics>,
    life: AtomicU32,
    happened: AtomicU64,
}

impl Observer {
    /// Nothing has happened.
    pub fn new(open: Arc<OpenTransactions>, waits: Arc<Waits>, metrics: Arc<Metrics>) -> Observer {
        Observer { open, waits, metrics, life: AtomicU32::new(0), happened: AtomicU64::new(0) }
    }

    /// The life of the store, as far as it was told.
    pub fn life(&self) -> u32 {
        self.life.load(Ordering::Relaxed)
    }

    /// A count that grows where the history may have.
    pub fn happened(&self) -> u64 {
        self.happened.load(Ordering::Relaxed)
    }

    /// The store told its life: where it is a greater one, epochs have ended. What was open may go on, and nothing tells that it
    /// doesn't but a refusal; so all that wait ask once more.
    pub fn told_life(&self, life: u32) {
        let before = self.life.fetch_max(life, Ordering::Relaxed);
        if before < life {
            self.metrics.epochs.inc_by(u64::from(life - before));
            self.waits.epoch_ended();
            tracing::info!(life, "another epoch has begun");
        }
    }

    fn ended(&self, name: TransactionName, standing: Standing) {
        let Some(touched) = self.open.ends(name, standing) else { return };
        self.counts(standing);
        self.waits.ended(Number(name.packed()), touched);
    }

    /// It is known now what became of one whose commit the store didn't answer.
    pub fn learns(&self, name: TransactionName, standing: Standing) {
        if self.open.learns(name, standing) {
            self.counts(standing);
        }
    }

    fn counts(&self, standing: Standing) {
        match standing {
            Standing::Committed => self.metrics.commits.inc(),
            Standing::Aborted(cause) => self.metrics.aborted(cause, 1),
            Standing::Unknown => {}
        }
    }

    /// The store has no such open transaction. An end that was asked for was answered before; so the end of its epoch aborted it, unless
    /// it was prepared: what became of that its key says.
    fn is_not_open(&self, name: TransactionName) {
        if matches!(self.open.known(name), Some(Known::Open(open)) if open.hold().is_none()) {
            self.ended(name, Standing::Aborted(Cause::Epoch));
        }
    }

    fn called(&self, asker: Asker, bell: Option<&Arc<Bell>>, answer: Answer<'_>) {
        let name = TransactionName::unpacked(asker.number.0);
        match answer {
            Answer::Reply(reply) => self.open.executes(name, Held { object: asker.object, class: asker.call.0, reply: reply.to_string() }),
            Answer::Busy(blocker) => {
                self.metrics.busy(asker.object.0);
                if let Some(bell) = bell {
                    self.waits.busy(asker, bell, Number(blocker.packed()));
                }
            }
            _ => {}
        }
    }

    fn attempted(&self, attempt: &AttemptCalls, answer: Answer<'_>) {
        match answer {
            Answer::Done(_) => {
                self.metrics.commits.inc();
                let touched: Touched = attempt.calls.iter().map(|call| call.at().0).collect();
                self.waits.ended(attempt.place.as_ref().map_or(NOBODY, |place| place.number), touched);
            }
            Answer::BusyAt(place, blocker) => {
                self.told_life(blocker.life);
                let Some((object, call)) = attempt.calls.get(place).map(Call::at) else { return };
                self.metrics.busy(object.0);
                if let Some(place) = &attempt.place {
                    let asker = Asker { number: place.number, age: place.age, object, call };
                    self.waits.busy(asker, &place.bell, Number(blocker.packed()));
                }
            }
            _ => {}
        }
    }

    fn prepared(&self, name: TransactionName, hold: &Hold, answer: Answer<'_>) {
        if let Answer::Ok(_) = answer {
            self.open.prepares(name, hold, || self.waits.next_age());
        }
    }

    fn decided(&self, key: &str, ending: Ending, answer: Answer<'_>) {
        let Some(name) = self.open.under(key) else { return };
        match (ending, answer) {
            (Ending::Commit, Answer::Ok(_)) | (Ending::Abort(_), Answer::Refused(Refusal::Decided)) => self.ended(name, Standing::Committed),
            (Ending::Abort(cause), Answer::Ok(_)) => self.ended(name, Standing::Aborted(cause)),
            (Ending::Commit, Answer::Refused(Refusal::Decided)) => self.ended(name, Standing::Aborted(Cause::Decided)),
            _ => {}
        }
    }

    fn told_outcome(&self, key: &str, answer: Answer<'_>) {
        let Some(name) = self.open.under(key) else { return };
        match answer {
            Answer::Committed(_) => self.ended(name, Standing::Committed),
            Answer::Aborted | Answer::Unknown => self.ended(name, Standing::Aborted(Cause::Decided)),
            _ => {}
        }
    }

    fn listed_prepared(&self, listed: &str) {
        for (name, hold) in holds_in(listed) {
            self.open.prepares(name, &hold, || self.waits.next_age());
        }
    }

    fn end_answered(&self, name: TransactionName, ending: Ending, answer: Answer<'_>) {
        match (ending, answer) {
            (Ending::Commit, Answer::Ok(_)) => self.ended(name, Standing::Committed),
            (Ending::Abort(cause), Answer::Ok(_)) => self.ended(name, Standing::Aborted(cause)),
            (Ending::Commit, _) => self.open.commits(name, false),
            _ => {}
        }
    }
}

impl Listener<About> for Observer {
    fn answered(&self, about: &About, answer: Answer<'_>, listed: &str, since: Duration) {
        if !matches!(about, About::Nothing | About::Would(_) | About::Outcome(_) | About::Prepared) {
            self.happened.fetch_add(1, Ordering::Relaxed);
        }
        if let (Answer::Refused(Refusal::NotOpen), Some(name)) = (answer, about.transaction()) {
            self.is_not_open(name);
        }
        match about {
            About::Nothing => {}
            About::Begin(beginning) => {
                if let Answer::Ok(name) = answer {
                    if let Ok(name) = name.parse::<TransactionName>() {
                        self.told_life(name.life);
                        self.open.begins(name, beginning, self.waits.next_age());
                    }
                }
            }
            About::Call(asker, bell) => self.called(*asker, bell.as_ref(), answer),
            About::Would(number) => match answer {
                Answer::Busy(blocker) => self.waits.would(*number, Some(Number(blocker.packed()))),
                _ => self.waits.would(*number, None),
            },
            About::Attempt(attempt, _) => self.attempted(attempt, answer),
            About::End(name, ending) => self.end_answered(*name, *ending, answer),
            About::Rollback(name, count) => {
                if let Answer::Ok(_) = answer {
                    let touched = self.open.takes_back(*name, *count as usize);
                    self.waits.took_back(Number(name.packed()), touched);
                }
            }
            About::Prepare(name, hold) => self.prepared(*name, hold, answer),
            About::Decide(key, ending) => self.decided(key, *ending, answer),
            About::Outcome(key) => self.told_outcome(key, answer),
            About::Prepared => self.listed_prepared(listed),
        }
        if matches!(about, About::Attempt(..) | About::End(_, Ending::Commit) | About::Decide(_, Ending::Commit)) {
            self.metrics.answered_commit(since);
        }
    }

    fn wrote(&self, count: usize) {
        self.metrics.group_size.observe(count as f64);
    }

    fn greeted(&self, greeting: Greeting) {
        self.life.fetch_max(greeting.life, Ordering::Relaxed);
        self.happened.fetch_add(1, Ordering::Relaxed);
        self.metrics.starts.inc();
    }

    fn lost(&self) {
        let count = self.open.end_unprepared(Cause::Lost);
        self.metrics.aborted(Cause::Lost, count as u64);
        self.waits.lost();
    }
}

/// What the lines `KEY S.N UNTIL` say.
pub fn holds_in(listed: &str) -> impl Iterator<Item = (TransactionName, Hold)> + '_ {
    listed.lines().filter_map(|line| {
        let mut words = line.split(' ');
        let (key, name, until) = (words.next()?, words.next()?.parse().ok()?, number_of(words.next()?)?);
        Some((name, Hold { key: Arc::from(key), until }))
    })
}

#[cfg(test)]
mod tests {
    use super::{Observer, Waits};
    use crate::engine::answer::Answer;
    use crate::engine::child::Greeting;
    use crate::engine::Listener;
    use crate::metrics::Metrics;
    use crate::names::TransactionName;
    use crate::store::about::{About, AttemptCalls, AttemptPlace, Beginning, Cause, Ending, Hold};
    use crate::store::bell::{Bell, Woken};
    use crate::store::calls::Call;
    use crate::store::objects::{ObjectEntry, SharedObjects};
    use crate::store::open::Standing;
    use crate::store::recovery::Recovery;
    use crate::store::type_text::TypeText;
    use colock_waiting::{Age, Asker, Class, Number, ObjectIndex};
    use std::sync::Arc;
    use std::time::Duration;
    use tokio::sync::mpsc::unbounded_channel;
    use tokio::time::Instant;

    const NAME: TransactionName = TransactionName { life: 3, number: 0 };

    fn observer() -> Observer {
        let (due, _) = unbounded_channel();
        let observer = Observer::new(Arc::default(), Arc::new(Waits::new(SharedObjects::default(), due)), Arc::new(Metrics::new().unwrap()));
        observer.greeted(Greeting { life: 3, found: None });
        observer
    }

    fn tell(observer: &Observer, about: &About, line: &str) {
        observer.answered(about, Answer::read(line).unwrap(), "", Duration::ZERO);
    }

    fn begin() -> About {
        About::Begin(Beginning { owner: Arc::from("shop"), idle: Duration::from_secs(1) })
    }

    #[test]
    fn a_transaction_is_open_from_its_begin_to_its_end() {
        let observer = observer();
        tell(&observer, &begin(), "ok 3.0");
        tell(&observer, &begin(), "busy drain");
        assert_eq!(observer.open.len(), 1);
        tell(&observer, &About::End(NAME, Ending::Commit), "refused KeyTaken");
        assert_eq!(observer.open.len(), 1);
        tell(&observer, &About::End(NAME, Ending::Commit), "ok");
        assert_eq!((observer.open.len(), observer.open.standing(NAME)), (0, Some(Standing::Committed)));
    }

    #[test]
    fn what_is_open_outlives_its_epoch_and_not_its_store() {
        let observer = observer();
        tell(&observer, &begin(), "ok 3.0");
        tell(&observer, &begin(), "ok 6.1");
        assert_eq!((observer.open.len(), observer.life(), observer.metrics.epochs.get()), (2, 6, 3));
        tell(&observer, &About::End(NAME, Ending::Commit), "ok");
        assert_eq!((observer.open.len(), observer.open.standing(NAME)), (1, Some(Standing::Committed)));
        observer.lost();
        assert!(observer.open.is_empty());
    }

    #[test]
    fn of_a_commit_that_the_store_didnt_answer_nothing_is_counted_before_it_is_known() {
        for (learnt, commits, lost) in [(Standing::Committed, 1, ""), (Standing::Aborted(Cause::Lost), 0, "colockd_aborts_total{cause=\"lost\"} 1\n")] {
            let observer = observer();
            tell(&observer, &begin(), "ok 3.0");
            observer.open.commits(NAME, true);
            observer.lost();
            assert_eq!((observer.open.standing(NAME), observer.metrics.commits.get()), (Some(Standing::Unknown), 0));
            (0..2).for_each(|_| observer.learns(NAME, learnt));
            assert_eq!((observer.open.standing(NAME), observer.metrics.commits.get()), (Some(learnt), commits));
            assert!(observer.metrics.text(|_| String::new()).is_ok_and(|text| String::from_utf8(text).unwrap().contains(lost)), "{learnt:?}");
        }
        // one that was refused is open, and isn't asked for any more
        let observer = observer();
        tell(&observer, &begin(), "ok 3.0");
        observer.open.commits(NAME, true);
        tell(&observer, &About::End(NAME, Ending::Commit), "refused KeyTaken");
        observer.lost();
        assert_eq!(observer.open.standing(NAME), Some(Standing::Aborted(Cause::Lost)));
    }

    #[test]
    fn what_an_epoch_aborted_is_known_by_a_refusal() {
        let asker = Asker { number: Number(NAME.packed()), age: Age(1), object: ObjectIndex(0), call: Class(0) };
        let hold = Hold { key: Arc::from("k"), until: 7 };
        for about in [About::Call(asker, None), About::End(NAME, Ending::Abort(Cause::Idle)), About::Rollback(NAME, 0), About::Prepare(NAME, hold)] {
            let observer = observer();
            tell(&observer, &begin(), "ok 3.0");
            tell(&observer, &begin(), "ok 4.0");
            tell(&observer, &About::Rollback(NAME, 0), "refused BadRollback");
            assert_eq!((observer.open.len(), observer.open.standing(NAME)), (2, None), "{about:?}");
            tell(&observer, &about, "refused NotOpen");
            assert_eq!((observer.open.len(), observer.open.standing(NAME)), (1, Some(Standing::Aborted(Cause::Epoch))), "{about:?}");
            let text = String::from_utf8(observer.metrics.text(|_| String::new()).unwrap()).unwrap();
            assert!(text.contains("colockd_aborts_total{cause=\"epoch\"} 1\n"), "{about:?}");
        }
    }

    #[test]
    fn one_that_is_prepared_is_open_until_it_is_decided() {
        let observer = observer();
        let (key, hold): (Arc<str>, _) = (Arc::from("k"), Hold { key: Arc::from("k"), until: 7 });
        tell(&observer, &begin(), "ok 3.0");
        tell(&observer, &About::Prepare(NAME, hold.clone()), "ok");
        tell(&observer, &begin(), "ok 4.0");
        observer.lost();
        tell(&observer, &About::Rollback(NAME, 1), "refused NotOpen");
        assert_eq!((observer.open.len(), observer.open.under("k")), (1, Some(NAME)));
        tell(&observer, &About::Decide(Arc::clone(&key), Ending::Commit), "refused KeyTaken");
        tell(&observer, &About::Outcome(Arc::clone(&key)), "prepared");
        assert_eq!(observer.open.holds(), [hold]);
        tell(&observer, &About::Decide(key, Ending::Abort(Cause::Undecided)), "refused Decided");
        assert_eq!((observer.open.len(), observer.open.standing(NAME)), (0, Some(Standing::Committed)));
    }

    #[test]
    fn what_the_store_lists_as_prepared_is_open() {
        let observer = observer();
        observer.answered(&About::Prepared, Answer::Ok(""), "k 2.5 17\nrefused 3.0 4294967295\n", Duration::ZERO);
        assert_eq!((observer.open.under("k"), observer.open.under("refused")), (Some(TransactionName { life: 2, number: 5 }), Some(NAME)));
        tell(&observer, &About::Outcome(Arc::from("k")), "committed");
        assert_eq!(observer.open.len(), 1);
    }

    /// An attempt that may wait, and its bell.
    fn attempt(observer: &Observer) -> (About, Arc<Bell>) {
        let (number, age) = observer.waits.next_attempt();
        let bell = Arc::new(Bell::default());
        let place = AttemptPlace { number, age, bell: Arc::clone(&bell) };
        let object = Arc::new(ObjectEntry { number: 7, name: None, recovery: Recovery::Undo, of: Arc::new(TypeText::read("type t\nop x ok\nend\n")) });
        let calls = vec![Call { object, name: "x".to_string(), class: 0 }];
        (About::Attempt(Arc::new(AttemptCalls { calls, place: Some(place) }), None), bell)
    }

    async fn rung(bell: &Bell) -> Option<Woken> {
        bell.wait(Instant::now() + Duration::from_millis(2)).await
    }

    #[tokio::test]
    async fn an_attempt_that_is_busy_waits_for_the_end_of_its_blocker() {
        let observer = observer();
        tell(&observer, &begin(), "ok 3.0");
        let (attempt, bell) = attempt(&observer);
        tell(&observer, &attempt, "busy 0 3.0");
        assert_eq!(rung(&bell).await, None);
        tell(&observer, &About::End(NAME, Ending::Abort(Cause::Asked)), "ok");
        assert_eq!(rung(&bell).await, Some(Woken::Again));
    }

    #[tokio::test]
    async fn who_waits_asks_once_more_where_an_epoch_may_have_aborted_its_blocker() {
        let observer = observer();
        tell(&observer, &begin(), "ok 3.0");
        let (attempt, bell) = attempt(&observer);
        tell(&observer, &attempt, "busy 0 3.0");
        for life in [4, 5] {
            observer.told_life(life);
            assert_eq!(rung(&bell).await, Some(Woken::Again), "{life}");
            tell(&observer, &attempt, "busy 0 3.0");
            observer.told_life(life);
            assert_eq!(rung(&bell).await, None, "{life}");
        }
    }
}

//! What is counted, in the form of Prometheus.

use crate::locks::locked;
use crate::recent::Recent;
use crate::store::about::Cause;
use prometheus::{Encoder, Histogram, HistogramOpts, HistogramVec, IntCounter, IntCounterVec, IntGauge, IntGaugeVec, Opts, Registry, TextEncoder};
use std::collections::HashMap;
use std::sync::{Mutex, OnceLock};
use std::time::Duration;

/// How many objects are counted by name.
pub const HOTTEST: usize = 20;

/// From a tenth of a millisecond to half a minute.
const SECONDS: [f64; 17] = [0.0001, 0.00025, 0.0005, 0.001, 0.0025, 0.005, 0.01, 0.025, 0.05, 0.1, 0.25, 0.5, 1.0, 2.5, 5.0, 10.0, 30.0];

/// How many questions are written at once.
const GROUPS: [f64; 10] = [1.0, 2.0, 4.0, 8.0, 16.0, 32.0, 64.0, 128.0, 256.0, 512.0];

/// The routes that are asked for most often, with the status of what is done: their counts are found without a look into a table.
const FREQUENT: [(&str, &str); 4] = [("attempts", "200"), ("begin", "201"), ("call", "200"), ("commit", "200")];

/// All that is counted.
#[derive(Debug)]
pub struct Metrics {
    registry: Registry,
    /// Transactions that committed.
    pub commits: IntCounter,
    aborts: IntCounterVec,
    busy: Mutex<HashMap<u32, u64>>,
    busy_by_object: IntGaugeVec,
    /// How long calls and attempts waited.
    pub wait_seconds: Histogram,
    /// Circles that were broken.
    pub deadlocks: IntGauge,
    /// Who wait.
    pub waiting: IntGauge,
    /// What is open.
    pub open: IntGauge,
    /// Those of them that are prepared.
    pub prepared: IntGauge,
    /// The age of the oldest that is open, in seconds.
    pub oldest_open_seconds: IntGauge,
    /// The events of the epoch.
    pub epoch_events: IntGauge,
    /// Epochs that ended.
    pub epochs: IntCounter,
    /// How often the store was started.
    pub starts: IntCounter,
    /// Questions that are written at once.
    pub group_size: Histogram,
    commit_seconds: Histogram,
    request_seconds: HistogramVec,
    frequent: [OnceLock<Histogram>; FREQUENT.len()],
    in_flight: IntGauge,
    /// Connections.
    pub connections: IntGauge,
    /// Requests that were refused to a token, or for want of one.
    pub refused_tokens: IntCounter,
    /// Objects of the store.
    pub objects: IntGauge,
    /// The last five minutes.
    pub recent: Recent,
}

impl Metrics {
    /// Nothing was counted.
    ///
    /// # Errors
    ///
    /// Where two have one name.
    pub fn new() -> prometheus::Result<Metrics> {
        let make = Making(Registry::new());
        Ok(Metrics {
            commits: make.counter("commits_total", "Transactions that committed.")?,
            aborts: make.counters("aborts_total", "Transactions that were aborted, by why.", &["cause"])?,
            busy: Mutex::default(),
            busy_by_object: make.gauges("busy_calls", "Calls that were busy since the start, of the 20 hottest objects, and of all others.", &["object"])?,
            wait_seconds: make.histogram("wait_seconds", "How long a call or an attempt waited that was busy.", &SECONDS)?,
            deadlocks: make.gauge("deadlocks", "Circles of transactions that waited for one another, since the start.")?,
            waiting: make.gauge("waiting", "Calls and attempts that wait.")?,
            open: make.gauge("open_transactions", "Transactions that are open.")?,
            prepared: make.gauge("prepared_transactions", "Those of them that are prepared.")?,
            oldest_open_seconds: make.gauge("oldest_open_seconds", "Age of the oldest open transaction.")?,
            epoch_events: make.gauge("epoch_events", "Events of the present epoch.")?,
            epochs: make.counter("epochs_total", "Epochs that ended since the start.")?,
            starts: make.counter("store_starts_total", "How often the store was started.")?,
            group_size: make.histogram("group_size", "Questions that were written to the store at once.", &GROUPS)?,
            commit_seconds: make.histogram("commit_seconds", "From the writing of a commit to its answer, with its syncs.", &SECONDS)?,
            request_seconds: make.histograms("request_seconds", "Requests, by route and status.", &["route", "status"])?,
            frequent: Default::default(),
            in_flight: make.gauge("requests_in_flight", "Requests that are being answered.")?,
            connections: make.gauge("connections", "Connections.")?,
            refused_tokens: make.counter("refused_tokens_total", "Requests that were refused to a token, or for want of one.")?,
            objects: make.gauge("objects", "Objects of the store.")?,
            recent: Recent::default(),
            registry: make.0,
        })
    }

    /// So many transactions were aborted.
    pub fn aborted(&self, cause: Cause, count: u64) {
        if count > 0 {
            self.aborts.with_label_values(&[cause.word()]).inc_by(count);
        }
    }

    /// A request is being answered, until the result is dropped, also where its client goes away.
    pub fn counts_request(&self) -> CountedRequest<'_> {
        self.in_flight.inc();
        CountedRequest(&self.in_flight)
    }

    /// A request of a route was answered with a status, after so many seconds.
    pub fn answered_request(&self, route: &str, status: &str, seconds: f64) {
        let found = || self.request_seconds.with_label_values(&[route, status]);
        match FREQUENT.iter().position(|frequent| *frequent == (route, status)) {
            Some(place) => self.frequent[place].get_or_init(found).observe(seconds),
            None => found().observe(seconds),
        }
    }

    /// A call at an object was busy.
    pub fn busy(&self, object: u32) {
        *locked(&self.busy).entry(object).or_default() += 1;
    }

    /// The objects with the most calls that were busy, the hottest first.
    pub fn hottest(&self) -> Vec<(u32, u64)> {
        let mut all: Vec<_> = locked(&self.busy).iter().map(|(object, count)| (*object, *count)).collect();
        all.sort_unstable_by_key(|(object, count)| (std::cmp::Reverse(*count), *object));
        all
    }

    /// A commit was answered, this long after it was written.
    pub fn answered_commit(&self, since: Duration) {
        self.commit_seconds.observe(since.as_secs_f64());
        self.recent.note(since);
    }

    /// The text, with names of objects.
    ///
    /// # Errors
    ///
    /// Where it can't be written.
    pub fn text(&self, name: impl Fn(u32) -> String) -> prometheus::Result<Vec<u8>> {
        self.busy_by_object.reset();
        let hottest = self.hottest();
        for (object, count) in hottest.iter().take(HOTTEST) {
            self.busy_by_object.with_label_values(&[&name(*object)]).set(clipped(*count));
        }
        let others: u64 = hottest.iter().skip(HOTTEST).map(|(_, count)| count).sum();
        self.busy_by_object.with_label_values(&["others"]).set(clipped(others));
        let mut text = Vec::new();
        TextEncoder::new().encode(&self.registry.gather(), &mut text)?;
        Ok(text)
    }
}

/// A request that is counted.
#[derive(Debug)]
pub struct CountedRequest<'m>(&'m IntGauge);

impl Drop for CountedRequest<'_> {
    fn drop(&mut self) {
        self.0.dec();
    }
}

/// A count in a gauge.
pub fn clipped(count: u64) -> i64 {
    i64::try_from(count).unwrap_or(i64::MAX)
}

/// Makes what is registered, with the program's name in front.
struct Making(Registry);

impl Making {
    fn opts(name: &str, help: &str) -> Opts {
        Opts::new(format!("colockd_{name}"), help)
    }

    fn registered<C: prometheus::core::Collector + Clone + 'static>(&self, collector: C) -> prometheus::Result<C> {
        self.0.register(Box::new(collector.clone()))?;
        Ok(collector)
    }

    fn counter(&self, name: &str, help: &str) -> prometheus::Result<IntCounter> {
        self.registered(IntCounter::with_opts(Making::opts(name, help))?)
    }

    fn counters(&self, name: &str, help: &str, labels: &[&str]) -> prometheus::Result<IntCounterVec> {
        self.registered(IntCounterVec::new(Making::opts(name, help), labels)?)
    }

    fn gauge(&self, name: &str, help: &str) -> prometheus::Result<IntGauge> {
        self.registered(IntGauge::with_opts(Making::opts(name, help))?)
    }

    fn gauges(&self, name: &str, help: &str, labels: &[&str]) -> prometheus::Result<IntGaugeVec> {
        self.registered(IntGaugeVec::new(Making::opts(name, help), labels)?)
    }

    fn histogram(&self, name: &str, help: &str, buckets: &[f64]) -> prometheus::Result<Histogram> {
        self.registered(Histogram::with_opts(HistogramOpts::from(Making::opts(name, help)).buckets(buckets.to_vec()))?)
    }

    fn histograms(&self, name: &str, help: &str, labels: &[&str]) -> prometheus::Result<HistogramVec> {
        self.registered(HistogramVec::new(HistogramOpts::from(Making::opts(name, help)).buckets(SECONDS.to_vec()), labels)?)
    }
}

#[cfg(test)]
mod tests {
    use super::{Metrics, HOTTEST};
    use crate::store::about::Cause;
    use std::time::Duration;

    #[test]
    fn the_hottest_objects_have_their_names_and_the_others_are_together() {
        let metrics = Metrics::new().unwrap();
        (0..30).for_each(|object| (0..=object).for_each(|_| metrics.busy(object)));
        let text = String::from_utf8(metrics.text(|object| format!("seat{object}")).unwrap()).unwrap();
        assert!(text.contains("colockd_busy_calls{object=\"seat29\"} 30\n") && !text.contains("\"seat9\""));
        assert_eq!(text.matches("colockd_busy_calls{").count(), HOTTEST + 1);
        assert!(text.contains("colockd_busy_calls{object=\"others\"} 55\n"));
    }

    #[test]
    fn what_happens_is_in_the_text() {
        let metrics = Metrics::new().unwrap();
        metrics.commits.inc();
        metrics.aborted(Cause::Idle, 2);
        metrics.answered_commit(Duration::from_millis(3));
        for (route, status) in [("attempts", "200"), ("attempts", "200"), ("attempts", "409"), ("metrics", "200")] {
            metrics.answered_request(route, status, 0.001);
        }
        let text = String::from_utf8(metrics.text(|_| String::new()).unwrap()).unwrap();
        for line in [
            "colockd_commits_total 1",
            "colockd_aborts_total{cause=\"idle\"} 2",
            "colockd_commit_seconds_count 1",
            "colockd_request_seconds_count{route=\"attempts\",status=\"200\"} 2",
            "colockd_request_seconds_count{route=\"attempts\",status=\"409\"} 1",
            "colockd_request_seconds_count{route=\"metrics\",status=\"200\"} 1",
        ] {
            assert!(text.contains(line), "{line} in {text}");
        }
        assert!(!text.contains("route=\"begin\""));
    }
}

//! How many commits there were in each of the last seconds, and how long they took.

use crate::locks::locked;
use std::sync::Mutex;
use std::time::{Duration, Instant};

/// How many seconds are kept.
pub const KEPT: usize = 300;

/// Times are counted by the powers of the square root of two of a microsecond.
const BUCKETS: usize = 56;

#[derive(Clone, Copy, Debug)]
struct Second {
    number: u64,
    commits: u32,
    times: [u32; BUCKETS],
}

impl Second {
    const EMPTY: Second = Second { number: 0, commits: 0, times: [0; BUCKETS] };
}

/// The last five minutes.
#[derive(Debug)]
pub struct Recent {
    start: Instant,
    seconds: Mutex<Box<[Second]>>,
}

/// What they were.
#[derive(Clone, Debug, PartialEq)]
pub struct Summary {
    /// The commits of each second, the oldest first.
    pub commits: Vec<u32>,
    /// Half of the commits took at most this long, in milliseconds; nothing where there were none.
    pub p50: Option<f64>,
    /// And 99 of 100.
    pub p99: Option<f64>,
}

impl Default for Recent {
    fn default() -> Recent {
        Recent { start: Instant::now(), seconds: Mutex::new(vec![Second::EMPTY; KEPT].into_boxed_slice()) }
    }
}

impl Recent {
    /// A commit took this long.
    pub fn note(&self, time: Duration) {
        self.note_at(self.start.elapsed().as_secs(), time);
    }

    fn note_at(&self, number: u64, time: Duration) {
        let mut seconds = locked(&self.seconds);
        let second = &mut seconds[number as usize % KEPT];
        if second.number != number {
            *second = Second { number, ..Second::EMPTY };
        }
        second.commits += 1;
        second.times[bucket(time)] += 1;
    }

    /// What the last five minutes were.
    pub fn summary(&self) -> Summary {
        self.summary_at(self.start.elapsed().as_secs())
    }

    fn summary_at(&self, now: u64) -> Summary {
        let seconds = locked(&self.seconds);
        let mut times = [0_u64; BUCKETS];
        let first = (now + 1).saturating_sub(KEPT as u64);
        let commits = (first..=now).map(|number| {
            let second = &seconds[number as usize % KEPT];
            if second.number != number {
                return 0;
            }
            times.iter_mut().zip(second.times).for_each(|(sum, count)| *sum += u64::from(count));
            second.commits
        });
        let commits = commits.collect();
        Summary { commits, p50: quantile(&times, 0.5), p99: quantile(&times, 0.99) }
    }
}

/// The power of two that the square isn't below: twice as many as those of the time itself.
fn bucket(time: Duration) -> usize {
    let micros = time.as_micros().clamp(1, 1 << (BUCKETS / 2)) as u64;
    ((micros * micros).ilog2() as usize).min(BUCKETS - 1)
}

/// The upper end, in milliseconds, of the times in which such a part of all is.
fn quantile(times: &[u64; BUCKETS], part: f64) -> Option<f64> {
    let all: u64 = times.iter().sum();
    let wanted = (all as f64 * part).ceil() as u64;
    let mut seen = 0;
    let place = times.iter().position(|count| {
        seen += count;
        *count > 0 && seen >= wanted
    })?;
    Some(2_f64.powf((place + 1) as f64 / 2.0) / 1000.0)
}

#[cfg(test)]
mod tests {
    use super::{bucket, Recent, BUCKETS, KEPT};
    use std::time::Duration;

    #[test]
    fn commits_are_counted_by_seconds() {
        let recent = Recent::default();
        (0..3).for_each(|_| recent.note_at(0, Duration::from_millis(1)));
        recent.note_at(2, Duration::from_millis(1));
        assert_eq!(recent.summary_at(3).commits, [3, 0, 1, 0]);
        let late = recent.summary_at(KEPT as u64);
        assert_eq!((late.commits.len(), late.commits[1], late.commits.iter().sum::<u32>()), (KEPT, 1, 1));
    }

    #[test]
    fn a_bucket_ends_at_the_next_power_of_the_square_root_of_two() {
        for (micros, place) in [(0, 0), (1, 0), (2, 2), (3, 3), (4, 4), (5, 4), (6, 5), (1_000, 19), (1_024, 20), (1_448, 20), (1_449, 21)] {
            assert_eq!(bucket(Duration::from_micros(micros)), place, "{micros}");
        }
        assert_eq!([1 << 28, u64::MAX].map(|micros| bucket(Duration::from_micros(micros))), [BUCKETS - 1; 2]);
    }

    #[test]
    fn times_are_near_what_they_were() {
        let recent = Recent::default();
        assert_eq!(recent.summary_at(0).p50, None);
        (0..98).for_each(|_| recent.note_at(0, Duration::from_millis(1)));
        (0..2).for_each(|_| recent.note_at(0, Duration::from_secs(1)));
        let summary = recent.summary_at(0);
        let (p50, p99) = (summary.p50.unwrap(), summary.p99.unwrap());
        assert!((0.7..1.5).contains(&p50) && (700.0..1500.0).contains(&p99), "{p50} {p99}");
    }
}

//! The comparison of two labels, timed.

use std::hint::black_box;
use std::time::Duration;

use host::entries;
use host::generate::long_labels::{Letters, LongLabels};

use crate::measure::{best_of_tries, best_times, Candidate, Rounds};

/// The most that two labels that differ in the first character may take, in times of two equal ones.
pub const MOST: f64 = 0.1;

/// Short batches, and many: on a busy machine some of them are not disturbed.
const ROUNDS: Rounds = Rounds {
    batch: Duration::from_micros(100),
    most: 300,
};

/// The best times in nanoseconds: of two equal labels, of two unequal ones, and of these the other way
/// round.
pub struct Times([f64; 3]);

impl Times {
    /// They are taken again where the ratio is over this.
    pub fn of(labels: &LongLabels, most: f64) -> Times {
        Times(best_of_tries(
            || times(labels),
            |times| Times(times).ratio() <= most,
        ))
    }

    pub fn shown(&self) -> [String; 3] {
        self.0.map(|time| format!("{time:.1}"))
    }

    /// What unequal labels take, in times of equal ones.
    pub fn ratio(&self) -> f64 {
        let [equal, unequal, turned] = self.0;
        unequal.max(turned) / equal
    }
}

fn times(labels: &LongLabels) -> [f64; 3] {
    let LongLabels {
        own,
        equal,
        unequal,
        ..
    } = labels;
    times_of([(own, equal), (own, unequal), (unequal, own)])
}

/// The best times of comparing each two labels.
fn times_of<const COUNT: usize>(pairs: [(&str, &str); COUNT]) -> [f64; COUNT] {
    let mut candidates = pairs.map(|(a, b)| {
        let [a, b] = [a, b].map(str::as_bytes);
        Some(Candidate::new(move || {
            entries::same_label(black_box(a), black_box(b))
        }))
    });
    best_times(&mut candidates, ROUNDS).map(|time| time.unwrap_or(f64::INFINITY))
}

/// The most that labels in Cyrillic letters may take, in times of Latin ones of as many characters.
pub const MOST_IN_CYRILLIC: f64 = 3.0;

/// The best times in nanoseconds of equal labels in letters of each kind.
pub struct TimesInLetters(pub [f64; 5]);

impl TimesInLetters {
    /// They are taken again where a ratio is too large.
    pub fn of(labels: &[Letters; 5]) -> TimesInLetters {
        let pairs = || std::array::from_fn(|at| (&*labels[at].one, &*labels[at].other));
        TimesInLetters(best_of_tries(
            || times_of(pairs()),
            |times| TimesInLetters(times).are_good(),
        ))
    }

    /// What Cyrillic letters take, in times of Latin ones: the same bytes, and in the other case.
    pub fn ratios(&self) -> [f64; 2] {
        let [latin, latin_case, cyrillic, cyrillic_case, _] = self.0;
        [cyrillic / latin, cyrillic_case / latin_case]
    }

    pub fn are_good(&self) -> bool {
        self.ratios().iter().all(|ratio| *ratio <= MOST_IN_CYRILLIC)
    }
}

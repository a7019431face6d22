//! The clock.

use std::hint::black_box;
use std::time::{Duration, Instant};

/// How things are timed.
#[derive(Clone, Copy)]
pub struct Rounds {
    /// A batch of calls lasts at least this long, so that the clock's own time does not count.
    pub batch: Duration,
    /// How many rounds there are; fewer, down to the least, once they have taken too long.
    pub most: usize,
}

const LEAST_ROUNDS: usize = 5;
const LONGEST: Duration = Duration::from_secs(3);
/// How often times are taken at most, and how long is waited before they are taken again.
const MOST_TRIES: usize = 64;
const PAUSE: Duration = Duration::from_millis(50);

/// Something to be timed: it makes so many calls.
pub struct Candidate<'c> {
    calls: Box<dyn FnMut(u32) + 'c>,
    batch: u32,
    best: f64,
}

impl<'c> Candidate<'c> {
    pub fn new<T>(mut call: impl FnMut() -> T + 'c) -> Candidate<'c> {
        let calls = move |count| {
            for _ in 0..count {
                black_box(call());
            }
        };
        Candidate {
            calls: Box::new(calls),
            batch: 1,
            best: f64::INFINITY,
        }
    }

    /// How long a batch takes.
    fn batch_time(&mut self) -> Duration {
        let start = Instant::now();
        (self.calls)(self.batch);
        start.elapsed()
    }

    /// Doubles the batch until it lasts long enough; this warms everything up too.
    fn settle_batch(&mut self, batch: Duration) {
        while self.batch_time() < batch {
            self.batch *= 2;
        }
    }

    fn round(&mut self) {
        let nanoseconds = self.batch_time().as_nanos() as f64 / f64::from(self.batch);
        self.best = self.best.min(nanoseconds);
    }
}

/// The best time of a call of each, in nanoseconds. Every round times all of them in turn, so that
/// what slows the machine for a while slows all alike.
pub fn best_times<const COUNT: usize>(
    candidates: &mut [Option<Candidate>; COUNT],
    rounds: Rounds,
) -> [Option<f64>; COUNT] {
    for candidate in candidates.iter_mut().flatten() {
        candidate.settle_batch(rounds.batch);
    }
    let start = Instant::now();
    for round in 0..rounds.most {
        if round >= LEAST_ROUNDS && start.elapsed() > LONGEST {
            break;
        }
        for candidate in candidates.iter_mut().flatten() {
            candidate.round();
        }
    }
    std::array::from_fn(|place| candidates[place].as_ref().map(|candidate| candidate.best))
}

/// The best times of a few tries: another one is made where they are not good, since a busy machine may
/// have slowed one of them alone.
pub fn best_of_tries<const COUNT: usize>(
    measure: impl Fn() -> [f64; COUNT],
    good: impl Fn([f64; COUNT]) -> bool,
) -> [f64; COUNT] {
    let mut best = [f64::INFINITY; COUNT];
    for _ in 0..MOST_TRIES {
        let times = measure();
        best = std::array::from_fn(|place| best[place].min(times[place]));
        if good(best) {
            break;
        }
        std::thread::sleep(PAUSE);
    }
    best
}

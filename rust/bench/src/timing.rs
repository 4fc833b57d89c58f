//! How a row is timed: both engines in turn, in the same run.

use std::time::{Duration, Instant};

/// How many rounds each engine gets; the least time of them counts.
const ROUNDS: usize = 15;
/// About how long a round takes.
const ROUND: Duration = Duration::from_millis(8);

/// The time of one call on each engine, in nanoseconds.
pub struct Row {
    pub proved: f64,
    pub second: f64,
}

impl Row {
    /// The proved engine's time over the second engine's.
    pub fn ratio(&self) -> f64 {
        self.proved / self.second
    }
}

/// Times two ways to make some calls, each of which tells how long its calls took and how many
/// they were; rounds of the one and of the other take turns.
pub fn row(mut proved: impl FnMut() -> (Duration, u32), mut second: impl FnMut() -> (Duration, u32)) -> Row {
    let mut least = Row {
        proved: f64::INFINITY,
        second: f64::INFINITY,
    };
    for _ in 0..ROUNDS {
        least.proved = least.proved.min(round(&mut proved));
        least.second = least.second.min(round(&mut second));
    }
    least
}

/// Nanoseconds for one call, on the average of one round.
fn round(calls: &mut impl FnMut() -> (Duration, u32)) -> f64 {
    let begin = Instant::now();
    let (mut time, mut count) = (Duration::ZERO, 0);
    while begin.elapsed() < ROUND {
        let (took, made) = calls();
        time += took;
        count += made;
    }
    time.as_nanos() as f64 / f64::from(count)
}

/// How long something takes.
pub fn timed<T>(work: impl FnOnce() -> T) -> (T, Duration) {
    let begin = Instant::now();
    let result = std::hint::black_box(work());
    (result, begin.elapsed())
}

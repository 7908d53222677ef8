//! Sides timed by turns, round after round in one run, so that what else the machine does falls on all of them.
use std::hint::black_box;
use std::time::{Duration, Instant};

/// How long a round of one side lasts, at least.
const ROUND: Duration = Duration::from_millis(20);
const ROUNDS: usize = 25;

/// Nanoseconds for a unit: of the best round, and the median of all rounds.
#[derive(Clone, Copy)]
pub struct Times {
    pub best: f64,
    pub median: f64,
}

/// One turn over the input; what it returns is the part of its time that is not to be counted.
pub type Side<'a> = &'a mut dyn FnMut() -> Duration;

/// A turn of which all the time counts.
pub fn whole<T>(mut work: impl FnMut() -> T) -> impl FnMut() -> Duration {
    move || {
        black_box(work());
        Duration::ZERO
    }
}

fn round(side: &mut Side, turns: u32) -> Duration {
    let began = Instant::now();
    let uncounted: Duration = (0..turns).map(|_| side()).sum();
    began.elapsed() - uncounted
}

/// So many turns that a round is long enough; the first turn warms the caches.
fn turns_for(side: &mut Side) -> u32 {
    side();
    let mut turns = 1;
    while round(side, turns) < ROUND {
        turns *= 2;
    }
    turns
}

/// Times the sides, each with what one turn of it has of units. The side that begins is another one in each round.
pub fn alternate<const N: usize>(units: usize, mut sides: [Side; N]) -> [Times; N] {
    let turns = sides.each_mut().map(turns_for);
    let mut found = [const { Vec::new() }; N];
    for n in 0..ROUNDS {
        for k in (0..N).map(|k| (n + k) % N) {
            let nanoseconds = round(&mut sides[k], turns[k]).as_nanos() as f64;
            found[k].push(nanoseconds / turns[k] as f64 / units as f64);
        }
    }
    found.map(|mut times: Vec<f64>| {
        times.sort_by(f64::total_cmp);
        Times { best: times[0], median: times[ROUNDS / 2] }
    })
}

// How the two sides of a row are measured: timed turn by turn, or their machine instructions counted.

use super::callgrind::Counter;
use super::figures::{Figures, Pair};
use std::time::{Duration, Instant};

pub const ROUNDS: usize = 21;
/// No further round begins after this time, so that a row whose calls take long does not take minutes.
pub const PATIENCE: Duration = Duration::from_secs(4);
/// A call that takes longer is not made: so many microseconds, or machine instructions, which take half a minute to count.
const LONGEST_TIME: f64 = 10_000_000.0;
const LONGEST_COUNT: f64 = 2_000_000_000.0;

pub enum Meter {
    Clock,
    Callgrind(Counter),
}

impl Meter {
    pub fn both(&mut self, other: impl FnMut(), desk: impl FnMut()) -> Figures {
        match self {
            Meter::Clock => Figures { times: Some(timed(other, desk)), counts: None },
            Meter::Callgrind(counter) => {
                let other = counter.count(other);
                Figures { times: None, counts: Some(Pair { other, desk: counter.count(desk) }) }
            }
        }
    }
}

/// Whether a call that takes so many times as long as the desk's call of a row is too long to be made.
pub fn too_long(row: &Figures, times: f64) -> bool {
    let beyond = |p: Option<Pair>, most: f64| p.is_some_and(|p| p.desk * times > most);
    beyond(row.times, LONGEST_TIME) || beyond(row.counts, LONGEST_COUNT)
}

/// Microseconds of one call, over as many calls as take about two milliseconds.
fn time(mut f: impl FnMut()) -> f64 {
    let began = Instant::now();
    f();
    let once = began.elapsed().as_secs_f64().max(1e-8);
    let calls = ((0.002 / once) as usize).clamp(1, 100_000);
    let began = Instant::now();
    for _ in 0..calls {
        f();
    }
    began.elapsed().as_secs_f64() * 1e6 / calls as f64
}

/// The least times of both sides, turn by turn: other work on the machine only makes a round longer.
fn timed(mut other: impl FnMut(), mut desk: impl FnMut()) -> Pair {
    let (mut least, began) = (Pair { other: f64::MAX, desk: f64::MAX }, Instant::now());
    for round in 0..ROUNDS {
        if round > 0 && began.elapsed() > PATIENCE {
            break;
        }
        least.other = time(&mut other).min(least.other);
        least.desk = time(&mut desk).min(least.desk);
    }
    least
}

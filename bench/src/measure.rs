//! Times of turns: ours and the peer's in alternation, many samples, medians.

use crate::rows::{Row, Side};

const SAMPLES: usize = 101;

/// A sample's turns take so many nanoseconds, or are so many: short, so that most samples are not
/// interrupted.
const SAMPLE: f64 = 3e5;
const TURNS: u32 = 2048;

/// The nanoseconds of a turn of ours and of a turn of the peer's.
pub fn turn(row: &Row) -> (f64, f64) {
    let (ours, peer) = (turns(&row.ours), turns(&row.peer));
    let samples = (0..SAMPLES).map(|_| (sample(&row.ours, ours), sample(&row.peer, peer)));
    let (ours, peer) = samples.unzip();
    (median(ours), median(peer))
}

/// How many turns make a sample.
fn turns(side: &Side) -> u32 {
    let mut times = 1;
    while times < TURNS && sample(side, times) * f64::from(times) < SAMPLE {
        times *= 2;
    }
    times
}

/// The time of one turn: that of the turns with all that is beside them, less the rest.
fn sample(side: &Side, times: u32) -> f64 {
    (nanoseconds(side, times, true) - nanoseconds(side, times, false)) / f64::from(times)
}

fn nanoseconds(side: &Side, times: u32, made: bool) -> f64 {
    (side.0)(times, made).as_nanos() as f64
}

pub fn median(mut samples: Vec<f64>) -> f64 {
    samples.sort_by(f64::total_cmp);
    samples[samples.len() / 2]
}

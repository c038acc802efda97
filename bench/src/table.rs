//! The tables, in Markdown.

use crate::counts::Counts;
use crate::rows::Row;

/// A row with the nanoseconds and, where valgrind is there, the instructions of a turn.
pub struct Measured<'a> {
    pub row: &'a Row,
    pub times: (f64, f64),
    pub counts: Option<Counts>,
}

impl Measured<'_> {
    fn ratio(&self) -> String {
        format!("{:.2}", self.times.0 / self.times.1)
    }

    /// Instructions of ours, of the peer's, and the ratio.
    fn counted(&self) -> String {
        self.counts.map_or("- | - | -".into(), |(ours, peer)| {
            format!("{} | {} | {:.2}", grouped(ours), grouped(peer), ours / peer)
        })
    }
}

pub fn calls(rows: &[Measured]) {
    println!("| | ours | peer | ours / peer | aim | instructions, ours | peer | ours / peer |");
    println!("|---|---|---|---|---|---|---|---|");
    for measured in rows {
        let Measured { row, times, .. } = measured;
        let aim = row.aim.map_or(String::new(), |aim| format!("{aim}"));
        let (ours, peer) = (time(times.0), time(times.1));
        let (ratio, counted) = (measured.ratio(), measured.counted());
        println!("| {} | {ours} | {peer} | {ratio} | {aim} | {counted} |", row.name);
    }
}

/// The steps of each kind; `copy` is the time of one copy of our machine.
pub fn steps(rows: &[Measured], copy: f64) {
    println!(
        "| | ours | in copies | peer | ours / peer | instructions, ours | peer | ours / peer |"
    );
    println!("|---|---|---|---|---|---|---|---|");
    for measured in rows {
        let Measured { row, times, .. } = measured;
        let copies = times.0 / copy;
        let (ours, peer) = (time(times.0), time(times.1));
        let (ratio, counted) = (measured.ratio(), measured.counted());
        println!("| {} | {ours} | {copies:.1} | {peer} | {ratio} | {counted} |", row.name);
    }
}

fn time(nanoseconds: f64) -> String {
    match nanoseconds {
        n if n < 1e3 => format!("{n:.0} ns"),
        n if n < 1e6 => format!("{:.2} µs", n / 1e3),
        n => format!("{:.2} ms", n / 1e6),
    }
}

/// A whole number with a comma at every third place.
fn grouped(number: f64) -> String {
    let digits = format!("{:.0}", number);
    let starts = (0..digits.len()).filter(|at| (digits.len() - at) % 3 == 0 && *at > 0);
    let mut grouped = digits.clone();
    for at in starts.collect::<Vec<_>>().into_iter().rev() {
        grouped.insert(at, ',');
    }
    grouped
}

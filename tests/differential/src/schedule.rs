//! Runs batches of all parts on two threads until the time is up, and in a long run each part
//! has made its least number.

use std::sync::atomic::{AtomicU64, Ordering};
use std::thread;
use std::time::{Duration, Instant};

use crate::calls::ENGINE;
use crate::parts::PARTS;
use crate::reached::Reached;

/// Threads over independent batches.
const THREADS: usize = 2;

/// What came of one part.
#[derive(Clone, Default)]
pub struct Report {
    /// What it reached.
    pub reached: Reached,
    /// Batches that ended.
    pub batches: u64,
    /// Time spent, over all threads.
    pub time: Duration,
    /// The differences met. A part is not gone on with after one.
    pub differences: Vec<String>,
}

/// A run of so many seconds, as the gate's is, is long.
pub const LONG: u64 = 60;

/// All parts for this long; a report of each.
pub fn run_all(seed: u64, time: Duration) -> Vec<Report> {
    let is_long = time >= Duration::from_secs(LONG);
    let next: Vec<AtomicU64> = PARTS.iter().map(|_| AtomicU64::new(0)).collect();
    let end = Instant::now() + time;
    let mut all = vec![Report::default(); PARTS.len()];
    thread::scope(|scope| {
        let threads: Vec<_> =
            (0..THREADS).map(|_| scope.spawn(|| work(seed, end, is_long, &next))).collect();
        for handle in threads {
            match handle.join() {
                Ok(reports) => {
                    all.iter_mut().zip(&reports).for_each(|(sum, report)| sum.add(report))
                }
                Err(_) => all[0].differences.push("a thread panicked".to_string()),
            }
        }
    });
    all
}

/// One thread: always the part that is furthest behind its share of the time; then, in a long
/// run, one that has not made its least number of batches.
fn work(seed: u64, end: Instant, is_long: bool, next: &[AtomicU64]) -> Vec<Report> {
    let mut reports = vec![Report::default(); PARTS.len()];
    loop {
        let now = Instant::now();
        let is_due = |&i: &usize| is_long && next[i].load(Ordering::Relaxed) < PARTS[i].least;
        let mut open = (0..PARTS.len()).filter(|&i| reports[i].differences.is_empty());
        let chosen = if now < end {
            open.min_by_key(|&i| reports[i].time.as_nanos() / u128::from(PARTS[i].share))
        } else {
            open.find(is_due)
        };
        let Some(i) = chosen else {
            return reports;
        };
        let number = next[i].fetch_add(1, Ordering::Relaxed);
        let report = &mut reports[i];
        match PARTS[i].run(seed, number, ENGINE, &mut report.reached) {
            Ok(()) => report.batches += 1,
            Err(difference) => report.differences.push(difference),
        }
        report.time += now.elapsed();
    }
}

impl Report {
    fn add(&mut self, other: &Report) {
        self.reached.add(&other.reached);
        self.batches += other.batches;
        self.time += other.time;
        self.differences.extend_from_slice(&other.differences);
    }
}

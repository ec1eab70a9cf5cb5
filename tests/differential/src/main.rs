//! The engine beside the model of documents 01 and 02: the C calls on lent bytes, `ringrun` and
//! `inspect`, on random and on hostile input, price cards, routes and office sheets among it. Every
//! returned number, every byte of record, cards and output, and the bytes around them are compared;
//! runs from fresh are held to demand 3 as well, and at rest to the ledger's rolls, those with cards
//! to what is claimed of cards, and a route to what its questions come to one by one.
//!
//! Usage, from the repository's folder: `differential SEED SECONDS`, or `differential SEED 0 PART
//! BATCH` to run one batch again.

#![deny(unsafe_code)]
#![warn(missing_docs)]

mod calls;
mod cards;
mod claims;
mod damaged;
mod driver;
mod engine;
mod enough;
mod expected;
mod faults;
mod filters;
mod form;
mod founded;
mod founding;
mod identifiers;
mod inspected;
mod inspections;
mod lengths;
mod lent;
mod odd_lines;
mod pair;
mod parts;
mod program;
mod reached;
mod ring;
mod rolls;
mod routes;
mod runs;
mod schedule;
mod scripts;
mod sheets;
mod states;
mod trail;
mod trouble;
mod unreachable;
mod wrong_claims;
mod wrong_foundings;
mod wrong_ranges;
mod wrong_steps;

use std::env;
use std::process::ExitCode;
use std::time::{Duration, Instant};

use crate::calls::ENGINE;
use crate::cards::counts::CardCounts;
use crate::enough::{reached_all, too_few};
use crate::parts::PARTS;
use crate::reached::Reached;
use crate::schedule::{run_all, Report, LONG};
use crate::sheets::counts::Sheets;

/// Tests that passed and failed.
#[derive(Default)]
struct Score {
    passed: u32,
    failed: u32,
}

impl Score {
    fn note(&mut self, passed: bool) {
        self.passed += u32::from(passed);
        self.failed += u32::from(!passed);
    }

    fn end(&self) -> ExitCode {
        println!("{} passed, {} failed", self.passed, self.failed);
        ExitCode::from(u8::from(self.failed > 0))
    }
}

fn main() -> ExitCode {
    let arguments: Vec<String> = env::args().skip(1).collect();
    let numbers: Vec<Option<u64>> = arguments.iter().map(|text| text.parse().ok()).collect();
    match numbers[..] {
        [Some(seed), Some(seconds)] => all(seed, seconds),
        [Some(seed), Some(_), None, Some(batch)] => one(seed, &arguments[2], batch),
        _ => usage(),
    }
}

/// Faults planted on purpose: each must be seen, or the parts that follow prove nothing.
fn planted(seed: u64, score: &mut Score) {
    let mut cases = wrong_claims::cases();
    cases.extend(cards::wrong_claims::cases());
    cases.extend(rolls::wrong_claims::cases());
    cases.extend(faults::faults().iter().map(|fault| (fault.name, fault.is_seen(seed))));
    cases.extend(faults::wrappings_pass(seed));
    println!("{} planted faults", cases.len());
    for (name, seen) in cases {
        if !seen {
            println!("FAILED: a planted fault was not seen: {name}");
        }
        score.note(seen);
    }
}

/// The planted faults, all parts, then what they reached.
fn all(seed: u64, seconds: u64) -> ExitCode {
    let mut score = Score::default();
    println!("seed {seed}, {seconds} seconds");
    planted(seed, &mut score);
    let start = Instant::now();
    let reports = run_all(seed, Duration::from_secs(seconds));
    let took = start.elapsed().as_secs_f64();
    let mut sum = Reached::default();
    for (part, report) in PARTS.iter().zip(&reports) {
        sum.add(&report.reached);
        println!("{}", line(part.name, report));
        for difference in &report.differences {
            println!("{difference}");
        }
        // A part that made no batch has shown nothing.
        score.note(report.differences.is_empty() && report.batches > 0);
    }
    println!(
        "in all: {} calls, {:.0} a second, {} lines, {} calls with cards, {} routes, and {} texts",
        sum.calls,
        sum.calls as f64 / took,
        sum.lines,
        sum.cards.calls,
        sum.routes.calls,
        sum.sheets.texts
    );
    print!("reached:\n{}", sum.table());
    match too_few(&sum) {
        Some(what) if seconds < LONG => println!("skipped: whether all was reached, since {what}"),
        _ => score.note(reached_all(&sum)),
    }
    score.end()
}

/// One part's line.
fn line(name: &str, report: &Report) -> String {
    let Report { reached, batches, time, .. } = report;
    let CardCounts { calls: with_cards, tried: tried_with_cards, .. } = reached.cards;
    let calls = reached.calls + with_cards + reached.routes.calls;
    let tried = reached.tried + tried_with_cards;
    let lines = reached.lines;
    let Sheets { texts, lists, .. } = reached.sheets;
    let rate = (calls + lines + texts + lists) as f64 / time.as_secs_f64().max(0.001);
    let counts = match (tried, lines, texts) {
        (0, 0, 0) => format!("{calls} calls"),
        (_, 0, 0) => format!("{calls} calls, {tried} deliveries tried on copies"),
        (_, _, 0) => format!("{lines} lines"),
        _ => format!("{texts} texts read, {lists} lists written"),
    };
    format!("{name}: {batches} batches, {counts}; {rate:.0} a second and thread")
}

/// One batch again.
fn one(seed: u64, name: &str, batch: u64) -> ExitCode {
    let mut score = Score::default();
    let Some(part) = PARTS.iter().find(|part| part.name == name) else {
        return usage();
    };
    let result = part.run(seed, batch, ENGINE, &mut Reached::default());
    if let Err(difference) = &result {
        println!("{difference}");
    }
    score.note(result.is_ok());
    score.end()
}

fn usage() -> ExitCode {
    eprintln!("usage: differential SEED SECONDS [PART BATCH]");
    ExitCode::from(2)
}

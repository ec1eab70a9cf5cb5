//! Measures the engine against the models, and the sheet against the `csv`
//! crate, prints the tables, and writes them with a plot: `bench/run`, or
//! `bench/run --quick` for a short try.

mod cards;
mod cases;
mod contestants;
mod frames;
mod kept;
mod measure;
mod moving;
mod plot;
mod programs;
mod ratios;
mod records;
mod report;
mod routes;
mod sheet;
mod turns;

use std::{env, fs, io, process};

use cases::{case, Kind, KINDS};
use measure::{measure, Figures};
use plot::Panel;

/// How much is measured, and where it is written.
struct Effort {
    rounds: usize,
    frames: usize,
    runs: usize,
    card_rounds: usize,
    sheet_rounds: usize,
    folder: &'static str,
}

/// What the documents show.
const FULL: Effort = Effort {
    rounds: 600,
    frames: 100_000,
    runs: 45,
    card_rounds: 240,
    sheet_rounds: 180,
    folder: "docs",
};
/// A try that everything runs; it leaves the documents as they are.
const QUICK: Effort = Effort {
    rounds: 12,
    frames: 20_000,
    runs: 3,
    card_rounds: 6,
    sheet_rounds: 6,
    folder: "target/bench",
};

fn main() -> io::Result<()> {
    let arguments: Vec<String> = env::args().skip(1).collect();
    let effort = match arguments.iter().map(String::as_str).collect::<Vec<_>>()[..] {
        [] => FULL,
        ["--quick"] => QUICK,
        _ => {
            eprintln!("usage: bench/run [--quick]");
            process::exit(2);
        }
    };
    let table = points(effort.rounds);
    let routes = routes::measure(effort.rounds);
    let programs = programs::measure(effort.frames, effort.runs)?;
    let cards = cards::measure(effort.card_rounds);
    let sheets = sheet::measure(effort.sheet_rounds);
    let document = format!("{}/BENCH.md", effort.folder);
    let older = fs::read_to_string(&document).unwrap_or_default();
    let text = report::text(&table, &routes, &programs, &cards, &sheets, &older);
    print!("{text}");
    let panels = sweeps(effort.rounds);
    fs::write(document, text)?;
    fs::write(format!("{}/bench.svg", effort.folder), plot::svg(&panels))
}

/// Every kind of call at every point of the table.
fn points(rounds: usize) -> Vec<Figures> {
    let mut cases = Vec::new();
    for kind in KINDS {
        for n in [1, 16, 64] {
            for m in [0, 64, 256] {
                cases.extend(case(kind, n, m));
            }
        }
    }
    measure(cases.into_iter(), rounds)
}

/// The plot: cost against n with no message, cost against m with 16 hubs.
fn sweeps(rounds: usize) -> [Panel; 4] {
    let hubs = |kind| {
        let points = [1, 2, 4, 8, 16, 32, 64].map(|n| (n, 0));
        Panel::new(
            kind,
            "hubs n (no message)",
            |c| c.n,
            run(kind, &points, rounds),
        )
    };
    let messages = |kind| {
        let points = [0, 32, 64, 96, 128, 160, 192, 224, 256].map(|m| (16, m));
        Panel::new(
            kind,
            "messages m (16 hubs)",
            |c| c.m as u32,
            run(kind, &points, rounds),
        )
    };
    [
        hubs(Kind::AskAnswered),
        messages(Kind::AskAnswered),
        hubs(Kind::Owner),
        messages(Kind::DeliverFirst),
    ]
}

fn run(kind: Kind, points: &[(u32, usize)], rounds: usize) -> Vec<Figures> {
    let cases = points.iter().filter_map(|&(n, m)| case(kind, n, m));
    measure(cases, rounds)
}

//! The document: what is measured, the tables, and what they do not hide.

use std::fmt::Write;
use std::{env, fs};

use crate::contestants::{BY_RANGES, CONTESTANTS, COUNT, IN_PLACE, PLAIN, PLAIN_ONE};
use crate::kept::marked;
use crate::measure::Figures;
use crate::programs::{Programs, PROGRAMS};
use crate::ratios::{span, summary, within, RATIOS};
use crate::{cards, routes, sheet};

/// The whole document. What an older one has in its marked part stays.
pub fn text(
    table: &[Figures],
    routes: &[routes::Figures],
    programs: &Programs,
    cards: &[cards::Figures],
    sheets: &[sheet::Figures],
    older: &str,
) -> String {
    let mut text = String::from(HEAD);
    let _ = writeln!(text, "Measured on: {}{}.\n", processor(), tools());
    text += &summary(table);
    text += &reading(table);
    text += METHOD;
    text += &calls(table);
    text += &routes::section(routes);
    text += &ringrun(programs);
    text += &cards::section(cards);
    text += &sheet::section(sheets);
    let _ = write!(text, "\n## The proofs\n\n{}\n", marked(older));
    text
}

const HEAD: &str = "# Benchmarks

Written by `bench/run`, all but the last part (`bench/run --quick` is a short try that leaves this file as it is). Release builds for plain
x86-64. All contestants do the same: `bench/test` and `bench/run` compare them.

- **engine**: `target/staticlib/libring_c.a`, the verified engine.
- **plain**: `tests/model`, a model written to be read beside document 01, as its own release profile builds it (cargo's default).
- **plain, one unit**: the same source, compiled as one unit (`codegen-units = 1`), as the three below are.
- **tuned**: `bench/tuned`, a model written to be fast, without anything out of the ordinary: words carried over into an array, stepped,
  carried back; rows and messages tested field by field, failures merged by `|`, so that the compiler may test several words at a time.
- **by ranges**: the same, but rows and messages tested by tables of ranges, laid out by hand for the machine's registers.
- **in place**: by ranges, on the bytes where they lie; only what changes is written.

";

const METHOD: &str = "## The calls

Each figure is the time of one call through the calls for C, in nanoseconds, best / median of many rounds in which the contestants take turns
on the same memory: three copies of the record, restored outside the timed section, at another place in each round. What a call that does
nothing takes is subtracted. Before a call is measured, all contestants' return, output and record are compared. A ratio is the median of the
rounds' ratios; `(!)` marks where it misses its target. The machine has other work: medians are those of the quieter half of the rounds, in
which all contestants together took least. From build to build the place that the linker gives to the code alone moves some figures by about
a tenth, so a point near its target may change sides.

All hubs are inside; the records are reached from a fresh ring by calls, except messages of a lone hub (n = 1), which are made by hand. The
two calls refused with 2 get a record with one wrong word: the state of the first row, which an early test meets, and the hops of the last
message (m = 0: the oldpred of the last row), which no test meets early. Hubs stand clockwise in the order of their numbers, and a call asks the
same each time; but in the last ten lines hubs stand in any order, and each call asks for another number or calls the roll from another hub, so that
a branch on the numbers cannot be foretold.

![cost against hubs and messages](bench.svg)

";

/// What the ratios do not say by themselves.
fn reading(table: &[Figures]) -> String {
    let (least, most) = span(
        table
            .iter()
            .map(|f| f.times[PLAIN].median / f.times[PLAIN_ONE].median),
    );
    let halves = within(table, PLAIN_ONE, 0.5);
    let all = table.len();
    let faster = |other: usize| {
        let (_, most) = span(table.iter().map(|f| f.times[other].engine));
        let points = all - within(table, other, 1.0);
        format!(
            "at {points} of {all} points (there the engine takes up to {most:.2} times as long)"
        )
    };
    format!(
        "How to read this:\n\n\
         - Plain is measured as its own profile builds it. Compiled as one unit it is {least:.1} to {most:.1} times as fast, and the engine\n  \
         takes at most half of that time at {halves} of {all} points. That column has no target, but stands there so that nobody is misled.\n\
         - By ranges is faster than the engine {},\n  in place {}.\n\
         - The calls for C carry bytes over into words and back, because document 01's forms hand out and lend parts of a slice of words; tuned does\n  \
         the same. By ranges shows what a layout by hand brings, in place what carrying costs.\n\n",
        faster(BY_RANGES),
        faster(IN_PLACE)
    )
}

/// The processor's name, as the system tells it.
fn processor() -> String {
    let told = fs::read_to_string("/proc/cpuinfo").unwrap_or_default();
    let line = told.lines().find(|line| line.starts_with("model name"));
    let name = line.and_then(|line| line.split(": ").nth(1));
    name.unwrap_or("unknown processor").to_string()
}

/// The compilers, where `bench/run` names them.
fn tools() -> String {
    env::var("BENCH_TOOLS").map_or(String::new(), |tools| format!(", {tools}"))
}

/// One line for each call and point.
fn calls(table: &[Figures]) -> String {
    let names = CONTESTANTS.each_ref().map(|contestant| contestant.name);
    let ratios = RATIOS.each_ref().map(|ratio| ratio.name);
    let (names, ratios) = (names.join(" | "), ratios.join(" | "));
    let mut text = format!("| call | n | m | {names} | {ratios} |\n");
    text += &"|---".repeat(3);
    text += &"|---:".repeat(COUNT + RATIOS.len());
    text += "|\n";
    for figures in table {
        let case = &figures.case;
        let _ = write!(text, "| {} | {} | {} |", case.kind.name(), case.n, case.m);
        for time in figures.times {
            let _ = write!(text, " {:.0} / {:.0} |", time.best, time.median);
        }
        for ratio in &RATIOS {
            let _ = write!(text, " {} |", ratio.marked(&figures.times));
        }
        text.push('\n');
    }
    text
}

/// The programs, in frames a second.
fn ringrun(programs: &Programs) -> String {
    let mut text = format!(
        "\n## ringrun\n\nA file of {} frames, sixteen hubs, all accepted; output to nowhere, the program's start included.\n\n\
         | program | frames a second, best | median | best time as a part of plain's |\n|---|---:|---:|---:|\n",
        programs.frames
    );
    let (plain, _) = programs.rates[1];
    for ((name, _), (best, median)) in PROGRAMS.iter().zip(programs.rates) {
        let part = plain / best;
        let _ = writeln!(text, "| {name} | {best:.0} | {median:.0} | {part:.2} |");
    }
    text
}

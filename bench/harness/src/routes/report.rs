//! The document's part about routes.

use std::fmt::Write;

use super::contestants::{CONTESTANTS, ENGINE, ONE_BY_ONE};
use super::Figures;
use crate::ratios::{marked, RATIOS};

/// The most that a route should take of the time of its questions one by one.
const TARGET: f64 = 0.1;
/// The hubs at which that is asked.
const AIMED: u32 = 64;

const HEAD: &str = "
## A route

`ring_route` for 64 numbers at one hub, with all hubs inside and no message waiting before. Beside it stands the engine's `ring_step` for each
of the numbers in turn (one by one), which leaves the same record and the same outcomes. All go through the calls for C, on the same memory: one
copy of the record, restored outside the timed section, at another place in each round. Before a route is measured, all contestants' return,
record and outcomes are compared. Figures are nanoseconds of all 64 questions, best / median; rounds, ratios and `(!)` are as above.

The numbers are all the hub's own, or all other hubs', or either, and then each call asks for another list. With 64 hubs the call should take at
most a tenth of the time that the steps take.

";

const MODELS: &str = "
The models' routes test the record once, as the engine's does, and then ask one number after the other. The tuned ones read the hub's row once.

";

/// The whole part.
pub fn section(table: &[Figures]) -> String {
    let mut text = format!(
        "{HEAD}| numbers | n | in one call | one by one | in one call/one by one | target |\n|---|---|---:|---:|---:|---|\n"
    );
    for figures in table {
        let _ = writeln!(text, "{}", figures.beside_steps());
    }
    text + &beside_models(table)
}

/// One line for each case.
fn beside_models(table: &[Figures]) -> String {
    let others = &CONTESTANTS[..ONE_BY_ONE];
    let names: Vec<&str> = others.iter().map(|contestant| contestant.name).collect();
    let ratios = RATIOS.each_ref().map(|ratio| ratio.name);
    let mut text = format!(
        "{MODELS}| numbers | n | {} | {} |\n{}{}|\n",
        names.join(" | "),
        ratios.join(" | "),
        "|---".repeat(2),
        "|---:".repeat(names.len() + ratios.len())
    );
    for figures in table {
        let _ = writeln!(text, "{}", figures.beside_models());
    }
    text
}

impl Figures {
    /// Best and median of one contestant.
    fn time(&self, who: usize) -> String {
        let time = self.times[who];
        format!("{:.0} / {:.0}", time.best, time.median)
    }

    fn beside_steps(&self) -> String {
        let target = (self.case.n == AIMED).then_some(TARGET);
        format!(
            "| {} | {} | {} | {} | {} | {} |",
            self.case.kind.name(),
            self.case.n,
            self.time(ENGINE),
            self.time(ONE_BY_ONE),
            marked(self.times[ONE_BY_ONE].engine, target),
            target.map_or("none".to_string(), |target| format!("at most {target:.1}"))
        )
    }

    fn beside_models(&self) -> String {
        let mut line = format!("| {} | {} |", self.case.kind.name(), self.case.n);
        for who in 0..ONE_BY_ONE {
            let _ = write!(line, " {} |", self.time(who));
        }
        for ratio in &RATIOS {
            let _ = write!(line, " {} |", ratio.marked(&self.times));
        }
        line
    }
}

#[cfg(test)]
mod tests {
    use super::super::cases::all;
    use super::super::contestants::{COUNT, ONE_BY_ONE};
    use super::super::Figures;
    use super::section;
    use crate::turns::Time;

    /// Each case with the same figures: a route takes this part of the time one by one.
    fn table(part: f64) -> Vec<Figures> {
        let time = |median, engine| Time {
            best: 900.0,
            median,
            engine,
        };
        let mut times = [time(1000.0, 0.4); COUNT];
        times[ONE_BY_ONE] = time(1000.0 / part, part);
        let figures = |case| Figures { case, times };
        all().into_iter().map(figures).collect()
    }

    /// Of these lines, how many there are.
    fn lines(text: &str, end: &str) -> usize {
        text.lines().filter(|line| line.ends_with(end)).count()
    }

    #[test]
    fn a_tenth_is_the_target_of_full_rings_alone() {
        let text = section(&table(0.1));
        let line = "| all sent on | 64 | 900 / 1000 | 900 / 10000 | 0.10 | at most 0.1 |\n";
        assert!(text.contains(line), "{text}");
        assert_eq!(lines(&text, "| 0.10 | at most 0.1 |"), 3);
        assert_eq!(lines(&text, "| 0.10 | none |"), 3);
        let text = section(&table(0.101));
        assert_eq!(lines(&text, "| 0.101 (!) | at most 0.1 |"), 3);
        assert_eq!(lines(&text, "| 0.10 | none |"), 3);
    }

    #[test]
    fn the_models_stand_beside_it_with_their_ratios() {
        let text = section(&table(0.05));
        let times = " 900 / 1000 |".repeat(ONE_BY_ONE);
        let line =
            format!("| either, in any order | 16 |{times} 0.40 | 0.40 | 0.40 | 0.40 | 0.40 |\n");
        assert!(text.ends_with(&line), "{text}");
        assert!(text.contains("| by ranges | in place | engine/plain | engine/tuned |"));
    }
}

//! The document's part about the cards.

use std::fmt::Write;

use super::cases::Kind;
use super::contestants::{CONTESTANTS, COUNT, IN_PLACE, PLAIN, TUNED, WITHOUT};
use super::{growth, Figures};
use crate::ratios::{kept, marked, span};

const HEAD: &str = "
## The cards

`ring_step_cards` and `ring_offer` beside the models, all through the calls for C, on the same memory: a record and its card slice,
restored outside the timed section, at another place in each round. Before a call is measured, all contestants' return, output, record and
cards are compared. Figures are nanoseconds of one call, best / median; rounds, ratios and `(!)` are as above.

- **tuned**, **in place**: `bench/tuned` once more. It never compares cards in pairs: which machines stand twice is seen by places in a table,
  and sorting where too many meet at one; who owns a machine by what each member owns. The members' order is taken from the record's own
  pointers, if the stretches between them add up to one circle, and is sorted for otherwise.
- **engine, no cards**: the engine's `ring_step` with the same command on the same record; beside an offer, its `ring_owner` for the machine.

Machines are spread over all 32 bits; or chosen against the engine's hash table, which gives up where six are in one bucket: all in one bucket,
or five in each and at last a sixth in one (full buckets).

";

/// The engine against one other where cards are lent.
struct Ratio {
    name: &'static str,
    other: usize,
    target: Option<f64>,
    /// Of which figures the target is.
    of: fn(&Figures) -> bool,
}

/// All of them, in the order of the table.
const RATIOS: [Ratio; 4] = [
    Ratio::new("engine/plain", PLAIN, Some(0.5), |_| true),
    Ratio::new("engine/tuned", TUNED, Some(1.0), |_| true),
    Ratio::new("engine/in place", IN_PLACE, None, |_| true),
    Ratio::new("with/no cards", WITHOUT, Some(10.0), full),
];

/// A step with 64 hubs and 512 cards.
fn full(figures: &Figures) -> bool {
    let case = &figures.case;
    matches!(case.kind, Kind::Step(_)) && case.n == 64 && case.cards == 512
}

impl Ratio {
    const fn new(
        name: &'static str,
        other: usize,
        target: Option<f64>,
        of: fn(&Figures) -> bool,
    ) -> Ratio {
        Ratio {
            name,
            other,
            target,
            of,
        }
    }

    /// At one line.
    fn marked(&self, figures: &Figures) -> String {
        let target = self.target.filter(|_| (self.of)(figures));
        marked(figures.times[self.other].engine, target)
    }

    fn summary(&self, table: &[Figures]) -> String {
        let parts = || {
            let own = table.iter().filter(|figures| (self.of)(figures));
            own.map(|figures| figures.times[self.other].engine)
        };
        let (target, kept) = match self.target {
            Some(target) => (
                format!("at most {target:.1}"),
                format!(
                    "{} of {}",
                    kept(parts().map(|part| (part, target))),
                    parts().count()
                ),
            ),
            None => ("none, for comparison".to_string(), "-".to_string()),
        };
        let (least, most) = span(parts());
        format!(
            "| {} | {target} | {kept} | {least:.2} | {most:.2} |",
            self.name
        )
    }
}

/// The whole part.
pub fn section(table: &[Figures]) -> String {
    let mut text = format!(
        "{HEAD}Over all lines of the table below; with/no cards over the steps with 64 hubs and 512 cards, to which its target belongs:\n\n\
         | ratio | target | lines that keep it | least | most |\n|---|---|---|---:|---:|\n"
    );
    for ratio in &RATIOS {
        let _ = writeln!(text, "{}", ratio.summary(table));
    }
    text + &growth::table(table) + &calls(table)
}

/// One line for each call.
fn calls(table: &[Figures]) -> String {
    let names = CONTESTANTS.each_ref().map(|contestant| contestant.name);
    let ratios = RATIOS.each_ref().map(|ratio| ratio.name);
    let mut text = format!(
        "\n| call | n | cards | machines | {} | {} |\n{}{}|\n",
        names.join(" | "),
        ratios.join(" | "),
        "|---".repeat(4),
        "|---:".repeat(COUNT + RATIOS.len())
    );
    for figures in table {
        let _ = writeln!(text, "{}", figures.line());
    }
    text
}

impl Figures {
    fn line(&self) -> String {
        let case = &self.case;
        let machines = if case.cards == 0 {
            "-"
        } else {
            case.machines.name()
        };
        let mut line = format!(
            "| {} | {} | {} | {machines} |",
            case.kind.name(),
            case.n,
            case.cards
        );
        for time in self.times {
            let _ = write!(line, " {:.0} / {:.0} |", time.best, time.median);
        }
        for ratio in &RATIOS {
            let _ = write!(line, " {} |", ratio.marked(self));
        }
        line
    }
}

#[cfg(test)]
mod tests {
    use super::super::cases::all;
    use super::super::contestants::COUNT;
    use super::super::Figures;
    use super::section;
    use crate::turns::Time;

    /// Each case with figures of its own: a nanosecond for each card; the engine
    /// takes so many times what it does without cards.
    fn table(times_more: f64) -> Vec<Figures> {
        let figures = |case: super::super::Case| {
            let time = |engine| Time {
                best: case.cards as f64,
                median: 100.0 + case.cards as f64,
                engine,
            };
            let mut times = [time(0.4); COUNT];
            times[5] = time(times_more);
            Figures { case, times }
        };
        all().into_iter().map(figures).collect()
    }

    #[test]
    fn the_target_without_cards_is_that_of_full_steps_alone() {
        for (times_more, kept, missed) in [(10.0, "5 of 5", 0), (10.5, "0 of 5", 5)] {
            let text = section(&table(times_more));
            let line = format!("| with/no cards | at most 10.0 | {kept} | ");
            assert!(text.contains(&line), "{text}");
            let marked = text.lines().filter(|line| line.ends_with(" 10.500 (!) |"));
            assert_eq!(marked.count(), missed);
        }
    }

    #[test]
    fn growth_has_a_line_for_each_ring_and_kind_of_machines() {
        let text = section(&table(2.0));
        let line = "| one bucket | 100 / 356 / 612 | 1.00 | 100 / 356 / 612 | 1.00 |";
        assert_eq!(text.matches(line).count(), 3);
    }
}

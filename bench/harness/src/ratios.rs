//! The engine's time as a part of the others', with its targets.

use std::fmt::Write;

use crate::contestants::{BY_RANGES, IN_PLACE, PLAIN, PLAIN_ONE, TUNED};
use crate::measure::Figures;
use crate::turns::Time;

/// The engine against one other.
pub struct Ratio {
    pub name: &'static str,
    other: usize,
    /// The most that it should be; some stand there for comparison only.
    target: Option<f64>,
}

/// All of them, in the order of the table.
pub const RATIOS: [Ratio; 5] = [
    Ratio::new("engine/plain", PLAIN, Some(0.5)),
    Ratio::new("engine/tuned", TUNED, Some(1.0)),
    Ratio::new("engine/one unit", PLAIN_ONE, None),
    Ratio::new("engine/by ranges", BY_RANGES, None),
    Ratio::new("engine/in place", IN_PLACE, None),
];

impl Ratio {
    const fn new(name: &'static str, other: usize, target: Option<f64>) -> Ratio {
        Ratio {
            name,
            other,
            target,
        }
    }

    /// At one point, by its times.
    pub fn marked(&self, times: &[Time]) -> String {
        marked(times[self.other].engine, self.target)
    }

    fn summary(&self, table: &[Figures]) -> String {
        let (target, kept) = match self.target {
            Some(target) => (
                format!("at most {target:.1}"),
                format!("{} of {}", within(table, self.other, target), table.len()),
            ),
            None => ("none, for comparison".to_string(), "-".to_string()),
        };
        let (least, most) = span(table.iter().map(|f| f.times[self.other].engine));
        let name = self.name;
        format!("| {name} | {target} | {kept} | {least:.2} | {most:.2} |")
    }
}

/// A ratio, with a mark where it misses its target; one digit more shows a
/// miss that rounding would hide.
pub fn marked(part: f64, target: Option<f64>) -> String {
    let missed = target.is_some_and(|target| part > target);
    if missed {
        format!("{part:.3} (!)")
    } else {
        format!("{part:.2}")
    }
}

/// How many of these ratios keep their target.
pub fn kept(ratios: impl Iterator<Item = (f64, f64)>) -> usize {
    ratios.filter(|(part, target)| part <= target).count()
}

/// How many points keep each target, and the span of each ratio.
pub fn summary(table: &[Figures]) -> String {
    let mut text = format!(
        "Over all {} points of the table below, every call counted, the refused ones too:\n\n\
         | ratio | target | points that keep it | least | most |\n|---|---|---|---:|---:|\n",
        table.len()
    );
    for ratio in RATIOS {
        let _ = writeln!(text, "{}", ratio.summary(table));
    }
    text + "\n"
}

/// At how many points the engine takes at most this part of another's time.
pub fn within(table: &[Figures], other: usize, most: f64) -> usize {
    kept(table.iter().map(|f| (f.times[other].engine, most)))
}

/// The least and the most of these numbers.
pub fn span(numbers: impl Iterator<Item = f64>) -> (f64, f64) {
    numbers.fold((f64::INFINITY, 0.0), |(least, most), number| {
        (number.min(least), number.max(most))
    })
}

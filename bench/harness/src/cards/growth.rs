//! How the time of a step grows with the number of cards.

use std::fmt::Write;

use super::books::Machines;
use super::cases::{Kind, HUBS, MACHINES};
use super::contestants::{CONTESTANTS, ENGINE, TUNED};
use super::rings::Step;
use super::Figures;
use crate::ratios::marked;

/// The most that the second half of the cards should take, as a part of the
/// first: 1 where the time is linear in the cards, 3 where it is quadratic.
const TARGET: f64 = 1.5;

const HEAD: &str = "
How the time of the ask grows: what the second 256 cards add to the median, as a part of what the first 256 add. It is 1 where the time is
linear in the cards, 3 where it is quadratic, and below 1 where some card makes the call begin anew in another way.

";

/// The table of it.
pub fn table(figures: &[Figures]) -> String {
    let mut text = format!("{HEAD}| n | machines |");
    for who in [ENGINE, TUNED] {
        let name = CONTESTANTS[who].name;
        let _ = write!(text, " {name}, 0 / 256 / 512 cards | second/first |");
    }
    text += "\n|---|---|---:|---:|---:|---:|\n";
    for n in HUBS {
        for machines in MACHINES {
            let _ = write!(text, "| {n} | {} |", machines.name());
            for (who, target) in [(ENGINE, Some(TARGET)), (TUNED, None)] {
                let at = [0, 256, 512].map(|cards| median(figures, who, n, machines, cards));
                let [none, half, all] = at;
                let _ = write!(text, " {none:.0} / {half:.0} / {all:.0} |");
                let _ = write!(text, " {} |", marked(growth(at), target));
            }
            text.push('\n');
        }
    }
    text
}

/// What the second half adds, as a part of what the first adds.
fn growth([none, half, all]: [f64; 3]) -> f64 {
    (all - half) / (half - none)
}

/// The median of an ask. With no card, the machines are of neither kind.
fn median(figures: &[Figures], who: usize, n: u32, machines: Machines, cards: usize) -> f64 {
    let asked = figures.iter().find(|figures| {
        let case = &figures.case;
        let here = case.kind == Kind::Step(Step::Found) && case.n == n && case.cards == cards;
        here && (cards == 0 || case.machines == machines)
    });
    asked.map_or(f64::NAN, |figures| figures.times[who].median)
}

#[cfg(test)]
mod tests {
    use super::growth;

    #[test]
    fn linear_is_one_and_quadratic_is_three() {
        assert_eq!(growth([100.0, 150.0, 200.0]), 1.0);
        let quadratic = [0.0, 256.0, 512.0].map(|cards: f64| 70.0 + cards * cards);
        assert_eq!(growth(quadratic), 3.0);
    }
}

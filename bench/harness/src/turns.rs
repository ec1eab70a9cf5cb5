//! Rounds in which the contestants take turns, and what their times say.
//!
//! The machine may have other work. So all cases are measured in several
//! passes, and of a case's rounds only the quieter half counts: those in which
//! all contestants together took least.

use crate::contestants::ENGINE;

/// How often all cases take their turn.
const PASSES: usize = 6;

/// Nanoseconds for one call, and the engine's time as a part of it.
#[derive(Clone, Copy, Debug, PartialEq)]
pub struct Time {
    pub best: f64,
    pub median: f64,
    /// The median of the rounds' ratios: a machine that is slow for a while
    /// is so for all turns of a round.
    pub engine: f64,
}

/// What was found so far of one case, by contestant.
pub struct Rounds<const COUNT: usize> {
    best: [f64; COUNT],
    /// One median a round.
    medians: Vec<[f64; COUNT]>,
}

impl<const COUNT: usize> Rounds<COUNT> {
    pub fn new() -> Rounds<COUNT> {
        Rounds {
            best: [f64::INFINITY; COUNT],
            medians: Vec::new(),
        }
    }

    /// How many there were.
    pub fn count(&self) -> usize {
        self.medians.len()
    }

    /// One turn of each contestant: the times that it took.
    pub fn round<const TIMES: usize>(&mut self, mut turn: impl FnMut(usize) -> [f64; TIMES]) {
        let round = self.count();
        let mut medians = [0.0; COUNT];
        for place in 0..COUNT {
            // Forwards and backwards: nobody comes always behind the same other.
            let stride = [1, COUNT - 1][round / COUNT % 2];
            let who = (round + place * stride) % COUNT;
            let mut times = turn(who);
            medians[who] = median(&mut times);
            self.best[who] = self.best[who].min(times[0]);
        }
        self.medians.push(medians);
    }

    pub fn times(mut self) -> [Time; COUNT] {
        let together = |round: &[f64; COUNT]| round.iter().sum::<f64>();
        self.medians
            .sort_by(|one, other| together(one).total_cmp(&together(other)));
        let quieter = &self.medians[..self.medians.len().div_ceil(2)];
        let over = |figure: &dyn Fn(&[f64; COUNT]) -> f64| {
            median(&mut quieter.iter().map(figure).collect::<Vec<_>>())
        };
        std::array::from_fn(|who| Time {
            best: self.best[who],
            median: over(&|round| round[who]),
            engine: over(&|round| round[ENGINE] / round[who]),
        })
    }
}

/// Memory that all contestants of a case work on.
pub trait Room<Case> {
    fn new(case: &Case) -> Self;

    /// It lies elsewhere in each round.
    fn move_on(&mut self, round: usize);

    /// Nanoseconds of one timed section of a contestant, or of a call that
    /// does nothing.
    fn section(&mut self, who: Option<usize>, case: &Case) -> f64;
}

/// One turn: the times of its sections; one more before them is not counted.
fn turn<Case, const SECTIONS: usize>(
    room: &mut impl Room<Case>,
    who: Option<usize>,
    case: &Case,
) -> [f64; SECTIONS] {
    room.section(who, case);
    [(); SECTIONS].map(|()| room.section(who, case))
}

/// The times of all contestants on these cases. What a call that does nothing
/// takes is subtracted.
pub fn measured<R: Room<Case>, Case, const COUNT: usize, const SECTIONS: usize>(
    cases: impl IntoIterator<Item = Case>,
    rounds: usize,
) -> Vec<(Case, [Time; COUNT])> {
    let begun = |case| (case, Rounds::new());
    let mut list: Vec<(Case, Rounds<COUNT>)> = cases.into_iter().map(begun).collect();
    in_passes(&mut list, rounds, |(case, all), rounds| {
        let mut room = R::new(case);
        for _ in 0..rounds {
            room.move_on(all.count());
            let idle = median(&mut turn::<Case, SECTIONS>(&mut room, None, case));
            all.round(|who| {
                turn::<Case, SECTIONS>(&mut room, Some(who), case).map(|time| time - idle)
            });
        }
    });
    list.into_iter()
        .map(|(case, all)| (case, all.times()))
        .collect()
}

/// So many rounds of all cases: a pass makes some of them for one case.
pub fn in_passes<Case>(cases: &mut [Case], rounds: usize, pass: impl Fn(&mut Case, usize)) {
    for _ in 0..PASSES {
        for case in &mut *cases {
            pass(case, rounds / PASSES);
        }
    }
}

/// The middle of a list, which is left sorted.
pub fn median(list: &mut [f64]) -> f64 {
    list.sort_by(f64::total_cmp);
    list[list.len() / 2]
}

#[cfg(test)]
mod tests {
    use super::{in_passes, Rounds, Time};

    #[test]
    fn only_the_quieter_half_counts_but_for_the_best() {
        let mut rounds = Rounds::<2>::new();
        for round in [
            [900.0, 100.0],
            [20.0, 40.0],
            [30.0, 90.0],
            [40.0, 50.0],
            [5.0, 995.0],
        ] {
            rounds.round(|who| [round[who]]);
        }
        // The quieter ones are the second, the fourth and the third.
        let expected = |best, median, engine| Time {
            best,
            median,
            engine,
        };
        let [engine, other] = rounds.times();
        assert_eq!(engine, expected(5.0, 30.0, 1.0));
        assert_eq!(other, expected(40.0, 50.0, 0.5));
    }

    #[test]
    fn a_turn_gives_its_median_and_its_best() {
        let mut rounds = Rounds::<2>::new();
        rounds.round(|who| [[8.0, 2.0, 4.0], [9.0, 1.0, 5.0]][who]);
        let times = rounds.times();
        assert_eq!(times.map(|time| time.best), [2.0, 1.0]);
        assert_eq!(times.map(|time| time.median), [4.0, 5.0]);
        assert_eq!(times.map(|time| time.engine), [1.0, 0.8]);
    }

    #[test]
    fn everyone_is_first_and_last_equally_often() {
        let mut rounds = Rounds::<2>::new();
        let mut firsts = [0; 2];
        for _ in 0..8 {
            let mut turns = Vec::new();
            rounds.round(|who| {
                turns.push(who);
                [1.0]
            });
            assert_eq!(turns.iter().sum::<usize>(), 1, "each has its turn");
            firsts[turns[0]] += 1;
        }
        assert_eq!(firsts, [4, 4]);
    }

    #[test]
    fn all_cases_have_all_their_rounds() {
        let mut cases = [0, 100];
        in_passes(&mut cases, 12, |case, rounds| *case += rounds);
        assert_eq!(cases, [12, 112]);
    }
}

//! Routes on a ring with cards (document 02, 2026-06). Cards are not lent to a
//! route: an ask moves none, so they stay right.

use ring_model::answer::{ENTERED, GONE};
use ring_model::generator::Generator;
use ring_model::record::State;
use ring_model::route;

use crate::common::driver::{command, identifiers, BUSY, CALM, FLOODED, SWAPPING};
use crate::watched::Watched;
use crate::{many, slice, three, Both, THREE};

/// A route at each hub, and at one that is none: the cards are well formed
/// beside the record that it leaves, and steps and offers with them go on.
#[test]
fn cards_stay_right() {
    for hub in 0..4 {
        let cards = slice(&[0, 1, 2], &many(&THREE, &[0, 1, 2], 40));
        let mut both = Both::new(&three(), &cards);
        let numbers: Vec<u32> = (0..64).map(|i| 5 * i).collect();
        let called = route(&mut both.words, hub, &numbers, &mut [0; 6 * 64]);
        assert_eq!((called, &both.cards), (Ok(()), &cards));
        assert_eq!(both.both_refused(), None);
        assert_eq!(both.offer(7, 6, 100), Ok(()));
        assert!(both.step(2, 1, 0).is_ok());
    }
}

/// Steps, offers and routes on one ring.
fn random_run(seed: u64, met: &mut [usize; 4]) {
    let mut generator = Generator::new(seed);
    let n = 1 + generator.below(12);
    let names = identifiers(&mut generator, n as usize);
    let mut run = Watched::found(&names, None);
    let mix = [CALM, BUSY, SWAPPING, FLOODED][seed as usize % 4];
    for _ in 0..300 {
        let state = State::read(&run.both.words).expect("the record reads");
        let near = |generator: &mut Generator| {
            let name = names[generator.below(n) as usize];
            name.wrapping_add(generator.below(3)).wrapping_sub(1)
        };
        match generator.below(10) {
            0 => {
                // Mostly short ones, so that there is room for joins as well.
                let count = [1, 2, 3, 3, 5, 64][generator.below(6) as usize];
                let numbers: Vec<u32> = (0..count).map(|_| near(&mut generator)).collect();
                met[0] += 1;
                met[1] += run.route(generator.below(n + 1), &numbers);
            }
            1 | 2 => {
                let machine = near(&mut generator);
                let _ = run.offer(machine, generator.below(6), generator.below(3));
            }
            _ => {
                let outcome = run.step(command(&mut generator, mix, &state));
                met[2] += usize::from(outcome.is_ok_and(|answer| answer.kind == ENTERED));
                met[3] += usize::from(outcome.is_ok_and(|answer| answer.kind == GONE));
            }
        }
    }
}

#[test]
fn routes_among_steps_and_offers() {
    let mut met = [0; 4];
    for seed in 0..80 {
        random_run(seed, &mut met);
    }
    let [routes, refused, entered, gone] = met;
    assert!(routes > 1500 && refused > 1500, "{met:?}");
    assert!(entered > 150 && gone > 50, "{met:?}");
}

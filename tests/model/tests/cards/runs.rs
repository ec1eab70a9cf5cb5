//! Random runs of steps and offers from fresh rings with cards: the four
//! claims hold after every call.

use std::collections::BTreeMap;

use ring_model::answer::{ENTERED, GONE};
use ring_model::generator::Generator;
use ring_model::record::State;

use crate::common::driver::{command, identifiers, Mix, BUSY, CALM, SWAPPING};
use crate::watched::Watched;
use crate::MOST;

/// What some runs have met.
#[derive(Default)]
struct Met {
    offers: BTreeMap<u32, usize>,
    refused: BTreeMap<u32, usize>,
    entered: usize,
    gone: usize,
    full: usize,
}

/// A machine: one of few around the identifiers, or any.
fn some_machine(generator: &mut Generator, names: &[u32], few: bool) -> u32 {
    match (few, generator.below(8)) {
        (false, 1..) => generator.next_u32(),
        (true, 0) => [0, u32::MAX][generator.below(2) as usize],
        _ => {
            let name = names[generator.below(names.len() as u32) as usize];
            name.wrapping_add(generator.below(3)).wrapping_sub(1)
        }
    }
}

fn some_offer(generator: &mut Generator, run: &mut Watched, names: &[u32], few: bool) -> u32 {
    let machine = some_machine(generator, names, few);
    let revision = match generator.below(10) {
        0 => u32::MAX - generator.below(2),
        _ => generator.below(6),
    };
    let price = generator.below(3);
    let outcome = run.offer(machine, revision, price);
    outcome.err().unwrap_or(0)
}

/// One run: offers at first until so many cards are kept, then both.
fn random_run(seed: u64, n: usize, mix: Mix, calls: usize, at_first: usize, met: &mut Met) {
    let mut generator = Generator::new(seed);
    let names = identifiers(&mut generator, n);
    let named = generator.chance(50).then(|| generator.below(n as u32));
    let mut run = Watched::found(&names, named);
    while run.count() < at_first {
        some_offer(&mut generator, &mut run, &names, false);
    }
    for _ in 0..calls {
        if generator.chance(30) {
            let code = some_offer(&mut generator, &mut run, &names, at_first == 0);
            *met.offers.entry(code).or_default() += 1;
            continue;
        }
        let state = State::read(&run.both.words).expect("the record reads");
        match run.step(command(&mut generator, mix, &state)) {
            Ok(answer) => {
                met.entered += usize::from(answer.kind == ENTERED);
                met.gone += usize::from(answer.kind == GONE);
            }
            Err(number) => *met.refused.entry(number).or_default() += 1,
        }
    }
    met.full += usize::from(run.count() == MOST);
}

/// Few machines, so that revisions meet.
#[test]
fn few_machines() {
    let mut met = Met::default();
    for n in 1..=64 {
        let mix = [CALM, BUSY, SWAPPING][n % 3];
        random_run(n as u64, n, mix, 300, 0, &mut met);
    }
    let offers: Vec<u32> = met.offers.keys().copied().collect();
    assert_eq!(offers, [0, 22, 23]);
    assert!(met.entered > 200, "{} entered", met.entered);
    assert!(met.gone > 50, "{} gone", met.gone);
    // No step is refused by the last question, nor is any slice damaged.
    assert!(!met.refused.contains_key(&2) && met.refused.len() >= 5);
}

/// Many machines: slices fill up, and stay full.
#[test]
fn many_machines() {
    let mut met = Met::default();
    for n in [1, 2, 3, 8, 40, 64] {
        random_run(100 + n as u64, n, SWAPPING, 900, MOST - 4, &mut met);
    }
    assert!(met.offers.contains_key(&24) && met.full >= 5);
    assert!(met.entered > 50, "{} entered", met.entered);
    assert!(met.gone > 30, "{} gone", met.gone);
    assert!(!met.refused.contains_key(&2));
}

//! Random runs from fresh rings of 1 to 64 nodes, every call under the
//! witness, which judges rolls and owners as well wherever no message waits.

mod common;

use std::collections::BTreeSet;

use common::driver::{command, delivery, identifiers, Mix, BUSY, CALM, FLOODED, SWAPPING};
use common::Run;
use ring_model::generator::Generator;
use ring_model::{Answer, Command};

/// What a set of runs has met, so that a test can tell that it tried enough.
#[derive(Default)]
struct Met {
    calls: usize,
    answers: BTreeSet<u32>,
    refusals: BTreeSet<u32>,
    kinds: BTreeSet<u32>,
    most_waiting: usize,
    rests: usize,
    members_at_rest: BTreeSet<usize>,
    founders: BTreeSet<u32>,
}

impl Met {
    fn note(&mut self, run: &Run, outcome: &Result<Answer, u32>) {
        self.calls += 1;
        match outcome {
            Ok(answer) => self.answers.insert(answer.kind),
            Err(number) => self.refusals.insert(*number),
        };
        let messages = run.state().messages;
        self.kinds
            .extend(messages.last().map(|message| message.kind));
        self.most_waiting = self.most_waiting.max(messages.len());
        if messages.is_empty() {
            self.rests += 1;
            let members = run.witness.membership().members().len();
            self.members_at_rest.insert(members);
        }
    }
}

fn call(run: &mut Run, command: Command, met: &mut Met) {
    let outcome = run.call(command.operation, command.x, command.y);
    met.note(run, &outcome);
}

/// A fresh ring in either form, by any founder.
fn founded(generator: &mut Generator, n: usize) -> Run {
    let names = identifiers(generator, n);
    if generator.chance(50) {
        return Run::found(&names);
    }
    Run::found_by(&names, generator.below(n as u32))
}

/// One run of some calls, then deliveries in random order until the ring is
/// at rest.
fn random_run(seed: u64, n: usize, mix: Mix, calls: usize, met: &mut Met) {
    let mut generator = Generator::new(seed);
    let mut run = founded(&mut generator, n);
    met.founders
        .extend(run.witness.membership().members().iter().copied());
    for _ in 0..calls {
        let next = command(&mut generator, mix, &run.state());
        call(&mut run, next, met);
    }
    let mut deliveries = 0;
    while !run.state().messages.is_empty() {
        let next = delivery(&mut generator, &run.state());
        call(&mut run, next, met);
        deliveries += 1;
        assert!(deliveries < 100_000, "the ring does not come to rest");
    }
    run.assert_at_rest();
    let lookups = run.witness.lookups();
    assert_eq!(lookups.accepted, lookups.answered);
}

#[test]
fn rings_of_every_size() {
    let mut met = Met::default();
    for n in 1..=64 {
        for (index, mix) in [CALM, BUSY, SWAPPING].into_iter().enumerate() {
            random_run((3 * n + index) as u64, n, mix, 700, &mut met);
        }
    }
    assert!(met.calls > 130_000, "{} calls", met.calls);
    assert_eq!(met.answers, (0..=7).collect());
    assert_eq!(met.kinds, (1..=14).collect());
    assert!(met.rests > 100, "{} times at rest", met.rests);
    assert!(met.members_at_rest.len() > 24, "{:?}", met.members_at_rest);
    assert!(met.founders.len() > 32, "founders: {:?}", met.founders);
}

/// Full records refuse with 11 and deliver all the same.
#[test]
fn rings_full_of_messages() {
    let mut met = Met::default();
    for n in [2, 3, 5, 8, 16, 64] {
        random_run(500 + n as u64, n, FLOODED, 2000, &mut met);
    }
    assert_eq!(met.most_waiting, 256);
    // 10 and 12 are out of reach of a run from fresh.
    assert_eq!(met.refusals, BTreeSet::from([3, 4, 5, 6, 7, 8, 9, 11]));
}

/// Small rings meet every interleaving sooner.
#[test]
fn small_rings_for_longer() {
    let mut met = Met::default();
    for seed in 0..60 {
        let n = 2 + seed as usize % 4;
        let mix = [CALM, BUSY, SWAPPING][seed as usize % 3];
        random_run(1000 + seed, n, mix, 1000, &mut met);
    }
    assert!(met.calls > 60_000, "{} calls", met.calls);
}

/// Each ring takes in all of its nodes and then loses all but one, and comes
/// to rest after every join and leave.
#[test]
fn rings_that_grow_and_shrink() {
    let mut generator = Generator::new(2000);
    for n in [1, 2, 3, 7, 30, 64] {
        let mut run = Run::settled(&identifiers(&mut generator, n));
        for left in (1..n).rev() {
            let members = run.witness.membership().members();
            let members: Vec<u32> = members.iter().copied().collect();
            let &node = generator.pick(&members).expect("there is a member");
            run.leave(node).expect("leave is accepted");
            run.drain();
            run.assert_at_rest();
            assert_eq!(run.witness.membership().members().len(), left);
        }
    }
}

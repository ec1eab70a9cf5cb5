//! Routes in lists of calls from fresh rings: demand 3 holds of them, since
//! they are asks.

use ring_model::generator::Generator;
use ring_model::record::State;
use ring_model::{Answer, Command};

use super::{Lent, Six, PLACE};
use crate::common::driver::{command, identifiers, BUSY, CALM, FLOODED, SWAPPING};
use crate::common::Run;

/// The answer or the refusal in a place.
fn outcome(&[refusal, kind, hub, number, ticket, hops]: &Six) -> Result<Answer, u32> {
    match refusal {
        0 => Ok(Answer {
            kind,
            hub,
            number,
            ticket,
            hops,
        }),
        number => Err(number),
    }
}

/// A route on a watched ring: the witness takes in each of its questions, and
/// judges the record after all of them.
fn route(run: &mut Run, hub: u32, numbers: &[u32]) {
    let mut lent = Lent::new(&run.words, PLACE * numbers.len());
    assert_eq!(lent.route(hub, numbers), Ok(()));
    for (six, &number) in lent.outcomes(numbers.len()).iter().zip(numbers) {
        let taken = run
            .witness
            .take_in(Command::new(0, hub, number), &outcome(six));
        assert_eq!(taken, Ok(()), "{number} at {hub}");
    }
    run.words = lent.words;
    assert_eq!(
        run.witness.judge(&run.words),
        Ok(()),
        "{numbers:?} at {hub}"
    );
}

fn some_route(generator: &mut Generator, state: &State) -> (u32, Vec<u32>) {
    let hub = generator.below(state.n() + 1);
    let count = [1, 3, 8, 64][generator.below(4) as usize];
    let near = |_| {
        let other = generator.below(state.n());
        let beside = generator.below(3).wrapping_sub(1);
        state.row(other).identifier.wrapping_add(beside)
    };
    (hub, (0..count).map(near).collect())
}

#[test]
fn routes_among_steps() {
    let mut generator = Generator::new(28);
    for round in 0..120 {
        let n = 1 + generator.below([2, 4, 10][round % 3]) as usize;
        let names = identifiers(&mut generator, n);
        let mix = [CALM, BUSY, SWAPPING, FLOODED][round % 4];
        let mut run = Run::found(&names);
        for _ in 0..120 {
            let state = run.state();
            if generator.chance(12) {
                let (hub, numbers) = some_route(&mut generator, &state);
                route(&mut run, hub, &numbers);
                continue;
            }
            let Command { operation, x, y } = command(&mut generator, mix, &state);
            let _ = run.call(operation, x, y);
        }
    }
}

/// All that a route sent on is found in the end, by the ledger's owners.
#[test]
fn everything_is_found() {
    let mut run = Run::settled(&[100, 200, 300, 400, 500]);
    let numbers: Vec<u32> = (0..64).map(|i| 10 * i).collect();
    for hub in 0..5 {
        route(&mut run, hub, &numbers);
        let answers = run.drain();
        assert_eq!(run.witness.lookups().accepted, 64 * u64::from(hub + 1));
        assert_eq!(run.witness.lookups().answered, 64 * u64::from(hub + 1));
        assert!(!answers.is_empty());
        run.assert_at_rest();
    }
}

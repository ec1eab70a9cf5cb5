//! The tally: nine counters, one raised a step, refused ones included.

mod common;

use common::Run;
use ring_model::tally::REFUSED;
use ring_model::{step_tallied, Tally, RECORD_WORDS};

#[test]
fn one_counter_a_step() {
    let mut words = Run::found(&[100, 200]).words;
    let mut tally = Tally::default();
    let commands = [
        (0, 0, 50), // found
        (1, 1, 0),  // quiet
        (3, 1, 0),  // entered
        (3, 0, 1),  // quiet, JOINPOINT
        (3, 1, 0),  // quiet, NEWSUCC
        (3, 0, 0),  // quiet, NEWSUCCACK
        (3, 0, 1),  // joined
        (3, 0, 1),  // refused: 9
        (7, 0, 0),  // refused: 3
    ];
    for (done, (operation, x, y)) in commands.into_iter().enumerate() {
        let _outcome = step_tallied(&mut words, operation, x, y, &mut tally);
        assert_eq!(tally.counts.iter().sum::<u64>(), done as u64 + 1);
    }
    assert_eq!(tally.counts, [4, 1, 1, 0, 0, 0, 1, 0, 2]);
}

#[test]
fn refused_steps_count_whatever_the_record() {
    let mut tally = Tally::default();
    assert_eq!(step_tallied(&mut [], 0, 0, 0, &mut tally), Err(1));
    assert_eq!(
        step_tallied(&mut [0; RECORD_WORDS], 0, 0, 0, &mut tally),
        Err(2)
    );
    assert_eq!(tally.counts[REFUSED], 2);
}

#[test]
fn a_full_counter_stays() {
    let mut words = Run::found(&[100]).words;
    let mut tally = Tally {
        counts: [u64::MAX; 9],
    };
    assert!(step_tallied(&mut words, 0, 0, 0, &mut tally).is_ok());
    assert!(step_tallied(&mut words, 9, 0, 0, &mut tally).is_err());
    assert_eq!(tally.counts, [u64::MAX; 9]);
}

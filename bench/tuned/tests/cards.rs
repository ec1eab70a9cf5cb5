//! The tuned model agrees with the plain one where cards are lent: return,
//! output and every byte of record and cards, on bytes carried over and on
//! bytes in place, with each way to test rows and messages.

#[path = "../../../tests/model/tests/common/mod.rs"]
mod common;
mod shared;
mod slices;

use common::driver::{command, identifiers, Mix, BUSY, CALM, SWAPPING};
use common::records::any_state;
use ring_model::generator::Generator;
use ring_model::record::State;
use ring_model::{Command, RECORD_WORDS};
use ring_tuned::{fresh_by_cards, fresh_cards};
use slices::books::{any_book, damage, leavepoint};
use slices::pair::{Pair, BOOK_WORDS};

/// An offer that is likely to meet a card, or a new one.
fn offer(generator: &mut Generator, pair: &mut Pair) -> u32 {
    let kept = generator.below(pair.cards()) as usize;
    let [machine, revision, price] = [0, 1, 2].map(|word| pair.card(kept, word));
    let beside = generator.below(3).wrapping_sub(1);
    let machine = match generator.below(4) {
        0 => machine,
        1 => pair.identifier(generator).wrapping_add(beside),
        _ => generator.next_u32(),
    };
    let price = price.wrapping_add(generator.below(4) / 3);
    pair.offer(machine, revision.wrapping_add(beside), price)
}

/// Steps and offers from a fresh ring, so many of each hundred offers.
fn run_from_fresh(generator: &mut Generator, n: usize, mix: Mix, offers: u32, calls: usize) {
    let names = identifiers(generator, n);
    let named = generator.chance(50).then(|| generator.below(n as u32));
    let (mut pair, number) = Pair::founded(&names, named);
    assert_eq!(number, 0);
    for _ in 0..calls {
        if generator.chance(offers) {
            offer(generator, &mut pair);
        } else {
            let state = State::read(&pair.words).expect("the record reads");
            pair.step(command(generator, mix, &state));
        }
    }
}

#[test]
fn runs_from_fresh() {
    for (seed, mix) in [CALM, BUSY, SWAPPING].into_iter().enumerate() {
        let mut generator = Generator::new(300 + seed as u64);
        for n in [1, 2, 3, 5, 9, 33, 64] {
            run_from_fresh(&mut generator, n, mix, 20, 500);
        }
    }
}

/// 512 cards are offered, and the next machine is one too many.
#[test]
fn as_many_cards_as_there_are_places() {
    let mut generator = Generator::new(310);
    let (mut pair, _) = Pair::founded(&identifiers(&mut generator, 3), None);
    for machine in 0..512 {
        let number = pair.offer(machine * 0x0080_0001, machine, 7);
        assert_eq!((number, pair.cards()), (0, machine + 1));
    }
    assert_eq!(pair.offer(5, 0, 7), 24);
    let last = pair.card(511, 0);
    let numbers = [(510, 7), (511, 8), (511, 7), (512, 8)].map(|(r, p)| pair.offer(last, r, p));
    assert_eq!(numbers, [22, 23, 0, 0]);
}

/// Slices from anywhere among the well-formed ones, beside any record.
#[test]
fn well_formed_slices() {
    let mut generator = Generator::new(320);
    let mut returns = [0; 25];
    for _ in 0..6_000 {
        let state = any_state(&mut generator);
        let mut pair = any_book(&mut generator, &state);
        let command = command(&mut generator, BUSY, &state);
        returns[pair.step(command) as usize] += 1;
        returns[offer(&mut generator, &mut pair) as usize] += 1;
    }
    for number in [0, 5, 9, 10, 22, 23, 24] {
        assert!(returns[number] > 0, "none was refused by {number}");
    }
}

/// A word or two of a slice that was well formed.
#[test]
fn damaged_slices() {
    let mut generator = Generator::new(330);
    for _ in 0..8_000 {
        let state = any_state(&mut generator);
        let mut pair = any_book(&mut generator, &state);
        for _ in 0..=generator.below(2) {
            damage(&mut generator, &mut pair);
        }
        pair.step(command(&mut generator, BUSY, &state));
        offer(&mut generator, &mut pair);
    }
}

/// Gone of a member, of the only member, and of a hub that is none.
#[test]
fn gone_by_hand() {
    let mut generator = Generator::new(340);
    let mut refused = 0;
    for _ in 0..2_000 {
        let (state, link) = leavepoint(&mut generator);
        let mut pair = any_book(&mut generator, &state);
        refused += u32::from(pair.step(link) == 2);
    }
    assert!(
        (20..1_980).contains(&refused),
        "{refused} were refused by 2"
    );
}

/// Founded by the smallest, by hubs that are named, and by some that are none.
fn by_each_founder(names: &[u32]) {
    let n = names.len() as u32;
    for named in [None, Some(0), Some(n / 2), Some(n), Some(u32::MAX)] {
        Pair::founded(names, named);
    }
}

#[test]
fn founding() {
    let mut generator = Generator::new(350);
    for n in 0..=66 {
        let mut names: Vec<u32> = (0..n).map(|_| generator.next_u32()).collect();
        by_each_founder(&names);
        if n > 1 {
            names[n as usize - 1] = names[generator.below(n - 1) as usize];
            by_each_founder(&names);
        }
    }
}

/// A slice that is too short is 1, whatever else is wrong.
#[test]
fn founding_in_short_buffers() {
    for (words, book) in [
        (RECORD_WORDS - 1, BOOK_WORDS),
        (RECORD_WORDS, BOOK_WORDS - 1),
    ] {
        let (mut words, mut book) = (vec![9; words], vec![9; book]);
        assert_eq!(fresh_cards(&mut words, &mut book, &[]), Err(1));
        assert_eq!(fresh_by_cards(&mut words, &mut book, &[5, 5], 2), Err(1));
        assert!(words.iter().chain(&book).all(|&word| word == 9));
    }
}

#[test]
fn short_buffers() {
    let (pair, _) = Pair::founded(&[5, 9], None);
    let commands = [Command::new(0, 0, 7), Command::new(9, 9, 9)];
    let lengths = [0, 1, 4 * BOOK_WORDS - 1, 4 * BOOK_WORDS, 4 * BOOK_WORDS + 3];
    for cards_len in lengths {
        for words_len in [0, 7951, 7952, 7955] {
            let cut = pair.cut(words_len, cards_len);
            cut.offer_agrees(7, 7, 7);
            for (command, out_len) in commands.into_iter().zip([20, 19]) {
                cut.step_agrees(command, out_len);
                cut.step_agrees(command, 23);
            }
        }
    }
}

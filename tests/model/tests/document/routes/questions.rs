//! What the call itself asks: 1, 2, 25 and 26, in this order, and nothing else.

use ring_model::RECORD_WORDS;

use super::{two_at_rest, Lent, BEFORE, MOST, PLACE};

/// Records that get 1, 1 again though they would get 2, and 2.
fn wrong_records() -> [(Vec<u32>, u32); 3] {
    let sound = two_at_rest();
    let mut damaged = sound.clone();
    damaged[0] = 2;
    let short = |words: &[u32]| words[..RECORD_WORDS - 1].to_vec();
    [(short(&sound), 1), (short(&damaged), 1), (damaged, 2)]
}

/// Each pair of questions whose answers are both no, and each alone: the first
/// of them decides.
#[test]
fn order_of_the_questions() {
    let mut records = wrong_records().to_vec();
    records.push((two_at_rest(), 0));
    for (words, first) in records {
        for (count, second) in [(MOST + 1, 25), (MOST, 0), (3, 0), (1, 0)] {
            for (places, third) in [(count, 0), (count - 1, 26), (0, 26)] {
                let numbers: Vec<u32> = (0..count as u32).collect();
                let outcome = Lent::new(&words, PLACE * places).route(0, &numbers);
                let noes = [first, second, third];
                let should = noes.into_iter().find(|&number| number != 0);
                assert_eq!(outcome.err(), should, "{count} numbers, {places} places");
            }
        }
    }
}

/// A record too short by any number of words, and no record at all.
#[test]
fn number_1() {
    for length in [0, 1, 4, 452, RECORD_WORDS - 6, RECORD_WORDS - 1] {
        for numbers in [&[][..], &[150], &[0; 65]] {
            let mut lent = Lent::new(&two_at_rest()[..length], PLACE);
            assert_eq!(lent.route(0, numbers), Err(1));
        }
    }
}

/// One word put wrong in each part of the record. It is asked also where no
/// number of the list would read that word.
#[test]
fn number_2() {
    let last = RECORD_WORDS - 1;
    for (place, word) in [
        (1, 0),
        (2, 257),
        (6, 2),
        (22, 3),
        (25, 1),
        (452, 1),
        (last, 1),
    ] {
        let mut words = two_at_rest();
        words[place] = word;
        for numbers in [&[][..], &[150], &[0; 65]] {
            let mut lent = Lent::new(&words, PLACE);
            assert_eq!(lent.route(0, numbers), Err(2), "word {place} set to {word}");
        }
    }
}

/// 64 numbers pass, 65 and more do not, however many places there are.
#[test]
fn number_25() {
    for count in [MOST + 1, MOST + 2, 128, 256, 1000] {
        for places in [count, count + 1, 2 * count, MOST, 1, 0] {
            let mut lent = Lent::new(&two_at_rest(), PLACE * places);
            assert_eq!(lent.route(0, &vec![150; count]), Err(25));
        }
    }
    let mut lent = Lent::new(&two_at_rest(), PLACE * MOST);
    assert_eq!(lent.route(0, &[150; MOST]), Ok(()));
}

/// Places are counted whole, for each length of the list.
#[test]
fn number_26() {
    for count in 1..=MOST {
        let numbers = vec![150; count];
        for room in [0, PLACE * (count - 1), PLACE * count - 1] {
            let mut lent = Lent::new(&two_at_rest(), room);
            assert_eq!(lent.route(0, &numbers), Err(26), "{count} in {room} words");
        }
        let mut lent = Lent::new(&two_at_rest(), PLACE * count);
        assert_eq!(lent.route(0, &numbers), Ok(()));
    }
}

/// 'A hub that is none or outside' comes behind all of them: such a call is
/// refused by its own questions, or not at all.
#[test]
fn the_hub_is_no_question_of_the_call() {
    for hub in [2, 3, 64, 255, u32::MAX] {
        for (words, number) in wrong_records() {
            assert_eq!(Lent::new(&words, PLACE).route(hub, &[150]), Err(number));
        }
        let mut lent = Lent::new(&two_at_rest(), PLACE * 65);
        assert_eq!(lent.route(hub, &[150; 65]), Err(25));
        assert_eq!(lent.route(hub, &[150; 64]), Ok(()));
        assert_eq!(Lent::new(&two_at_rest(), 5).route(hub, &[150]), Err(26));
        assert_eq!(Lent::new(&two_at_rest(), 0).route(hub, &[]), Ok(()));
    }
}

/// 'An empty list is accepted', with any output and at any hub, and writes
/// nothing; but 1 and 2 are asked.
#[test]
fn an_empty_list() {
    for room in [0, 1, 5, 6, 7, 100] {
        for hub in [0, 1, 2, 3, u32::MAX] {
            let mut lent = Lent::new(&two_at_rest(), room);
            let before = lent.clone();
            assert_eq!(lent.route(hub, &[]), Ok(()));
            assert_eq!(lent, before);
            for (words, number) in wrong_records() {
                assert_eq!(Lent::new(&words, room).route(hub, &[]), Err(number));
            }
        }
    }
}

/// A refused call leaves record, output and tally, words behind the record
/// among them. `Lent` looks at all of it; here it is spelled out once.
#[test]
fn a_refused_call_leaves_everything() {
    let mut longer = two_at_rest();
    longer.extend([BEFORE; 3]);
    let before = Lent::new(&longer, 64 * PLACE);
    let mut lent = before.clone();
    assert_eq!(lent.route(0, &[150; 65]), Err(25));
    lent.outcomes.truncate(PLACE);
    assert_eq!(lent.route(0, &[150; 2]), Err(26));
    assert_eq!(lent.words, longer);
    assert_eq!(lent.outcomes, [BEFORE; PLACE]);
    assert_eq!(lent.tally, before.tally);
}

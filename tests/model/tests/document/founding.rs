//! Who founds a ring (document 02, 2026-02): the smallest identifier, or the
//! hub that the caller names.

use ring_model::generator::Generator;
use ring_model::{fresh, fresh_by, Answer, RECORD_WORDS};

use crate::common::Run;

/// What the record holds before a call: it is not well formed, and a founding
/// does not care.
const BEFORE: [u32; RECORD_WORDS + 2] = [9; RECORD_WORDS + 2];

/// The words of a fresh ring, by the layout of the record alone.
fn founded(identifiers: &[u32], founder: usize) -> Vec<u32> {
    let mut words = vec![0; RECORD_WORDS];
    words[..2].copy_from_slice(&[1, identifiers.len() as u32]);
    for (hub, &identifier) in identifiers.iter().enumerate() {
        let row = match hub == founder {
            true => [identifier, 2, 0, 0, hub as u32, hub as u32, 255],
            false => [identifier, 0, 0, 0, 255, 255, 255],
        };
        words[4 + 7 * hub..11 + 7 * hub].copy_from_slice(&row);
    }
    words.extend([9, 9]);
    words
}

/// Founds with every hub of the list by its name, and with the one that has
/// the smallest identifier by no name.
fn founds(identifiers: &[u32], smallest: usize) {
    let mut words = BEFORE;
    assert_eq!(fresh(&mut words, identifiers), Ok(()));
    assert_eq!(words[..], founded(identifiers, smallest));
    for founder in 0..identifiers.len() {
        let mut words = BEFORE;
        assert_eq!(fresh_by(&mut words, identifiers, founder as u32), Ok(()));
        assert_eq!(words[..], founded(identifiers, founder));
    }
}

/// A refused founding: unnamed, and named where a founder is given.
fn refuses(identifiers: &[u32], founder: Option<u32>, number: u32) {
    let mut words = BEFORE;
    let outcome = match founder {
        None => fresh(&mut words, identifiers),
        Some(founder) => fresh_by(&mut words, identifiers, founder),
    };
    assert_eq!(outcome, Err(number), "{identifiers:?} by {founder:?}");
    assert_eq!(words, BEFORE);
}

#[test]
fn one_identifier() {
    for identifier in [0, 1, 100, u32::MAX - 1, u32::MAX] {
        founds(&[identifier], 0);
    }
}

#[test]
fn two_identifiers() {
    for (smaller, larger) in [(0, u32::MAX), (0, 1), (u32::MAX - 1, u32::MAX), (100, 200)] {
        founds(&[smaller, larger], 0);
        founds(&[larger, smaller], 1);
    }
    // By the numbers, not by what is nearer on the circle or lower by a sign.
    founds(&[1 << 31, u32::MAX, (1 << 31) - 1], 2);
    founds(&[u32::MAX, 1, 2], 1);
}

/// The smallest at every place, first and last among them; 0 and 4294967295
/// side by side and far apart.
#[test]
fn sixty_four_identifiers() {
    let ring: Vec<u32> = (0..64).map(|hub| 1000 + 7 * hub).collect();
    for smallest in 0..64 {
        let mut one_less = ring.clone();
        one_less[smallest] = 999;
        founds(&one_less, smallest);
        for largest in [1, 32, 63].map(|on| (smallest + on) % 64) {
            let mut ends = ring.clone();
            ends[smallest] = 0;
            ends[largest] = u32::MAX;
            founds(&ends, smallest);
        }
    }
    founds(&ring, 0);
    let falling: Vec<u32> = (0..64).map(|hub| u32::MAX - hub).collect();
    founds(&falling, 63);
}

/// The last hub founds, the number behind it is none.
#[test]
fn number_18_founder() {
    let rising: Vec<u32> = (0..64).collect();
    for count in 1..=64 {
        let ring = &rising[..count as usize];
        let mut words = BEFORE;
        assert_eq!(fresh_by(&mut words, ring, count - 1), Ok(()));
        assert_eq!(words[..], founded(ring, count as usize - 1));
        for founder in [count, count + 1, 64, 255, 256, 1 << 31, u32::MAX] {
            refuses(ring, Some(founder), 18);
        }
    }
}

/// 1 before 13 before 14 before 18: each of the later answers is no as well.
#[test]
fn order_of_the_questions() {
    let mut short = [9; RECORD_WORDS - 1];
    for identifiers in [&[][..], &[7; 65], &[7, 7], &[7]] {
        assert_eq!(fresh(&mut short, identifiers), Err(1));
        for founder in [0, 1, 65, u32::MAX] {
            assert_eq!(fresh_by(&mut short, identifiers, founder), Err(1));
        }
    }
    assert_eq!(short, [9; RECORD_WORDS - 1]);
    for founder in [0, 64, 65, u32::MAX] {
        refuses(&[], Some(founder), 13);
        refuses(&[7; 65], Some(founder), 13);
        refuses(&[7; 64], Some(founder), 14);
        refuses(&[7, 8, 7], Some(founder), 14);
    }
    refuses(&[7, 8, 9], Some(3), 18);
}

/// The smallest of equal ones does not found, and neither does the smallest of
/// a list that is too long or empty.
#[test]
fn refusals_of_the_unnamed_form() {
    refuses(&[], None, 13);
    refuses(&[0; 65], None, 13);
    let rising: Vec<u32> = (0..66).collect();
    refuses(&rising[..65], None, 13);
    refuses(&rising, None, 13);
    refuses(&[0, 0], None, 14);
    refuses(&[5, 0, 7, 0], None, 14);
    refuses(&[7, 0, 7], None, 14);
}

/// Where no founder is named, 18 does not occur, and whatever founds is the
/// named form's ring by one of its hubs.
#[test]
fn unnamed_is_never_refused_by_18() {
    let mut generator = Generator::new(2);
    for _ in 0..3000 {
        let count = generator.below(70) as usize;
        let most = [count as u32 + 2, 400, u32::MAX][generator.below(3) as usize];
        let identifiers: Vec<u32> = (0..count).map(|_| generator.below(most)).collect();
        let (mut words, mut named) = (BEFORE, BEFORE);
        let outcome = fresh(&mut words, &identifiers);
        assert!(matches!(outcome, Ok(()) | Err(13 | 14)), "{outcome:?}");
        let least = identifiers.iter().min();
        let place = identifiers.iter().position(|one| Some(one) == least);
        let founder = place.unwrap_or(0) as u32;
        assert_eq!(fresh_by(&mut named, &identifiers, founder), outcome);
        assert_eq!(words, named);
    }
}

/// The first calls on a ring that hub 2 founded, unnamed and named.
#[test]
fn first_calls() {
    let identifiers = [300, 200, 100];
    for mut run in [Run::found(&identifiers), Run::found_by(&identifiers, 2)] {
        assert_eq!(run.ask(0, 300), Err(5));
        assert_eq!(run.ask(1, 150), Err(5));
        assert_eq!(run.ask(2, 300), Ok(Answer::found(2, 300, 0, 0)));
        assert_eq!(run.leave(2), Err(8));
        assert_eq!(run.leave(0), Err(5));
        assert_eq!(run.join(2, 2), Err(6));
        assert_eq!(run.join(0, 1), Err(5));
        assert_eq!(run.roll(2), Ok(vec![2]));
        assert_eq!(run.roll(0), Err(5));
        run.join(0, 2).expect("join is accepted");
        run.drain();
        assert_eq!(run.ask(0, 200), Ok(Answer::found(0, 200, 1, 0)));
        run.assert_at_rest();
    }
}

/// The founder may leave like any other hub, and come back.
#[test]
fn founder_leaves() {
    let mut run = Run::found_by(&[100, 200, 300], 1);
    run.join(0, 1).expect("join is accepted");
    run.drain();
    run.leave(1).expect("leave is accepted");
    run.drain();
    assert_eq!(run.witness.membership().clockwise_from(0), [0]);
    assert_eq!(run.ask(1, 150), Err(5));
    assert_eq!(run.leave(0), Err(8));
    run.join(1, 0).expect("join is accepted");
    run.drain();
    assert_eq!(run.roll(1), Ok(vec![1, 0]));
    run.assert_at_rest();
}

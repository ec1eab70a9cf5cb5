//! Each clause of 'well formed', broken in turn.

use ring_model::cards::well_formed;

use crate::{many, owner, slice, Both, Four, FIRST, MOST, SLICE, THREE};

/// Members 0 (100) and 2 (300) of three hubs, and four cards.
const MEMBERS: [u32; 2] = [0, 2];
const CARDS: [Four; 4] = [
    [50, 1, 999, 0],
    [150, 0, 0, 2],
    [301, u32::MAX, u32::MAX, 0],
    [u32::MAX, 7, 5, 0],
];

fn sound() -> Vec<u32> {
    slice(&MEMBERS, &CARDS)
}

/// Whether a slice passes beside the three hubs, as the question and as both
/// calls have it.
fn passes(cards: &[u32]) -> bool {
    let both = Both::new(&crate::three(), cards);
    let refused = both.both_refused();
    assert!(matches!(refused, None | Some(2)), "{refused:?}");
    assert_eq!(refused.is_none(), well_formed(cards, &THREE));
    refused.is_none()
}

/// The sound slice with one word changed.
fn with(place: usize, word: u32) -> Vec<u32> {
    let mut words = sound();
    words[place] = word;
    words
}

#[test]
fn sound_slices_pass() {
    assert!(passes(&sound()));
    for members in [&[0_u32][..], &[1], &[2], &[0, 1], &[1, 2], &[0, 1, 2]] {
        assert!(passes(&slice(members, &[])));
        for count in [1, 2, MOST - 1, MOST] {
            assert!(passes(&slice(members, &many(&THREE, members, count))));
        }
    }
}

/// A mark of 2 or more.
#[test]
fn member_words() {
    for hub in 0..64 {
        for word in [2, 3, 255, 256, 1 << 31, u32::MAX] {
            assert!(!passes(&with(1 + hub, word)), "hub {hub}: {word}");
        }
    }
}

/// No mark at all, and marks behind the ring's last hub.
#[test]
fn members_below_n() {
    assert!(!passes(&slice(&[], &[])));
    assert!(!passes(&slice(&[], &[[50, 1, 1, 0]])));
    for hub in 3..64 {
        assert!(!passes(&slice(&[hub], &[])));
        assert!(!passes(&slice(&[0, hub], &[])));
    }
}

/// One card more than there is room for, and far more.
#[test]
fn counts() {
    let mut full = slice(&MEMBERS, &many(&THREE, &MEMBERS, MOST));
    assert!(passes(&full));
    for count in [513, 514, 1024, 1 << 30, 1 << 31, u32::MAX] {
        full[0] = count;
        assert!(!passes(&full), "{count}");
        assert!(!passes(&with(0, count)), "{count}");
    }
}

/// A count too small leaves words of a card where none should be.
#[test]
fn unused_words() {
    for count in 0..4 {
        assert!(!passes(&with(0, count)));
    }
    for place in FIRST + 16..SLICE {
        for word in [1, u32::MAX] {
            assert!(!passes(&with(place, word)), "word {place}: {word}");
        }
    }
}

/// A count too large takes in a card of zeros: machine 0 with hub 0, which is
/// its owner here, and not where hub 0 is no member. Two are one too many.
#[test]
fn a_card_of_zeros() {
    assert!(passes(&with(0, 5)));
    assert!(!passes(&with(0, 6)));
    let mut others = slice(&[1, 2], &[[150, 1, 1, 1]]);
    assert!(passes(&others));
    others[0] = 2;
    assert!(!passes(&others));
}

/// A machine with two cards, wherever they stand.
#[test]
fn machines() {
    for (one, other) in [(0, 1), (0, 3), (2, 3), (1, 3), (3, 0), (1, 2)] {
        let machine = CARDS[other][0];
        let mut words = with(FIRST + 4 * one, machine);
        words[FIRST + 4 * one + 3] = owner(&THREE, &MEMBERS, machine);
        assert!(!passes(&words), "cards {one} and {other}");
    }
    let full = many(&THREE, &MEMBERS, MOST);
    for (one, other) in [(0, 1), (0, MOST - 1), (MOST - 2, MOST - 1), (255, 256)] {
        let mut cards = full.clone();
        cards[one] = cards[other];
        assert!(
            !passes(&slice(&MEMBERS, &cards)),
            "cards {one} and {other} of 512"
        );
    }
}

/// A card with another hub than its owner: no other number will do.
#[test]
fn hubs() {
    for (card, &[_, _, _, hub]) in CARDS.iter().enumerate() {
        for other in (0..70).chain([255, 256, 1 << 31, u32::MAX]) {
            let words = with(FIRST + 4 * card + 3, other);
            assert_eq!(passes(&words), other == hub, "card {card}: {other}");
        }
    }
}

/// The owner is the member, not the hub inside, that is nearest.
#[test]
fn owners_among_the_members() {
    let nearest = [
        (0, 0),
        (99, 0),
        (100, 0),
        (101, 1),
        (200, 1),
        (201, 2),
        (300, 2),
        (301, 0),
        (u32::MAX, 0),
    ];
    for (machine, hub) in nearest {
        assert!(passes(&slice(&[0, 1, 2], &[[machine, 1, 1, hub]])));
        let next = if hub == 1 { 2 } else { hub };
        assert!(passes(&slice(&MEMBERS, &[[machine, 1, 1, next]])));
        assert_eq!(
            passes(&slice(&MEMBERS, &[[machine, 1, 1, hub]])),
            hub == next
        );
        assert!(passes(&slice(&[1], &[[machine, 1, 1, 1]])));
    }
}

/// Machine, revision and price may be any numbers.
#[test]
fn free_fields() {
    for number in [0, 1, 255, 256, 65535, 65536, 1 << 31, u32::MAX] {
        let hub = owner(&THREE, &MEMBERS, number);
        assert!(passes(&slice(&MEMBERS, &[[number, 3, 4, hub]])));
        assert!(passes(&with(FIRST + 1, number)));
        assert!(passes(&with(FIRST + 6, number)));
    }
}

/// Words behind the slice are not read; one word less is no slice.
#[test]
fn lengths() {
    let mut longer = sound();
    longer.extend([7, u32::MAX]);
    assert!(passes(&longer));
    assert!(well_formed(&sound(), &THREE));
    for length in [SLICE - 1, SLICE - 4, FIRST, 1, 0] {
        let short = &sound()[..length];
        assert!(!well_formed(short, &THREE));
        let both = Both::new(&crate::three(), short);
        assert_eq!(both.both_refused(), Some(1));
    }
}

/// The same slice beside another record: fewer hubs, other identifiers.
#[test]
fn beside_its_record() {
    assert!(well_formed(&sound(), &[100, 7, 300]));
    assert!(well_formed(&sound(), &[100, 200, 300, 400]));
    assert!(!well_formed(&sound(), &[100, 200]));
    assert!(!well_formed(&sound(), &[100, 200, 50]));
    assert!(!well_formed(&sound(), &[300, 200, 100]));
}

/// 64 hubs, all members: the last word of a member counts too.
#[test]
fn all_of_64() {
    let identifiers: Vec<u32> = (0..64).map(|hub| 1 + 50 * hub).collect();
    let members: Vec<u32> = (0..64).collect();
    let mut words = slice(&members, &many(&identifiers, &members, MOST));
    assert!(well_formed(&words, &identifiers));
    words[64] = 2;
    assert!(!well_formed(&words, &identifiers));
    words[64] = 0;
    assert!(!well_formed(&words, &identifiers));
}

//! Who owns a machine: the member with the least clockwise distance to it.

use super::book::{marked, Book, CARD_WORDS, HUB, MACHINE};
use crate::clockwise::distance;
use crate::record::{identifier, Record, Row, JOINING, MOST_HUBS, N, NONE, ROWS, ROW_WORDS};
use crate::word::Word;

/// How many numbers there are.
const CIRCLE: u64 = 1 << 32;

/// How many numbers lie behind `a`, up to `b`: all of them where both are one.
pub(super) fn stretch(a: u32, b: u32) -> u64 {
    match distance(a, b) {
        0 => CIRCLE,
        apart => u64::from(apart),
    }
}

/// What a hub owns: the first number, and how many from there on; none where it
/// is no member.
#[derive(Clone, Copy, Default)]
struct Home {
    first: u32,
    owned: u32,
}

/// What all hubs own.
pub(super) struct Homes {
    /// Each its part.
    parts: [Home; MOST_HUBS],
    /// The only member, which owns all numbers: one more than a word says.
    alone: Option<u32>,
}

impl Homes {
    /// Those of a well-formed record, and of a slice whose marks are in order.
    pub fn of<W: Word>(record: &Record<W>, book: &Book<W>) -> Homes {
        let mut identifiers = [0; MOST_HUBS];
        let rows = record[ROWS..].chunks_exact(ROW_WORDS);
        let n = record[N].get() as usize;
        for (place, row) in identifiers.iter_mut().zip(rows).take(n) {
            *place = row[0].get();
        }
        let owned = by_preds(record, book, &identifiers)
            .unwrap_or_else(|| by_order(record, book, &identifiers));
        let mut homes = Homes {
            parts: [Home::default(); MOST_HUBS],
            alone: None,
        };
        for (hub, home) in homes.parts.iter_mut().enumerate().take(n) {
            home.owned = owned[hub] as u32;
            home.first = identifiers[hub].wrapping_sub(home.owned).wrapping_add(1);
            if owned[hub] == CIRCLE {
                homes.alone = Some(hub as u32);
            }
        }
        homes
    }

    /// Is each card with the member that owns its machine?
    pub fn hold<W: Word>(&self, cards: &[W]) -> bool {
        let cards = cards.chunks_exact(CARD_WORDS);
        if let Some(hub) = self.alone {
            return cards.fold(0, |merged, card| merged | (card[HUB].get() ^ hub)) == 0;
        }
        let (mut stray, mut hubs) = (false, 0);
        for card in cards {
            let hub = card[HUB].get();
            let home = self.parts[hub as usize % MOST_HUBS];
            stray |= distance(home.first, card[MACHINE].get()) >= home.owned;
            hubs |= hub;
        }
        !stray && hubs < MOST_HUBS as u32
    }
}

/// What each member owns, if the record itself tells the member before each:
/// its pred, and of a newcomer that has none yet the oldpred of whoever has
/// taken it in. No member is nearer than the one before, so the stretches add
/// up to the circle just where it is that one each time.
fn by_preds<W: Word>(
    record: &Record<W>,
    book: &Book<W>,
    identifiers: &[u32; MOST_HUBS],
) -> Option<[u64; MOST_HUBS]> {
    let n = record[N].get();
    let mut before = [NONE; MOST_HUBS];
    for hub in 0..n {
        let row = Row::read(record, hub);
        if row.state > JOINING {
            before[hub as usize] = row.pred;
        }
        if row.flag == 1 && Row::read(record, row.pred).state == JOINING {
            before[row.pred as usize] = row.oldpred;
        }
    }
    let mut owned = [0; MOST_HUBS];
    let mut all = 0;
    for hub in (0..n).filter(|&hub| marked(book, hub)) {
        let pred = before[hub as usize];
        if pred >= n || !marked(book, pred) {
            return None;
        }
        let own = stretch(identifiers[pred as usize], identifiers[hub as usize]);
        owned[hub as usize] = own;
        all += own;
    }
    (all == CIRCLE).then_some(owned)
}

/// The same by the order of the members' identifiers, whatever the record tells.
fn by_order<W: Word>(
    record: &Record<W>,
    book: &Book<W>,
    identifiers: &[u32; MOST_HUBS],
) -> [u64; MOST_HUBS] {
    let mut members = [(0, 0); MOST_HUBS];
    let mut count = 0;
    for hub in (0..record[N].get()).filter(|&hub| marked(book, hub)) {
        members[count] = (identifiers[hub as usize], hub);
        count += 1;
    }
    let members = &mut members[..count];
    members.sort_unstable();
    let mut owned = [0; MOST_HUBS];
    for (place, &(own, hub)) in members.iter().enumerate() {
        let (before, _) = members[(place + count - 1) % count];
        owned[hub as usize] = stretch(before, own);
    }
    owned
}

/// The member that owns a number.
pub(super) fn owner<W: Word>(record: &Record<W>, book: &Book<W>, number: u32) -> u32 {
    (0..record[N].get())
        .filter(|&hub| marked(book, hub))
        .min_by_key(|&hub| distance(number, identifier(record, hub)))
        .unwrap_or(NONE)
}

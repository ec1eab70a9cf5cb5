//! Cards for a slice: so many machines, each with the member that owns it.

use ring_model::cards::{well_formed, FIRST_CARD, FIRST_MEMBER};
use ring_model::generator::Generator;
use ring_model::ledger::Membership;

use super::rings::Ring;

/// Which machines the cards have.
#[derive(Clone, Copy, Debug, PartialEq, Eq)]
pub enum Machines {
    /// Spread over all 32 bits by a fixed seed.
    Spread,
    /// All in one bucket of the engine's hash table.
    OneBucket,
    /// As many in each bucket as the engine bears with, and at last one more.
    FullBuckets,
}

impl Machines {
    /// Its name in the table.
    pub fn name(self) -> &'static str {
        match self {
            Machines::Spread => "spread",
            Machines::OneBucket => "one bucket",
            Machines::FullBuckets => "full buckets",
        }
    }

    /// So many different ones.
    pub fn list(self, count: usize) -> Vec<u32> {
        let mut generator = Generator::new(5);
        let mut list: Vec<u32> = Vec::new();
        while list.len() < count {
            let last = list.len() + 1 == count;
            let fits = |machine| match self {
                Machines::Spread => true,
                Machines::OneBucket => bucket(machine) == 0,
                Machines::FullBuckets if last => bucket(machine) == 0,
                Machines::FullBuckets => bucket(machine) == (list.len() / BORNE) as u64,
            };
            let machine = generator.next_u32();
            if fits(machine) && !list.contains(&machine) {
                list.push(machine);
            }
        }
        list
    }
}

/// The bucket that the engine puts a machine in, as its crates have it in a file
/// `buckets.rt`.
fn bucket(machine: u32) -> u64 {
    u64::from(machine) * 2_654_435_769 / 4_194_304 % 1024
}

/// With so many in a bucket, the engine gives up at the next: one more than it
/// looks at.
const BORNE: usize = 5;

/// Revision and price of the card at this place.
pub fn terms(place: usize) -> (u32, u32) {
    (place as u32 % 7 + 1, 100 + place as u32)
}

/// Fills the slice with cards for these machines.
pub fn fill(ring: &mut Ring, machines: &[u32]) {
    let n = ring.words[1] as usize;
    let names: Vec<u32> = (0..n).map(|hub| ring.words[4 + 7 * hub]).collect();
    let marked = |&hub: &u32| ring.book[FIRST_MEMBER + hub as usize] == 1;
    let members: Vec<u32> = (0..n as u32).filter(marked).collect();
    let ledger = Membership::of(&names, &members);
    ring.book[0] = machines.len() as u32;
    let places = ring.book[FIRST_CARD..].chunks_exact_mut(4);
    for ((at, &machine), card) in machines.iter().enumerate().zip(places) {
        let (revision, price) = terms(at);
        let hub = ledger.owner(machine).expect("there is a member");
        card.copy_from_slice(&[machine, revision, price, hub]);
    }
    assert!(well_formed(&ring.book, &names));
}

#[cfg(test)]
mod tests {
    use std::collections::BTreeMap;
    use std::fs;

    use super::{bucket, fill, Machines, Ring};

    /// How many machines are in each bucket that has some, ascending.
    fn in_buckets(machines: Machines) -> Vec<usize> {
        let mut buckets = BTreeMap::new();
        for machine in machines.list(512) {
            *buckets.entry(bucket(machine)).or_insert(0) += 1;
        }
        let mut counts: Vec<usize> = buckets.into_values().collect();
        counts.sort();
        counts
    }

    #[test]
    fn machines_are_as_their_name_says() {
        assert!(in_buckets(Machines::Spread).len() > 300);
        assert_eq!(in_buckets(Machines::OneBucket), [512]);
        let full = in_buckets(Machines::FullBuckets);
        assert_eq!(full.len(), 103);
        assert_eq!((full[0], full[1], full[101], full[102]), (1, 5, 5, 6));
    }

    /// Where the engine finds its buckets in another way, other numbers are
    /// hostile: then `bucket` and `BORNE` are to be changed.
    #[test]
    fn the_engine_has_these_buckets() {
        let root = concat!(env!("CARGO_MANIFEST_DIR"), "/../../crates");
        let crates = fs::read_dir(root).expect("the engine's crates");
        let mut texts = crates.map(|folder| {
            let file = folder.expect("a crate").path().join("src/buckets.rt");
            fs::read_to_string(file).unwrap_or_default()
        });
        let place = "(u64::from(machine) * 2654435769 / 4194304 % 1024) as usize";
        let most = "const MOST_STEPS: usize = 4;";
        assert!(texts.any(|text| text.contains(place) && text.contains(most)));
    }

    #[test]
    fn a_filled_slice_has_its_cards() {
        let mut ring = Ring::inside(3, false);
        fill(&mut ring, &[7, 5]);
        assert_eq!(ring.book[..4], [2, 1, 1, 1]);
        assert_eq!(ring.book[65..73], [7, 1, 100, 0, 5, 2, 101, 0]);
    }
}

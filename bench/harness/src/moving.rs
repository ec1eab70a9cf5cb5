//! Memory that lies elsewhere in each round, since some places are slow for
//! those who copy the record.

/// What is lent begins at a multiple of this, as memory from malloc does.
pub const ALIGNED: usize = 16;
/// It moves within a page.
const PAGE: usize = 4096;
/// How far it moves from round to round: all places of a page are met.
const MOVE: usize = 17 * ALIGNED;

/// So many bytes, and where they begin.
pub struct Moving {
    memory: Vec<u8>,
    begin: usize,
}

impl Moving {
    pub fn new(size: usize) -> Moving {
        Moving {
            memory: vec![0; size + PAGE + ALIGNED],
            begin: 0,
        }
    }

    /// To the place of this round.
    pub fn move_on(&mut self, round: usize) {
        let address = self.memory.as_ptr() as usize;
        let aligned = address.next_multiple_of(ALIGNED) - address;
        self.begin = aligned + round * MOVE % PAGE;
    }

    /// The bytes from that place on.
    #[inline]
    pub fn bytes(&mut self) -> &mut [u8] {
        &mut self.memory[self.begin..]
    }
}

#[cfg(test)]
mod tests {
    use super::{Moving, ALIGNED, MOVE, PAGE};

    /// 256 places of a page, each met once in so many rounds, with room for all bytes.
    #[test]
    fn every_place_is_met() {
        let mut moving = Moving::new(100);
        let mut places = Vec::new();
        for round in 0..PAGE / ALIGNED {
            moving.move_on(round);
            let bytes = moving.bytes();
            assert!(bytes.len() >= 100);
            places.push(bytes.as_ptr() as usize);
        }
        assert!(places.iter().all(|place| place % ALIGNED == 0));
        assert_eq!(places[1], places[0] + MOVE);
        places.sort();
        places.dedup();
        assert_eq!(places.len(), PAGE / ALIGNED);
    }
}

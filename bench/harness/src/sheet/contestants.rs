//! Who reads and writes sheets: the engine and the `csv` crate, both called as
//! C calls them.

use super::lists::List;

/// `ring_sheet_read` of ring.h.
type Read =
    unsafe extern "C" fn(*const u8, usize, *mut u8, usize, *mut u8, usize, *mut u8, usize) -> u32;
/// `ring_sheet_write` of ring.h.
type Write =
    unsafe extern "C" fn(*const u8, usize, *const u8, usize, *mut u8, usize, *mut u8, usize) -> u32;

mod engine {
    extern "C" {
        pub fn ring_sheet_read(
            text: *const u8,
            text_len: usize,
            identifiers: *mut u8,
            identifiers_len: usize,
            names: *mut u8,
            names_len: usize,
            counts: *mut u8,
            counts_len: usize,
        ) -> u32;
        pub fn ring_sheet_write(
            names: *const u8,
            names_len: usize,
            identifiers: *const u8,
            identifiers_len: usize,
            text: *mut u8,
            text_len: usize,
            counts: *mut u8,
            counts_len: usize,
        ) -> u32;
    }
}

/// From a sheet to a list, or from a list to a sheet.
#[derive(Clone, Copy, Debug)]
pub enum Way {
    Read,
    Write,
}

/// Bytes of outputs that stay as they are, so that a byte too many is noticed.
const BEHIND: usize = 64;
const UNTOUCHED: u8 = 0xBB;

/// The outputs of both ways, with some room behind what is written.
#[derive(Clone, PartialEq)]
pub struct Room {
    identifiers: Vec<u8>,
    names: Vec<u8>,
    text: Vec<u8>,
    counts: [u8; 16],
}

impl Room {
    /// Where nothing was written yet.
    pub fn new(list: &List) -> Room {
        let room = |bytes: &[u8]| vec![UNTOUCHED; bytes.len() + BEHIND];
        Room {
            identifiers: room(&list.identifiers),
            names: room(&list.names),
            text: room(&list.text),
            counts: [UNTOUCHED; 16],
        }
    }

    /// What a call leaves there.
    fn after(way: Way, list: &List) -> Room {
        let mut room = Room::new(list);
        let bytes = match way {
            Way::Read => {
                room.identifiers[..list.identifiers.len()].copy_from_slice(&list.identifiers);
                room.names[..list.names.len()].copy_from_slice(&list.names);
                list.names.len()
            }
            Way::Write => {
                room.text[..list.text.len()].copy_from_slice(&list.text);
                list.text.len()
            }
        };
        room.counts[..8].copy_from_slice(&(list.rows as u64).to_le_bytes());
        room.counts[8..].copy_from_slice(&(bytes as u64).to_le_bytes());
        room
    }
}

/// One of those measured.
pub struct Contestant {
    pub name: &'static str,
    read: Read,
    write: Write,
}

impl Contestant {
    /// Makes the call on this list.
    #[inline]
    pub fn call(&self, way: Way, list: &List, room: &mut Room) -> u32 {
        let (counts, counts_len) = (room.counts.as_mut_ptr(), room.counts.len());
        // The pointers and lengths are those of slices, lent apart.
        unsafe {
            match way {
                Way::Read => (self.read)(
                    list.text.as_ptr(),
                    list.text.len(),
                    room.identifiers.as_mut_ptr(),
                    room.identifiers.len(),
                    room.names.as_mut_ptr(),
                    room.names.len(),
                    counts,
                    counts_len,
                ),
                Way::Write => (self.write)(
                    list.names.as_ptr(),
                    list.names.len(),
                    list.identifiers.as_ptr(),
                    list.identifiers.len(),
                    room.text.as_mut_ptr(),
                    room.text.len(),
                    counts,
                    counts_len,
                ),
            }
        }
    }

    /// Are return and outputs those of the list that the sheet was made from,
    /// byte by byte?
    pub fn agrees(&self, way: Way, list: &List) -> bool {
        let mut room = Room::new(list);
        self.call(way, list, &mut room) == 0 && room == Room::after(way, list)
    }
}

/// How many there are; the engine is the first here too.
pub const COUNT: usize = 2;
pub const CSV: usize = 1;

/// All of them.
pub static CONTESTANTS: [Contestant; COUNT] = [
    Contestant {
        name: "engine",
        read: engine::ring_sheet_read,
        write: engine::ring_sheet_write,
    },
    Contestant {
        name: "csv",
        read: ring_calls::csv_sheet_read,
        write: ring_calls::csv_sheet_write,
    },
];

#[cfg(test)]
mod tests {
    use super::super::lists::{Kind, List};
    use super::{Room, Way, CONTESTANTS, COUNT, UNTOUCHED};

    type Change = (Way, fn(&mut List));

    /// Changes of the list alone, or of its sheet alone: what a right
    /// contestant then does is wrong.
    const CHANGES: [Change; 7] = [
        (Way::Read, |list| list.identifiers[2] ^= 1),
        (Way::Read, |list| list.names[2] ^= 1),
        // The last zero byte is one too many.
        (Way::Read, |list| list.names.truncate(list.names.len() - 1)),
        (Way::Read, |list| list.rows += 1),
        (Way::Read, |list| list.text.push(b'x')),
        (Way::Write, |list| list.text[2] ^= 1),
        (Way::Write, |list| list.text.truncate(list.text.len() - 1)),
    ];

    #[test]
    fn what_differs_is_noticed() {
        for contestant in &CONTESTANTS {
            for (place, (way, change)) in CHANGES.iter().enumerate() {
                let mut list = List::new(Kind::Ring);
                assert!(contestant.agrees(*way, &list));
                change(&mut list);
                let agrees = contestant.agrees(*way, &list);
                assert!(!agrees, "{}: change {place}", contestant.name);
            }
        }
    }

    /// What the document says of csv: it takes what the engine refuses.
    #[test]
    fn csv_is_lenient() {
        let texts: [&[u8]; 6] = [
            b"a,1\nb,2\r\n",
            b"a,1\rb,2\r\n",
            b"a,1\r\n\r\nb,2\r\n",
            b"a\"b,1\r\n",
            b"\"a\"b,1\r\n",
            b"a\0b,1\r\n",
        ];
        for text in texts {
            assert_eq!(returned(text).map(|(number, _)| number), [19, 0]);
        }
    }

    /// And it leaves what it wrote before a fault, where the engine writes
    /// nothing.
    #[test]
    fn csv_stops_where_the_fault_is() {
        let touched = returned(b"a,1\r\nb,x\r\n");
        assert_eq!(touched, [(19, false), (19, true)]);
    }

    /// What each returns, and whether it wrote into an output.
    fn returned(text: &[u8]) -> [(u32, bool); COUNT] {
        let mut list = List::new(Kind::Ring);
        list.text = text.to_vec();
        CONTESTANTS.each_ref().map(|contestant| {
            let mut room = Room::new(&list);
            let number = contestant.call(Way::Read, &list, &mut room);
            let outputs = [&room.identifiers[..], &room.names, &room.counts].concat();
            (number, outputs.iter().any(|&byte| byte != UNTOUCHED))
        })
    }
}

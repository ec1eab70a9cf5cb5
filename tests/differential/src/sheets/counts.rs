//! What the sheets have reached.

use ring_model::bytes::NO_REFUSAL;
use ring_model::refusal::ROOM_SHORT;
use ring_model::sheet::Row;

use crate::reached::{add_all, by_number, Cells};
use crate::sheets::texts::{Making, LONG};

/// Which numbers each call can give; 0 stands for no refusal.
const OF_READ: [usize; 5] = [0, 17, 19, 20, 21];
const OF_WRITE: [usize; 4] = [0, 17, 19, 21];

/// Counts by refusal number.
type Numbers = [u64; 22];

/// Counts of texts and lists.
#[derive(Clone, Default)]
pub struct Sheets {
    /// Texts that were made and read.
    pub texts: u64,
    /// Lists that were written, those of texts read among them.
    pub lists: u64,
    /// Lists that were read, written, and read again as they were.
    pub again: u64,
    read: Numbers,
    written: Numbers,
    /// Texts that are sheets and texts that are none, by their making.
    sheets: [u64; 3],
    none: [u64; 3],
    /// Refused by 21 for identifiers alone, for names alone, for both.
    short: [u64; 3],
    /// Sheets that were read: of no, one or more rows; with a last row that has no end.
    rows: [u64; 3],
    open: u64,
    /// Names that were read with each of these bytes, and empty ones.
    special: [u64; 4],
    empty: u64,
    /// Identifiers that were read with more than ten digits.
    many_digits: u64,
    /// Sheets that were read of many rows, names that were, and identifiers.
    long: [u64; 3],
}

impl Sheets {
    /// Counts a text with the number returned, and its rows if it is a sheet.
    pub fn text(&mut self, making: Making, code: u32, text: &[u8], rows: Option<&[Row]>) {
        self.texts += 1;
        count(&mut self.read, code);
        match rows {
            None => self.none[making as usize] += 1,
            Some(rows) => {
                self.sheets[making as usize] += 1;
                if code == NO_REFUSAL {
                    self.sheet(text, rows);
                }
            }
        }
    }

    /// Counts what a sheet that was read holds.
    fn sheet(&mut self, text: &[u8], rows: &[Row]) {
        self.rows[rows.len().min(2)] += 1;
        self.open += u64::from(!rows.is_empty() && !text.ends_with(b"\r\n"));
        self.long[0] += u64::from(rows.len() >= LONG);
        for Row { name, digits } in rows {
            self.empty += u64::from(name.is_empty());
            self.many_digits += u64::from(digits.len() > 10);
            self.long[1] += u64::from(name.len() >= LONG);
            self.long[2] += u64::from(digits.len() >= LONG);
            for (count, byte) in self.special.iter_mut().zip(b"\",\r\n") {
                *count += u64::from(name.contains(byte));
            }
        }
    }

    /// Counts which outputs were too short, if any was what the text was refused for.
    pub fn room(&mut self, code: u32, room: [usize; 2], need: [usize; 2]) {
        if code == ROOM_SHORT {
            let short = [room[0] < need[0], room[1] < need[1]];
            self.short[usize::from(short[1]) + usize::from(short[0] && short[1])] += 1;
        }
    }

    /// Counts a list with the number returned.
    pub fn list(&mut self, code: u32) {
        self.lists += 1;
        count(&mut self.written, code);
    }

    /// Adds another thread's counts.
    pub fn add(&mut self, other: &Sheets) {
        self.texts += other.texts;
        self.lists += other.lists;
        add_all(&mut self.read, &other.read);
        add_all(&mut self.written, &other.written);
        self.again += other.again;
        add_all(&mut self.sheets, &other.sheets);
        add_all(&mut self.none, &other.none);
        add_all(&mut self.short, &other.short);
        add_all(&mut self.rows, &other.rows);
        self.open += other.open;
        add_all(&mut self.special, &other.special);
        self.empty += other.empty;
        self.many_digits += other.many_digits;
        add_all(&mut self.long, &other.long);
    }

    /// The table: names and counts.
    pub fn rows(&self) -> Vec<(&'static str, Cells)> {
        let three = |counts: &[u64; 3]| by_number(&[0, 1, 2], counts);
        let one = |count: u64| vec![(None, count)];
        vec![
            ("sheets read, 0 or refused by", by_number(&OF_READ, &self.read)),
            ("sheets written, 0 or refused by", by_number(&OF_WRITE, &self.written)),
            ("sheets written and read again", one(self.again)),
            ("texts that are sheets: made whole 0, damaged 1, random 2", three(&self.sheets)),
            ("texts that are none: damaged 1, random 2", by_number(&[1, 2], &self.none)),
            ("21 for identifiers 0, for names 1, for both 2", three(&self.short)),
            ("sheets read of no row 0, one 1, more 2", three(&self.rows)),
            ("sheets read whose last row has no end", one(self.open)),
            (
                "names read with quote 0, comma 1, CR 2, LF 3",
                by_number(&[0, 1, 2, 3], &self.special),
            ),
            ("names read that are empty", one(self.empty)),
            ("identifiers read of more than ten digits", one(self.many_digits)),
            ("read of 65530 and more: rows 0, bytes of a name 1, digits 2", three(&self.long)),
        ]
    }
}

/// Counts a number that was returned.
fn count(numbers: &mut Numbers, code: u32) {
    if let Some(number) = numbers.get_mut(code as usize) {
        *number += 1;
    }
}

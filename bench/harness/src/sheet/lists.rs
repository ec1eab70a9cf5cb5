//! The lists that are measured, and their sheets, by fixed seeds.

use ring_model::generator::Generator;

/// A sheet has at most so many bytes, and no room for another row.
const MEGABYTE: usize = 1 << 20;
/// The most hubs of a ring.
const HUBS: usize = 64;

/// What the rows of a sheet are like.
#[derive(Clone, Copy, Debug, PartialEq, Eq)]
pub enum Kind {
    Plain,
    Heavy,
    Tenth,
    Quoted,
    Ring,
}

impl Kind {
    /// Its name in the table.
    pub fn name(self) -> &'static str {
        match self {
            Kind::Plain => "plain",
            Kind::Heavy => "heavily quoted",
            Kind::Tenth => "one name in ten quoted",
            Kind::Quoted => "quoted, nothing doubled",
            Kind::Ring => "plain, 64 rows",
        }
    }

    fn most_rows(self) -> usize {
        if self == Kind::Ring {
            HUBS
        } else {
            usize::MAX
        }
    }
}

/// Names and identifiers, as `ring_sheet_write` takes them, and their sheet.
pub struct List {
    pub rows: usize,
    pub identifiers: Vec<u8>,
    pub names: Vec<u8>,
    pub text: Vec<u8>,
}

impl List {
    pub fn new(kind: Kind) -> List {
        let mut generator = Generator::new(kind as u64);
        let mut list = List {
            rows: 0,
            identifiers: Vec::new(),
            names: Vec::new(),
            text: Vec::new(),
        };
        while list.rows < kind.most_rows() {
            let (name, field) = name(&mut generator, kind);
            let identifier = generator.next_u32();
            let row = [&field, format!(",{identifier}\r\n").as_bytes()].concat();
            if list.text.len() + row.len() > MEGABYTE {
                break;
            }
            list.rows += 1;
            list.identifiers.extend(identifier.to_le_bytes());
            list.names.extend(name);
            list.names.push(0);
            list.text.extend(row);
        }
        list
    }
}

/// A name, and as the sheet has it.
fn name(generator: &mut Generator, kind: Kind) -> (Vec<u8>, Vec<u8>) {
    let heavy = kind == Kind::Heavy || kind == Kind::Tenth && generator.chance(10);
    let length = 4 + generator.below(20);
    let mut name: Vec<u8> = (0..length).map(|_| byte(generator, heavy)).collect();
    if heavy && !name.contains(&b'"') {
        name[generator.below(length) as usize] = b'"';
    }
    let field = if heavy || kind == Kind::Quoted {
        quoted(&name)
    } else {
        name.clone()
    };
    (name, field)
}

/// A letter, a digit or a blank; in a name that is quoted heavily, one byte in
/// eight is a quote, and now and then one is a comma or a line break.
fn byte(generator: &mut Generator, heavy: bool) -> u8 {
    const ORDINARY: &[u8; 63] = b"ABCDEFGHIJKLMNOPQRSTUVWXYZabcdefghijklmnopqrstuvwxyz0123456789 ";
    match generator.below(24) {
        0..=2 if heavy => b'"',
        3 if heavy => b',',
        4 if heavy => b'\n',
        _ => ORDINARY[generator.below(63) as usize],
    }
}

fn quoted(name: &[u8]) -> Vec<u8> {
    let mut field = vec![b'"'];
    for &byte in name {
        field.push(byte);
        if byte == b'"' {
            field.push(byte);
        }
    }
    field.push(b'"');
    field
}

#[cfg(test)]
mod tests {
    use super::{Kind, List, MEGABYTE};

    fn count(bytes: &[u8], byte: u8) -> usize {
        bytes.iter().filter(|&&other| other == byte).count()
    }

    /// How many names have a byte that must be quoted.
    fn special(list: &List) -> usize {
        let names = list.names.split(|&byte| byte == 0);
        names
            .filter(|name| name.iter().any(|byte| b"\",\r\n".contains(byte)))
            .count()
    }

    #[test]
    fn a_sheet_fills_its_megabyte_but_for_that_of_a_ring() {
        for kind in [Kind::Plain, Kind::Heavy, Kind::Tenth, Kind::Quoted] {
            let length = List::new(kind).text.len();
            // The longest row: 23 quotes.
            assert!((MEGABYTE - 60..=MEGABYTE).contains(&length), "{kind:?}");
        }
        assert_eq!(List::new(Kind::Ring).rows, 64);
    }

    #[test]
    fn each_row_has_its_name_and_identifier() {
        let list = List::new(Kind::Tenth);
        assert_eq!(list.identifiers.len(), 4 * list.rows);
        assert_eq!(count(&list.names, 0), list.rows);
        assert_eq!(list.names.last(), Some(&0));
    }

    #[test]
    fn names_are_as_their_kind_says() {
        for kind in [Kind::Plain, Kind::Quoted, Kind::Ring] {
            assert_eq!(special(&List::new(kind)), 0, "{kind:?}");
        }
        let [plain, quoted, tenth, heavy] =
            [Kind::Plain, Kind::Quoted, Kind::Tenth, Kind::Heavy].map(List::new);
        assert_eq!(count(&plain.text, b'"'), 0);
        assert_eq!(count(&quoted.text, b'"'), 2 * quoted.rows);
        assert!((9..=11).contains(&(100 * special(&tenth) / tenth.rows)));
        assert_eq!(special(&heavy), heavy.rows);
        for byte in *b"\",\n" {
            assert!(count(&heavy.names, byte) > heavy.rows / 3, "{byte}");
        }
    }

    #[test]
    fn one_byte_in_eight_is_of_a_doubled_quote() {
        let heavy = List::new(Kind::Heavy);
        let doubled = count(&heavy.text, b'"') - 2 * heavy.rows;
        let part = doubled as f64 / heavy.text.len() as f64;
        assert!((0.12..0.13).contains(&part), "{part}");
    }
}

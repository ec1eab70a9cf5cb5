//! Which names are quoted, and that reading gives back what was written.

use ring_model::sheet::{hubs, names, read, write, Hub};

use crate::list;

#[test]
fn quoted_where_they_must_be() {
    for byte in 1..=255 {
        let name = [b'a', byte, b'b'];
        let row = match byte {
            b'"' => b"\"a\"\"b\",5\r\n".to_vec(),
            b',' | b'\r' | b'\n' => [b"\"", &name[..], b"\",5\r\n"].concat(),
            _ => [&name[..], b",5\r\n"].concat(),
        };
        assert_eq!(write(&list(&[(&name, 5)])), row);
    }
}

#[test]
fn quoted_names() {
    let forms: [(&[u8], &[u8]); 9] = [
        (b"", b",5\r\n"),
        (b" ", b" ,5\r\n"),
        (b"\"", b"\"\"\"\",5\r\n"),
        (b"\"\"", b"\"\"\"\"\"\",5\r\n"),
        (b"\"a\"", b"\"\"\"a\"\"\",5\r\n"),
        (b"\r\n", b"\"\r\n\",5\r\n"),
        (b",", b"\",\",5\r\n"),
        (b"'", b"',5\r\n"),
        (b"\xEF\xBB\xBF", b"\xEF\xBB\xBF,5\r\n"),
    ];
    for (name, row) in forms {
        assert_eq!(write(&list(&[(name, 5)])), row);
    }
    let every: Vec<(&[u8], u32)> = forms.iter().map(|&(name, _)| (name, 5)).collect();
    let rows: Vec<&[u8]> = forms.iter().map(|&(_, row)| row).collect();
    assert_eq!(write(&list(&every)), rows.concat());
}

#[test]
fn no_hubs() {
    assert_eq!(write(&[]), b"");
    assert_eq!(hubs(b"", &[]), Ok(vec![]));
}

#[test]
fn one_name_for_each_identifier() {
    assert_eq!(hubs(b"a\0", &[7]), Ok(list(&[(b"a", 7)])));
    assert_eq!(hubs(b"\0\0", &[7, 7]), Ok(list(&[(b"", 7), (b"", 7)])));
    assert_eq!(hubs(b"\0a\0", &[1, 2]), Ok(list(&[(b"", 1), (b"a", 2)])));
    let uneven: [(&[u8], &[u32]); 8] = [
        (b"", &[7]),
        (b"a", &[]),
        (b"a", &[7]),
        (b"\0", &[]),
        (b"\0", &[7, 7]),
        (b"\0\0", &[7]),
        (b"a\0b", &[7]),
        (b"a\0b", &[7, 7]),
    ];
    for (names, identifiers) in uneven {
        assert_eq!(
            hubs(names, identifiers),
            Err(19),
            "{names:?} {identifiers:?}"
        );
    }
}

/// Every name of up to four of these bytes, alone and beside its neighbours.
#[test]
fn there_and_back() {
    let mut spiteful: Vec<Vec<u8>> = vec![vec![]];
    let mut last = 0;
    for _ in 0..4 {
        let longer: Vec<Vec<u8>> = spiteful[last..]
            .iter()
            .flat_map(|name| with_one_more(name))
            .collect();
        last = spiteful.len();
        spiteful.extend(longer);
    }
    assert_eq!(spiteful.len(), 1 + 7 + 49 + 343 + 2401);
    let hub = |(place, name): (usize, &Vec<u8>)| Hub {
        name: name.clone(),
        identifier: u32::MAX - place as u32,
    };
    let all: Vec<Hub> = spiteful.iter().enumerate().map(hub).collect();
    for some in all.windows(3).chain(all.chunks(1)).chain([&all[..]]) {
        assert_eq!(read(&write(some)).as_deref(), Ok(some));
        let identifiers: Vec<u32> = some.iter().map(|hub| hub.identifier).collect();
        assert_eq!(hubs(&names(some), &identifiers).as_deref(), Ok(some));
    }
}

fn with_one_more(name: &[u8]) -> Vec<Vec<u8>> {
    let bytes = b"a\",\r\n \xFF".iter();
    bytes.map(|&byte| [name, &[byte]].concat()).collect()
}

//! Lengths of outputs, around what is needed.

use ring_model::bytes::COUNTS_BYTES;
use ring_model::generator::Generator;
use ring_model::sheet::{hubs, write, Row};

use crate::calls::words_of;
use crate::lent::Lent;
use crate::sheets::desk::List;

/// Bytes of identifiers and names that these rows of a text need. A text that is none needs
/// nothing: then it is as long as itself.
pub fn for_text(text: &[u8], rows: Option<&[Row]>) -> [usize; 2] {
    let Some(rows) = rows else {
        return [text.len(); 2];
    };
    [4 * rows.len(), rows.iter().map(|row| row.name.len() + 1).sum()]
}

/// Bytes of text that a list needs; as many as it has names if it is none.
pub fn for_list(list: &List) -> usize {
    let hubs = hubs(&list.names, &words_of(&list.identifiers));
    hubs.map_or(list.names.len(), |hubs| write(&hubs).len())
}

/// A length to lend: mostly just enough.
pub fn around(generator: &mut Generator, need: usize) -> usize {
    match generator.below(16) {
        0 => need.saturating_sub(1),
        1 => generator.below(need as u32) as usize,
        2..=5 => need + 1 + generator.below(9) as usize,
        _ => need,
    }
}

/// Memory for the counts, seldom too short.
pub fn counts_around(generator: &mut Generator) -> Lent {
    let length = match generator.below(32) {
        0 => generator.below(COUNTS_BYTES as u32) as usize,
        1 => COUNTS_BYTES - 1,
        2..=5 => COUNTS_BYTES + generator.below(9) as usize,
        _ => COUNTS_BYTES,
    };
    Lent::new(generator, length)
}

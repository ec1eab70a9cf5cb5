//! Damage to a text: a byte or a piece changed, lost, doubled or moved.

use ring_model::generator::Generator;

use crate::sheets::texts::{one_of, whole};

/// Bytes that are put where they may not belong.
const OUT_OF_PLACE: &[u8] = b"\"\"\",,\r\r\n\n\0\0a0 +-\xFF";

/// One of these, at a random place.
pub fn damage(generator: &mut Generator, text: &mut Vec<u8>) {
    let Some(last) = text.len().checked_sub(1) else {
        text.push(one_of(generator, OUT_OF_PLACE));
        return;
    };
    let [place, other] = [(); 2].map(|()| generator.below(last as u32 + 1) as usize);
    match generator.below(8) {
        0 => text[place] = one_of(generator, OUT_OF_PLACE),
        1 => {
            text.remove(place);
        }
        2 => text.insert(place, text[place]),
        3 => text.swap(place, other),
        4 => text.swap(place, last.min(place + 1)),
        5 => text.truncate(place),
        6 => text.insert(place, one_of(generator, OUT_OF_PLACE)),
        _ => join(generator, text, place),
    }
}

/// Another text behind this one, or behind its first part.
fn join(generator: &mut Generator, text: &mut Vec<u8>, place: usize) {
    if generator.chance(50) {
        text.truncate(place);
    }
    let other = whole(generator);
    text.extend_from_slice(&other);
}

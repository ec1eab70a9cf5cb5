//! Lists to write: sound ones, and names that are not one for each identifier.

use ring_model::generator::Generator;

use crate::lent::random_bytes;
use crate::sheets::desk::List;
use crate::sheets::texts::{identifier, name, one_of};

/// A list, in about half of all cases a sound one, with bytes left over or without.
pub fn some_list(generator: &mut Generator) -> List {
    let mut list = match generator.below(8) {
        0 => random(generator),
        _ => sound(generator),
    };
    if generator.chance(45) {
        unsettle(generator, &mut list);
    }
    let over = generator.below(4) as usize;
    let left_over = random_bytes(generator, over);
    list.identifiers.extend_from_slice(&left_over);
    list
}

/// One name for each identifier.
fn sound(generator: &mut Generator) -> List {
    let (mut names, mut identifiers) = (Vec::new(), Vec::new());
    for _ in 0..generator.below(5) {
        names.extend(name(generator));
        names.push(0);
        identifiers.extend(identifier(generator).to_le_bytes());
    }
    List { names, identifiers }
}

/// Bytes of which many are zero, and about as many identifiers.
fn random(generator: &mut Generator) -> List {
    let names: Vec<u8> =
        (0..generator.below(12)).map(|_| one_of(generator, b"\0\0\0a\",\r\n")).collect();
    let zeros = names.iter().filter(|&&byte| byte == 0).count();
    let hubs = (zeros + generator.below(3) as usize).saturating_sub(1);
    List { names, identifiers: random_bytes(generator, 4 * hubs) }
}

/// One byte or one identifier too many or too few.
fn unsettle(generator: &mut Generator, list: &mut List) {
    let List { names, identifiers } = list;
    let place = generator.below(names.len() as u32 + 1) as usize;
    match generator.below(6) {
        0 => names.insert(place, 0),
        1 => {
            // The next zero byte is lost: two names run together, or the last has no end.
            if let Some(zero) = (place..names.len()).find(|&i| names[i] == 0) {
                names.remove(zero);
            }
        }
        2 => {
            names.pop();
        }
        3 => names.extend(name(generator)),
        4 => identifiers.extend(identifier(generator).to_le_bytes()),
        _ => identifiers.truncate(identifiers.len().saturating_sub(4)),
    }
}

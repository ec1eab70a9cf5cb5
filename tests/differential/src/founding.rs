//! Foundings in both forms: 0 to 66 identifiers and some more, with and without repetition, the
//! smallest at every place, founders that are hubs and founders that are none.

use ring_model::generator::Generator;

use crate::calls::{put_words, Calls, RECORD_BYTES};
use crate::form::Form;
use crate::identifiers::{identifiers, put_smallest};
use crate::lengths::record_lengths;
use crate::lent::Lent;
use crate::pair::Pair;
use crate::reached::Reached;

/// One list of each number of identifiers, with and without repetition.
pub fn batch(
    generator: &mut Generator,
    calls: Calls,
    _number: u64,
    reached: &mut Reached,
) -> Result<(), String> {
    for count in (0..=66).chain([100, 1000]) {
        for repeats in [false, true] {
            let bytes = some_identifiers(generator, count, repeats);
            found(generator, calls, Form::Smallest, &bytes, reached)?;
            for founder in founders(generator, count as u32) {
                found(generator, calls, Form::By(founder), &bytes, reached)?;
            }
        }
    }
    Ok(())
}

/// One founding of both, compared, in a record of some length with anything in it. The identifiers
/// have up to three bytes left over.
fn found(
    generator: &mut Generator,
    calls: Calls,
    form: Form,
    identifiers: &[u8],
    reached: &mut Reached,
) -> Result<(), String> {
    let length = match generator.below(4) {
        0 => record_lengths().nth(generator.below(57) as usize).unwrap_or(0),
        _ => RECORD_BYTES + generator.below(6) as usize,
    };
    let over = generator.below(4) as usize;
    let mut lent = Lent::holding(generator, identifiers, over);
    let mut pair = Pair::new(generator, calls, length, 0);
    pair.found(form, &mut lent, reached).map_err(|what| format!("record of {length} bytes: {what}"))
}

/// Founders at both ends of the list and behind it, at the limits of hub numbers, and any.
pub fn founders(generator: &mut Generator, n: u32) -> Vec<u32> {
    let (hub, any) = (generator.below(n), generator.next_u32());
    vec![0, n.wrapping_sub(1), n, n + 1, 63, 64, 255, 256, u32::MAX, hub, any]
}

/// Identifiers as bytes.
pub fn some_identifiers(generator: &mut Generator, count: usize, repeats: bool) -> Vec<u8> {
    let mut names = if count == 0 { Vec::new() } else { identifiers(generator, count) };
    if count > 0 {
        let place = [0, count - 1, count / 2, generator.below(count as u32) as usize];
        put_smallest(&mut names, place[generator.below(4) as usize]);
    }
    if repeats && count > 1 {
        let (from, to) =
            (generator.below(count as u32) as usize, generator.below(count as u32) as usize);
        names[to] = names[from];
    }
    let mut bytes = vec![0; 4 * count];
    put_words(&mut bytes, &names);
    bytes
}

//! The office sheet: texts of every kind are read, what was read is written back and read again,
//! and lists are written whose names do not fit their identifiers.

pub mod counts;
mod damage;
mod desk;
mod lists;
mod room;
mod texts;
pub mod wrong;

use ring_model::generator::Generator;

use crate::calls::Calls;
use crate::reached::Reached;
use crate::sheets::desk::Desk;
use crate::sheets::lists::some_list;
use crate::sheets::texts::some_text;

/// Texts and lists of a batch.
const TEXTS: u32 = 400;
const LISTS: u32 = 50;

/// Texts, each there and back as far as it gets, then lists.
pub fn batch(
    generator: &mut Generator,
    calls: Calls,
    _number: u64,
    reached: &mut Reached,
) -> Result<(), String> {
    let mut desk = Desk { generator, calls, counts: &mut reached.sheets };
    for _ in 0..TEXTS {
        let (making, text) = some_text(desk.generator);
        desk.there_and_back(making, &text)?;
    }
    for _ in 0..LISTS {
        let list = some_list(desk.generator);
        desk.write(&list)?;
    }
    Ok(())
}

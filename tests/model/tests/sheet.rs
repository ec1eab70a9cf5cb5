//! The office sheet (document 02, 2026-03): which texts are sheets and what
//! they say, the order of the refusals, the room needed, and the way back.

#[path = "sheet/forms.rs"]
mod forms;
#[path = "sheet/grammar.rs"]
mod grammar;
#[path = "sheet/identifiers.rs"]
mod identifiers;
#[path = "sheet/order.rs"]
mod order;
#[path = "sheet/room.rs"]
mod room;
#[path = "sheet/writing.rs"]
mod writing;

use ring_model::bytes::{ring_sheet_read, ring_sheet_write};
use ring_model::sheet::Hub;

/// What every output holds before a call.
const BEFORE: u8 = 0xAA;

/// A list of hubs.
fn list(hubs: &[(&[u8], u32)]) -> Vec<Hub> {
    let hub = |&(name, identifier): &(&[u8], u32)| Hub {
        name: name.to_vec(),
        identifier,
    };
    hubs.iter().map(hub).collect()
}

/// Outputs of three lengths, as a call leaves them: two that it fills, and the
/// counts.
type Outputs = [Vec<u8>; 3];

fn outputs(lengths: [usize; 3]) -> Outputs {
    lengths.map(|length| vec![BEFORE; length])
}

/// Reads with outputs of these lengths: identifiers, names and counts.
fn read_into(text: &[u8], lengths: [usize; 3]) -> (u32, Outputs) {
    let [mut identifiers, mut names, mut counts] = outputs(lengths);
    let code = ring_sheet_read(text, &mut identifiers, &mut names, &mut counts);
    (code, [identifiers, names, counts])
}

/// Writes with outputs of these lengths: text and counts.
fn write_into(names: &[u8], identifiers: &[u8], lengths: [usize; 2]) -> (u32, Vec<u8>, Vec<u8>) {
    let [mut text, mut counts] = lengths.map(|length| vec![BEFORE; length]);
    let code = ring_sheet_write(names, identifiers, &mut text, &mut counts);
    (code, text, counts)
}

/// These bytes, and behind them what was there before, up to this length.
fn within(bytes: &[u8], length: usize) -> Vec<u8> {
    let mut output = vec![BEFORE; length];
    output[..bytes.len()].copy_from_slice(bytes);
    output
}

/// The two counts, each below 256.
fn counted(rows: u8, bytes: u8) -> [u8; 16] {
    [rows, 0, 0, 0, 0, 0, 0, 0, bytes, 0, 0, 0, 0, 0, 0, 0]
}

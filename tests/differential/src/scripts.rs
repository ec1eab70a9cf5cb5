//! Random input of `ringrun`: foundings, commands that mostly are accepted, and lines that do not
//! read.

use ring_model::generator::Generator;
use ring_model::step::step_state;
use ring_model::Command;

use crate::driver::{anything, Phase};
use crate::form::FRAME;
use crate::identifiers::{identifiers, ring_size};
use crate::lent::random_bytes;
use crate::states::founded;

/// Lengths of lines at which something changes: 2, 10, 18 and 514 digits read, one less or more do
/// not.
const EDGES: [usize; 14] = [1, 2, 3, 9, 10, 11, 17, 18, 19, 513, 514, 515, 516, 522];

/// A script of some lines.
pub fn script(generator: &mut Generator) -> Vec<u8> {
    let mut text = Vec::new();
    // Some scripts begin before any founding, when the record is all 0.
    if generator.chance(10) {
        let zero = founded(&[0], FRAME);
        push_command(&mut text, anything(generator, &zero));
    }
    for _ in 0..1 + generator.below(4) {
        ring_lines(generator, &mut text);
    }
    end(generator, &mut text);
    text
}

/// 'A line ends with LF, which the last may lack.'
pub fn end(generator: &mut Generator, text: &mut Vec<u8>) {
    if generator.chance(50) {
        text.pop();
    }
    if generator.chance(20) {
        text.extend_from_slice(&hostile(generator));
    }
}

/// A founding and commands on its ring, hostile lines among them.
fn ring_lines(generator: &mut Generator, text: &mut Vec<u8>) {
    let n = ring_size(generator);
    let names = identifiers(generator, n);
    push_line(text, founding(&names).as_bytes());
    let mut state = founded(&names, FRAME);
    let hostile_share = [0, 3, 30][generator.below(3) as usize];
    for _ in 0..1 + generator.below(2) {
        let phase = Phase::new(generator);
        for _ in 0..phase.calls {
            if generator.chance(hostile_share) {
                push_line(text, &hostile(generator));
            }
            let command = phase.command(generator, &state);
            push_command(text, command);
            // A refused command leaves the state as it was.
            let _ = step_state(&mut state, command.operation, command.x, command.y);
        }
    }
}

/// The frame that founds a ring with these identifiers.
pub fn founding(names: &[u32]) -> String {
    let digits: String = names.iter().map(|name| format!("{name:08X}")).collect();
    format!("F0{digits}")
}

fn push_command(text: &mut Vec<u8>, command: Command) {
    push_line(text, frame(command).as_bytes());
}

/// The command as a frame. An operation of more than two digits makes a line that is too long.
pub fn frame(command: Command) -> String {
    let Command { operation, x, y } = command;
    format!("{operation:02X}{x:08X}{y:08X}")
}

/// The line, and its LF.
pub fn push_line(text: &mut Vec<u8>, line: &[u8]) {
    text.extend_from_slice(line);
    text.push(b'\n');
}

/// Bytes that are no digits; many stand next to the digits in the table of characters.
pub const WRONG: &[u8] = b"af\r\0 G/:@`\x80\xB0\xFF\tx-";

/// A line that mostly does not read. Where it does, the script may know less of the ring than
/// before; engine and model still have to agree.
pub fn hostile(generator: &mut Generator) -> Vec<u8> {
    let mut line = match generator.below(6) {
        0 => random_line(generator),
        1 => return Vec::new(),
        2 => refused_founding(generator),
        3 => b"010000000100000000".to_vec(),
        _ => edge_line(generator),
    };
    if generator.chance(70) && !line.is_empty() {
        let place = generator.below(line.len() as u32) as usize;
        line[place] = pick(generator, WRONG);
    }
    if generator.chance(10) {
        line.push(b'\r');
    }
    if generator.chance(5) {
        line.make_ascii_lowercase();
    }
    line
}

/// Digits of a length at which something changes; long ones are foundings.
fn edge_line(generator: &mut Generator) -> Vec<u8> {
    let length = EDGES[generator.below(EDGES.len() as u32) as usize];
    let digits: &[u8] = if generator.chance(50) { b"0123456789ABCDEF" } else { b"F0" };
    let mut line: Vec<u8> = (0..length).map(|_| pick(generator, digits)).collect();
    if length > 500 {
        line[..2].copy_from_slice(b"F0");
    }
    line
}

/// One of these bytes.
pub fn pick(generator: &mut Generator, bytes: &[u8]) -> u8 {
    bytes[generator.below(bytes.len() as u32) as usize]
}

/// F0 alone, or the same identifier twice.
fn refused_founding(generator: &mut Generator) -> Vec<u8> {
    let name = generator.next_u32();
    let names = [name, generator.next_u32(), name];
    founding(if generator.chance(30) { &[] } else { &names }).into_bytes()
}

/// Any bytes at all, without an end of line; now and then very many.
fn random_line(generator: &mut Generator) -> Vec<u8> {
    let most = [20, 600, 5000, 70000][generator.below(4) as usize];
    let length = generator.below(most) as usize;
    let mut line = random_bytes(generator, length);
    line.retain(|&byte| byte != b'\n');
    line
}

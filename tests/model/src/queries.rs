//! Reading the ring: owner query, hub row and roll call (document 01,
//! 'Reading the ring').

use crate::clockwise::in_interval;
use crate::record::{row_start, well_formed, State, INSIDE, NONE, ROW_WORDS, WANTING_TO_LEAVE};
use crate::refusal;

/// 'A hub holds v when its state is 2 or 3 and v is in (pred, its
/// identifier].' A node in state 4 holds nothing.
pub fn holds(state: &State, node: u32, key: u32) -> bool {
    let row = state.row(node);
    match row.state {
        INSIDE | WANTING_TO_LEAVE => {
            in_interval(key, state.row(row.pred).identifier, row.identifier)
        }
        _ => false,
    }
}

/// The lowest node number that holds the key.
pub fn owner(words: &[u32], key: u32) -> Result<u32, u32> {
    owner_state(&State::read(words)?, key)
}

/// The same on the typed form.
pub fn owner_state(state: &State, key: u32) -> Result<u32, u32> {
    (0..state.n())
        .find(|&node| holds(state, node, key))
        .ok_or(refusal::NO_HOLDER)
}

/// The row of a node as the seven words inside the caller's record, or an
/// empty part of it on a no to 1, 2 or 'hub below n'.
pub fn hub_row(words: &[u32], node: u32) -> &[u32] {
    if !well_formed(words) || node >= words[1] {
        return &words[..0];
    }
    let start = row_start(node as usize);
    &words[start..start + ROW_WORDS]
}

/// The successor traversal from a node: writes the node numbers on the way
/// round and returns how many. Output past them keeps its content, and all of
/// it does on a refusal.
pub fn roll_call(words: &[u32], node: u32, output: &mut [u32]) -> Result<usize, u32> {
    let roll = roll_state(&State::read(words)?, node)?;
    if output.len() < roll.len() {
        return Err(refusal::OUTPUT_SHORT);
    }
    output[..roll.len()].copy_from_slice(&roll);
    Ok(roll.len())
}

/// The way round on the typed form: a roll call's questions but for the
/// record's before them and the output's behind them.
pub fn roll_state(state: &State, node: u32) -> Result<Vec<u32>, u32> {
    if node >= state.n() {
        return Err(refusal::NO_SUCH_NODE);
    }
    if !state.row(node).in_ring() {
        return Err(refusal::NOT_IN_RING);
    }
    way_round(state, node).ok_or(refusal::NO_WAY_ROUND)
}

/// 'Does following succ come back to the start after at most n hubs (a succ
/// of none is a no)?'
fn way_round(state: &State, start: u32) -> Option<Vec<u32>> {
    let mut roll = vec![start];
    let mut next = state.row(start).succ;
    while next != start {
        if next == NONE || roll.len() == state.rows.len() {
            return None;
        }
        roll.push(next);
        next = state.row(next).succ;
    }
    Some(roll)
}

//! Founding a ring and stepping it (document 01, 'Commands and their
//! messages' and 'Questions before a call, in order').
//!
//! A step works on the typed form and writes it back only when it is
//! accepted, so a refused call changes nothing.

use crate::answer::Answer;
use crate::command;
use crate::kinds;
use crate::record::{
    all_different, Message, Row, State, INSIDE, JOINING, MAX_MESSAGES, MAX_NODES, NONE, OUTSIDE,
    RECORD_WORDS, WANTING_TO_LEAVE,
};
use crate::refusal;
use crate::routing::{route, Route};

/// Founds a ring by the hub with the smallest identifier, wherever it stands
/// in the list (document 02, 2026-02).
pub fn fresh(words: &mut [u32], identifiers: &[u32]) -> Result<(), u32> {
    fresh_by(words, identifiers, smallest(identifiers))
}

/// The hub with the smallest identifier. An empty list has none, and is
/// refused whichever hub stands for it.
pub fn smallest(identifiers: &[u32]) -> u32 {
    let hubs = 0..identifiers.len() as u32;
    hubs.min_by_key(|&hub| identifiers[hub as usize])
        .unwrap_or(0)
}

/// Founds a ring by the hub that the caller names: it alone inside, the
/// others outside (document 02, 2026-02).
pub fn fresh_by(words: &mut [u32], identifiers: &[u32], founder: u32) -> Result<(), u32> {
    if words.len() < RECORD_WORDS {
        return Err(refusal::RECORD_SHORT);
    }
    if identifiers.is_empty() || identifiers.len() > MAX_NODES {
        return Err(refusal::IDENTIFIER_COUNT);
    }
    if !all_different(identifiers) {
        return Err(refusal::IDENTIFIERS_REPEAT);
    }
    if founder as usize >= identifiers.len() {
        return Err(refusal::NO_FOUNDER);
    }
    let mut state = State {
        asked: 0,
        rows: identifiers.iter().map(|&i| outside_row(i)).collect(),
        messages: Vec::new(),
    };
    let row = state.row_mut(founder);
    row.state = INSIDE;
    row.pred = founder;
    row.succ = founder;
    state.write(words);
    Ok(())
}

fn outside_row(identifier: u32) -> Row {
    Row {
        identifier,
        state: OUTSIDE,
        lock: false,
        flag: false,
        pred: NONE,
        succ: NONE,
        oldpred: NONE,
    }
}

/// One command: its questions in order, then its effect.
pub fn step(words: &mut [u32], operation: u32, x: u32, y: u32) -> Result<Answer, u32> {
    let mut state = State::read(words)?;
    let answer = step_state(&mut state, operation, x, y)?;
    state.write(words);
    Ok(answer)
}

/// The same on the typed form. After a refusal `state` is as it was.
pub fn step_state(state: &mut State, operation: u32, x: u32, y: u32) -> Result<Answer, u32> {
    questions(state, operation, x, y)?;
    Ok(match operation {
        command::ASK => ask(state, x, y),
        command::JOIN => join(state, x, y),
        command::LEAVE => leave(state, x),
        _ => deliver(state, x, y),
    })
}

/// The questions of a step after 1 and 2. The first no decides.
fn questions(state: &State, operation: u32, x: u32, y: u32) -> Result<(), u32> {
    if operation > command::DELIVER {
        return Err(refusal::NO_SUCH_OPERATION);
    }
    // ask's y is a key and leave's y is not read: only join and deliver read
    // a node number there.
    let reads_y = matches!(operation, command::JOIN | command::DELIVER);
    if x >= state.n() || (reads_y && y >= state.n()) {
        return Err(refusal::NO_SUCH_NODE);
    }
    match operation {
        command::ASK => ask_questions(state, x, y),
        command::JOIN => join_questions(state, x, y),
        command::LEAVE => leave_questions(state, x),
        _ => deliver_questions(state, x, y),
    }
}

fn ask_questions(state: &State, x: u32, key: u32) -> Result<(), u32> {
    if !state.row(x).in_ring() {
        return Err(refusal::NOT_IN_RING);
    }
    if state.asked == u32::MAX {
        return Err(refusal::TICKETS_USED_UP);
    }
    // A full record still answers what its own node owns.
    match route(state, x, None, key) {
        Route::Owned => Ok(()),
        Route::SendOn(_) => room_for_one(state),
    }
}

fn join_questions(state: &State, x: u32, y: u32) -> Result<(), u32> {
    if state.row(x).state != OUTSIDE {
        return Err(refusal::NOT_OUTSIDE);
    }
    if !state.row(y).in_ring() {
        return Err(refusal::NOT_IN_RING);
    }
    room_for_one(state)
}

fn leave_questions(state: &State, x: u32) -> Result<(), u32> {
    let row = state.row(x);
    if !row.in_ring() {
        return Err(refusal::NOT_IN_RING);
    }
    if row.lock {
        return Err(refusal::LOCKED);
    }
    if row.succ == x {
        return Err(refusal::ALONE);
    }
    room_for_one(state)
}

/// Deliver never asks for room: it takes one message out before it sends at
/// most one.
fn deliver_questions(state: &State, x: u32, y: u32) -> Result<(), u32> {
    let Some(position) = oldest_on_link(state, x, y) else {
        return Err(refusal::LINK_EMPTY);
    };
    if !kinds::as_required(state, &state.messages[position]) {
        return Err(refusal::NOT_AS_REQUIRED);
    }
    Ok(())
}

fn room_for_one(state: &State) -> Result<(), u32> {
    if state.messages.len() < MAX_MESSAGES {
        Ok(())
    } else {
        Err(refusal::MESSAGES_FULL)
    }
}

/// Messages stand oldest first, so the first on the link is its oldest.
fn oldest_on_link(state: &State, from: u32, to: u32) -> Option<usize> {
    let on_link = |message: &Message| message.from == from && message.to == to;
    state.messages.iter().position(on_link)
}

/// 0 ask: 'takes ticket = asked, adds 1 to asked, then routes with no sender
/// and hops 0'. The ticket is taken also where the answer comes at once.
fn ask(state: &mut State, x: u32, key: u32) -> Answer {
    let ticket = state.asked;
    state.asked += 1;
    match route(state, x, None, key) {
        Route::Owned => Answer::found(x, key, ticket, 0),
        Route::SendOn(next) => {
            state.send_lookup(x, next, key, ticket, 0);
            Answer::quiet()
        }
    }
}

/// 1 join: 'x becomes joining, locked; sends JOIN (a = x) to y'.
fn join(state: &mut State, x: u32, y: u32) -> Answer {
    let row = state.row_mut(x);
    row.state = JOINING;
    row.lock = true;
    state.send(kinds::JOIN, x, y, x);
    Answer::quiet()
}

/// 2 leave: 'x gets state 3, locked; sends LEAVEREQ to its succ'.
fn leave(state: &mut State, x: u32) -> Answer {
    let row = state.row_mut(x);
    row.state = WANTING_TO_LEAVE;
    row.lock = true;
    let succ = row.succ;
    state.send(kinds::LEAVEREQ, x, succ, 0);
    Answer::quiet()
}

/// 3 deliver: the oldest message of the link is 'taken out and later ones
/// move up'; then its receiver acts.
fn deliver(state: &mut State, from: u32, to: u32) -> Answer {
    match oldest_on_link(state, from, to) {
        Some(position) => {
            let message = state.messages.remove(position);
            kinds::receive(state, &message)
        }
        None => Answer::quiet(),
    }
}

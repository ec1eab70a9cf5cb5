//! The fourteen message kinds: what each needs of its receiver and what the
//! receiver does (document 01, 'Each kind below names what t, the receiver,
//! must be').
//!
//! Throughout, t is the receiver and f the sender, as in document 01.

use crate::answer::{self, Answer};
use crate::record::{
    Message, State, INSIDE, JOINING, LEAVING, MAX_HOPS, NONE, OUTSIDE, WANTING_TO_LEAVE,
};
use crate::routing::{route, Route};

/// A question under way: a is the key, b the ticket.
pub const LOOKUP: u32 = 1;
/// Node a wants to join.
pub const JOIN: u32 = 2;
/// The join is turned away.
pub const JOINRETRY: u32 = 3;
/// The join is granted; a is the joiner's pred.
pub const JOINPOINT: u32 = 4;
/// The sender is the new succ.
pub const NEWSUCC: u32 = 5;
/// The old pred points at newcomer a.
pub const NEWSUCCACK: u32 = 6;
/// The join is over.
pub const JOINDONE: u32 = 7;
/// The sender wants to leave.
pub const LEAVEREQ: u32 = 8;
/// The leave is turned away.
pub const LEAVERETRY: u32 = 9;
/// The leave is granted.
pub const LEAVEGRANT: u32 = 10;
/// The sender leaves; a is its pred.
pub const LEAVEPOINT: u32 = 11;
/// The sender is the succ from now on.
pub const UPDATESUCC: u32 = 12;
/// Nothing more comes over this link.
pub const STOPFORWARD: u32 = 13;
/// The leave is over.
pub const LEAVEDONE: u32 = 14;

impl State {
    /// 'A sent message goes last.' Fields that a kind does not name are 0.
    pub fn send(&mut self, kind: u32, from: u32, to: u32, a: u32) {
        self.messages.push(Message {
            kind,
            from,
            to,
            a,
            b: 0,
            hops: 0,
        });
    }

    /// A lookup carries a ticket and hops besides its key.
    pub fn send_lookup(&mut self, from: u32, to: u32, key: u32, ticket: u32, hops: u32) {
        self.messages.push(Message {
            kind: LOOKUP,
            from,
            to,
            a: key,
            b: ticket,
            hops,
        });
    }
}

/// Question 10: 'Receiver, and hub a for JOIN, as required?' Only what the
/// kind's rule names is asked.
pub fn as_required(state: &State, message: &Message) -> bool {
    let t = state.row(message.to);
    match message.kind {
        LOOKUP | LEAVEREQ => t.in_ring(),
        JOIN => state.row(message.a).state == JOINING,
        JOINRETRY | JOINPOINT => t.state == JOINING,
        NEWSUCC | UPDATESUCC => matches!(t.state, INSIDE | WANTING_TO_LEAVE),
        NEWSUCCACK => t.flag,
        JOINDONE | LEAVEDONE => t.state == INSIDE && t.lock && !t.flag,
        LEAVERETRY | LEAVEGRANT => t.state == WANTING_TO_LEAVE,
        LEAVEPOINT => t.state == INSIDE && t.lock,
        STOPFORWARD => t.state == LEAVING,
        _ => false,
    }
}

/// What the receiver does with a message that was just taken out and whose
/// requirement holds.
pub fn receive(state: &mut State, message: &Message) -> Answer {
    match message.kind {
        LOOKUP => lookup(state, message),
        JOIN => join(state, message),
        JOINRETRY => joinretry(state, message),
        JOINPOINT => joinpoint(state, message),
        NEWSUCC => newsucc(state, message),
        NEWSUCCACK => newsuccack(state, message),
        JOINDONE => joindone(state, message),
        LEAVEREQ => leavereq(state, message),
        LEAVERETRY => leaveretry(state, message),
        LEAVEGRANT => leavegrant(state, message),
        LEAVEPOINT => leavepoint(state, message),
        UPDATESUCC => updatesucc(state, message),
        STOPFORWARD => stopforward(state, message),
        LEAVEDONE => leavedone(state, message),
        _ => Answer::quiet(),
    }
}

/// A hop is a mobile link used, so a message from a node to itself adds none
/// (document 02, 2026-01). At 65535 they stay.
fn hops_with_this_one(message: &Message) -> u32 {
    let links = u32::from(message.from != message.to);
    (message.hops + links).min(MAX_HOPS)
}

/// 1: hops grow first, at the owner too; then routed.
fn lookup(state: &mut State, message: &Message) -> Answer {
    let t = message.to;
    let (key, ticket) = (message.a, message.b);
    let hops = hops_with_this_one(message);
    match route(state, t, Some(message.from), key) {
        Route::Owned => Answer::found(t, key, ticket, hops),
        Route::SendOn(next) => {
            state.send_lookup(t, next, key, ticket, hops);
            Answer::quiet()
        }
    }
}

/// 2: a receiver that is not in the ring cannot route and turns the join away.
fn join(state: &mut State, message: &Message) -> Answer {
    let t = message.to;
    let joiner = message.a;
    if !state.row(t).in_ring() {
        state.send(JOINRETRY, t, joiner, 0);
        return Answer::quiet();
    }
    let key = state.row(joiner).identifier;
    match route(state, t, Some(message.from), key) {
        Route::Owned => join_at_owner(state, t, joiner),
        Route::SendOn(next) => {
            state.send(JOIN, t, next, joiner);
            Answer::quiet()
        }
    }
}

/// 2, at the owner: one join or leave at a time, so a taken lock turns the
/// join away. The lock stays taken until NEWSUCCACK.
fn join_at_owner(state: &mut State, t: u32, joiner: u32) -> Answer {
    if state.row(t).lock {
        state.send(JOINRETRY, t, joiner, 0);
        return Answer::quiet();
    }
    let row = state.row_mut(t);
    row.lock = true;
    row.flag = true;
    row.oldpred = row.pred;
    row.pred = joiner;
    let oldpred = row.oldpred;
    state.send(JOINPOINT, t, joiner, oldpred);
    Answer::naming(answer::ENTERED, joiner)
}

/// 3: the joiner is outside again and may try anew.
fn joinretry(state: &mut State, message: &Message) -> Answer {
    let row = state.row_mut(message.to);
    row.state = OUTSIDE;
    row.lock = false;
    Answer::naming(answer::JOIN_TURNED_AWAY, message.to)
}

/// 4: the joiner is inside, still locked, and tells its pred.
fn joinpoint(state: &mut State, message: &Message) -> Answer {
    let row = state.row_mut(message.to);
    row.state = INSIDE;
    row.pred = message.a;
    row.succ = message.from;
    state.send(NEWSUCC, message.to, message.a, 0);
    Answer::quiet()
}

/// 5: the acknowledgement goes to the succ from before the change, behind
/// everything already sent over that link.
fn newsucc(state: &mut State, message: &Message) -> Answer {
    let oldsucc = state.row(message.to).succ;
    state.send(NEWSUCCACK, message.to, oldsucc, message.from);
    state.row_mut(message.to).succ = message.from;
    Answer::quiet()
}

/// 6: the old link has run dry, so sending on to the newcomer ends.
fn newsuccack(state: &mut State, message: &Message) -> Answer {
    let row = state.row_mut(message.to);
    row.flag = false;
    row.oldpred = NONE;
    row.lock = false;
    state.send(JOINDONE, message.to, message.a, 0);
    Answer::quiet()
}

/// 7: the join is over at the joiner.
fn joindone(state: &mut State, message: &Message) -> Answer {
    state.row_mut(message.to).lock = false;
    Answer::naming(answer::JOINED, message.to)
}

/// 8: a taken lock turns the leave away; a free one is taken for it.
fn leavereq(state: &mut State, message: &Message) -> Answer {
    let row = state.row_mut(message.to);
    let was_locked = row.lock;
    row.lock = true;
    let reply = if was_locked { LEAVERETRY } else { LEAVEGRANT };
    state.send(reply, message.to, message.from, 0);
    Answer::quiet()
}

/// 9: the leaver stays inside and may try anew.
fn leaveretry(state: &mut State, message: &Message) -> Answer {
    let row = state.row_mut(message.to);
    row.state = INSIDE;
    row.lock = false;
    Answer::naming(answer::LEAVE_TURNED_AWAY, message.to)
}

/// 10: from here on the leaver only sends on.
fn leavegrant(state: &mut State, message: &Message) -> Answer {
    let row = state.row_mut(message.to);
    row.state = LEAVING;
    let pred = row.pred;
    state.send(LEAVEPOINT, message.to, message.from, pred);
    Answer::quiet()
}

/// 11: the successor takes over the leaver's range.
fn leavepoint(state: &mut State, message: &Message) -> Answer {
    state.row_mut(message.to).pred = message.a;
    state.send(UPDATESUCC, message.to, message.a, 0);
    Answer::naming(answer::GONE, message.from)
}

/// 12: the leaver, the succ from before the change, hears last over this link
/// that nothing more comes.
fn updatesucc(state: &mut State, message: &Message) -> Answer {
    let oldsucc = state.row(message.to).succ;
    state.send(STOPFORWARD, message.to, oldsucc, 0);
    state.row_mut(message.to).succ = message.from;
    Answer::quiet()
}

/// 13: the leaver tells its succ, then forgets all neighbours.
fn stopforward(state: &mut State, message: &Message) -> Answer {
    let succ = state.row(message.to).succ;
    state.send(LEAVEDONE, message.to, succ, 0);
    let row = state.row_mut(message.to);
    row.state = OUTSIDE;
    row.lock = false;
    row.pred = NONE;
    row.succ = NONE;
    row.oldpred = NONE;
    Answer::naming(answer::LEFT, message.to)
}

/// 14: the leave is over at the successor.
fn leavedone(state: &mut State, message: &Message) -> Answer {
    state.row_mut(message.to).lock = false;
    Answer::quiet()
}

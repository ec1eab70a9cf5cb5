//! What `inspect` prints (docs/INSPECT.md, 'Answers').

use crate::answer::{self, Answer, FOUND, QUIET};
use crate::kinds::{self, JOIN, JOINPOINT, LEAVEPOINT, LOOKUP, NEWSUCCACK};
use crate::ledger;
use crate::record::{self, Message, State, NONE};
use crate::refusal;
use crate::tally::{Tally, REFUSED};

/// The answer to what does not read.
pub const UNREADABLE: &str = "does not read";

/// What a place of a roll call's output holds before the call: no hub has
/// this number.
pub const UNWRITTEN: u32 = u32::MAX;

/// The outcome of a fresh call or of a step.
pub fn outcome(outcome: &Result<Answer, u32>) -> String {
    match outcome {
        Ok(answer) => accepted(answer),
        &Err(number) => refused(number),
    }
}

/// An answer with the fields that it names.
fn accepted(answer: &Answer) -> String {
    let name = answer_name(answer.kind);
    let Answer {
        hub,
        number,
        ticket,
        hops,
        ..
    } = answer;
    match answer.kind {
        QUIET => name.to_string(),
        FOUND => format!("{name}: hub {hub}, number {number}, ticket {ticket}, hops {hops}"),
        _ => format!("{name}: hub {hub}"),
    }
}

/// A refusal by its number and its name.
fn refused(number: u32) -> String {
    format!("refused {number} ({})", refusal_name(number))
}

/// The row of a hub, or 'none' for an empty part.
pub fn row(hub: u32, row: &[u32]) -> String {
    let &[identifier, state, lock, flag, pred, succ, oldpred] = row else {
        return format!("row {hub}: none");
    };
    let state = state_name(state);
    let lock = if lock == 0 { "free" } else { "taken" };
    let flag = if flag == 0 { "down" } else { "up" };
    let [pred, succ, oldpred] = [pred, succ, oldpred].map(pointer);
    format!(
        "row {hub}: identifier {identifier}, {state}, lock {lock}, flag {flag}, \
         pred {pred}, succ {succ}, oldpred {oldpred}"
    )
}

fn pointer(hub: u32) -> String {
    match hub {
        NONE => "none".to_string(),
        hub => hub.to_string(),
    }
}

/// A roll call: its length or refusal, then every place of its output.
pub fn roll(hub: u32, length: Result<usize, u32>, output: &[u32]) -> String {
    let length = match length {
        Ok(length) => format!("length {length}"),
        Err(number) => refused(number),
    };
    let place = |&hub: &u32| match hub {
        UNWRITTEN => " -".to_string(),
        hub => format!(" {hub}"),
    };
    let places: String = output.iter().map(place).collect();
    format!("roll from {hub}, {length}:{places}")
}

/// An owner query.
pub fn owner(number: u32, owner: Result<u32, u32>) -> String {
    match owner {
        Ok(hub) => format!("owner of {number}: hub {hub}"),
        Err(refusal) => format!("owner of {number}: {}", refused(refusal)),
    }
}

/// The waiting messages, a line each below the line that counts them.
pub fn waiting(state: &Result<State, u32>) -> String {
    let state = match state {
        Ok(state) => state,
        &Err(number) => return format!("waiting: {}", refused(number)),
    };
    let messages: String = state.messages.iter().map(message).collect();
    format!(
        "waiting: messages {}, questions {}{messages}",
        state.messages.len(),
        ledger::waiting(state)
    )
}

/// A message, with the LF before it.
fn message(message: &Message) -> String {
    let kind = kind_name(message.kind);
    let Message {
        from,
        to,
        a,
        b,
        hops,
        ..
    } = message;
    let fields = match message.kind {
        LOOKUP => format!(": number {a}, ticket {b}, hops {hops}"),
        JOIN | JOINPOINT | NEWSUCCACK | LEAVEPOINT => format!(": hub {a}"),
        _ => String::new(),
    };
    format!("\n{kind} from {from} to {to}{fields}")
}

/// The tally, each count by the name of its answer.
pub fn counts(tally: &Tally) -> String {
    let name = |place: usize| match place {
        REFUSED => "refused",
        kind => answer_name(kind as u32),
    };
    let count = |(place, count): (usize, &u64)| format!("{} {count}", name(place));
    let counts: Vec<String> = tally.counts.iter().enumerate().map(count).collect();
    format!("counts: {}", counts.join(", "))
}

fn answer_name(kind: u32) -> &'static str {
    match kind {
        answer::QUIET => "quiet",
        answer::FOUND => "found",
        answer::ENTERED => "entered",
        answer::GONE => "gone",
        answer::JOIN_TURNED_AWAY => "join turned away",
        answer::LEAVE_TURNED_AWAY => "leave turned away",
        answer::JOINED => "joined",
        answer::LEFT => "left",
        _ => unreachable!("document 01 has no such answer"),
    }
}

fn state_name(state: u32) -> &'static str {
    match state {
        record::OUTSIDE => "outside",
        record::JOINING => "joining",
        record::INSIDE => "inside",
        record::WANTING_TO_LEAVE => "wanting to leave",
        record::LEAVING => "leaving",
        _ => unreachable!("a well-formed record has no such state"),
    }
}

fn kind_name(kind: u32) -> &'static str {
    match kind {
        kinds::LOOKUP => "LOOKUP",
        kinds::JOIN => "JOIN",
        kinds::JOINRETRY => "JOINRETRY",
        kinds::JOINPOINT => "JOINPOINT",
        kinds::NEWSUCC => "NEWSUCC",
        kinds::NEWSUCCACK => "NEWSUCCACK",
        kinds::JOINDONE => "JOINDONE",
        kinds::LEAVEREQ => "LEAVEREQ",
        kinds::LEAVERETRY => "LEAVERETRY",
        kinds::LEAVEGRANT => "LEAVEGRANT",
        kinds::LEAVEPOINT => "LEAVEPOINT",
        kinds::UPDATESUCC => "UPDATESUCC",
        kinds::STOPFORWARD => "STOPFORWARD",
        kinds::LEAVEDONE => "LEAVEDONE",
        _ => unreachable!("a well-formed record has no such kind"),
    }
}

/// The name of a refusal number. No line is refused by 18, since a founding
/// frame names hub 0, nor by the sheet's 19 to 21, an offer's 22 to 24 or a
/// route's 25 and 26; but each number has its name.
pub fn refusal_name(number: u32) -> &'static str {
    match number {
        refusal::RECORD_SHORT => "record short",
        refusal::NOT_WELL_FORMED => "not well formed",
        refusal::NO_SUCH_OPERATION => "no operation",
        refusal::NO_SUCH_NODE => "no hub",
        refusal::NOT_IN_RING => "not in ring",
        refusal::NOT_OUTSIDE => "not outside",
        refusal::LOCKED => "locked",
        refusal::ALONE => "last hub",
        refusal::LINK_EMPTY => "no message",
        refusal::NOT_AS_REQUIRED => "not expected",
        refusal::MESSAGES_FULL => "messages full",
        refusal::TICKETS_USED_UP => "tickets used up",
        refusal::IDENTIFIER_COUNT => "identifier count",
        refusal::IDENTIFIERS_REPEAT => "identifier twice",
        refusal::NO_HOLDER => "no holder",
        refusal::NO_WAY_ROUND => "no way round",
        refusal::OUTPUT_SHORT => "output short",
        refusal::NO_FOUNDER => "no founder",
        refusal::NO_SHEET => "no sheet",
        refusal::IDENTIFIER_TOO_LARGE => "identifier too large",
        refusal::ROOM_SHORT => "room short",
        refusal::REVISION_LOWER => "revision lower",
        refusal::PRICE_DIFFERS => "price differs",
        refusal::CARDS_FULL => "cards full",
        refusal::ROUTE_LONG => "route long",
        refusal::PLACES_SHORT => "places short",
        _ => unreachable!("the documents have no such refusal"),
    }
}

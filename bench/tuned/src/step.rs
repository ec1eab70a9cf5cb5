//! Founding a ring and stepping it (document 01, 'Commands and their
//! messages' and 'Questions before a call, in order').
//!
//! Every question is asked before the first word is written.

use crate::answer::{kind, Answer};
use crate::check::Check;
use crate::kinds::{self, receive};
use crate::record::{
    checked_mut, message_start, waiting, Message, Record, Row, ASKED, FORM, INSIDE, JOINING, M,
    MESSAGES, MESSAGE_WORDS, MOST_HUBS, MOST_MESSAGES, N, NONE, OUTSIDE, RECORD_WORDS, ROWS,
    ROW_WORDS, WANTING,
};
use crate::refusal;
use crate::routing::next_hub;
use crate::well_formed::repeats;
use crate::word::Word;

/// Founds a ring: the hub with the smallest identifier inside, the others
/// outside, no message (document 02, 2026-02).
pub fn fresh<W: Word>(words: &mut [W], identifiers: &[W]) -> Result<(), u32> {
    fresh_by(words, identifiers, smallest(identifiers))
}

/// The place of the smallest identifier. Of none at all, any place will do:
/// that list is refused.
pub(crate) fn smallest<W: Word>(identifiers: &[W]) -> u32 {
    let hub = (0..identifiers.len()).min_by_key(|&hub| identifiers[hub].get());
    hub.unwrap_or(0) as u32
}

/// The same, by the hub that is named.
pub fn fresh_by<W: Word>(words: &mut [W], identifiers: &[W], founder: u32) -> Result<(), u32> {
    let record = words.get_mut(..RECORD_WORDS).ok_or(refusal::RECORD_SHORT)?;
    let n = identifiers.len();
    if n == 0 || n > MOST_HUBS {
        return Err(refusal::IDENTIFIER_COUNT);
    }
    let mut numbers = [0; MOST_HUBS];
    for (number, word) in numbers.iter_mut().zip(identifiers) {
        *number = word.get();
    }
    if repeats(&numbers, n) {
        return Err(refusal::IDENTIFIER_TWICE);
    }
    if founder >= n as u32 {
        return Err(refusal::NO_FOUNDER);
    }
    record.fill(W::of(0));
    record[0] = W::of(FORM);
    record[N] = W::of(n as u32);
    let rows = record[ROWS..MESSAGES].chunks_exact_mut(ROW_WORDS);
    for (row, &identifier) in rows.zip(identifiers) {
        let none = W::of(NONE);
        let zero = W::of(0);
        row.copy_from_slice(&[identifier, zero, zero, zero, none, none, none]);
    }
    let row = ROWS + ROW_WORDS * founder as usize;
    record[row + 1] = W::of(INSIDE);
    record[row + 4] = W::of(founder);
    record[row + 5] = W::of(founder);
    Ok(())
}

/// One command.
pub fn step<C: Check, W: Word>(
    words: &mut [W],
    operation: u32,
    x: u32,
    y: u32,
) -> Result<Answer, u32> {
    let record = checked_mut::<C, W>(words)?;
    run(record, operation, x, y, |_| Ok(()))
}

/// One command on a record that is well formed. What a delivery would answer
/// is put before `last`, behind all other questions.
pub(crate) fn run<W: Word>(
    record: &mut Record<W>,
    operation: u32,
    x: u32,
    y: u32,
    last: impl FnOnce(Answer) -> Result<(), u32>,
) -> Result<Answer, u32> {
    let n = record[N].get();
    let reads_y = match operation {
        0 | 2 => false,
        1 | 3 => true,
        _ => return Err(refusal::NO_OPERATION),
    };
    if x >= n || (reads_y && y >= n) {
        return Err(refusal::NO_HUB);
    }
    match operation {
        0 => ask(record, x, y),
        1 => join(record, x, y),
        2 => leave(record, x),
        _ => deliver(record, x, y, last),
    }
}

/// 0: a ticket, then an answer at once or a LOOKUP.
fn ask<W: Word>(record: &mut Record<W>, x: u32, number: u32) -> Result<Answer, u32> {
    let row = asked_row(record, x)?;
    ask_at(record, x, &row, number)
}

/// The row of a hub that can be asked.
pub(crate) fn asked_row<W: Word>(record: &Record<W>, x: u32) -> Result<Row, u32> {
    let row = Row::read(record, x);
    if row.in_ring() {
        Ok(row)
    } else {
        Err(refusal::NOT_IN_RING)
    }
}

/// A question at a hub that has this row, which it leaves as it is.
#[inline]
pub(crate) fn ask_at<W: Word>(
    record: &mut Record<W>,
    x: u32,
    row: &Row,
    number: u32,
) -> Result<Answer, u32> {
    let ticket = record[ASKED].get();
    let asked = ticket.checked_add(1).ok_or(refusal::TICKETS_USED_UP)?;
    let answer = match next_hub(record, row, None, number) {
        None => Answer {
            kind: kind::FOUND,
            hub: x,
            number,
            ticket,
            hops: 0,
        },
        Some(to) => {
            let lookup = Message {
                kind: kinds::LOOKUP,
                from: x,
                to,
                a: number,
                b: ticket,
                hops: 0,
            };
            send(record, lookup)?;
            Answer::default()
        }
    };
    record[ASKED] = W::of(asked);
    Ok(answer)
}

/// 1: joining, locked, and a JOIN to the contact.
fn join<W: Word>(record: &mut Record<W>, x: u32, contact: u32) -> Result<Answer, u32> {
    let mut row = Row::read(record, x);
    if row.state != OUTSIDE {
        return Err(refusal::NOT_OUTSIDE);
    }
    if !Row::read(record, contact).in_ring() {
        return Err(refusal::NOT_IN_RING);
    }
    let message = Message {
        kind: kinds::JOIN,
        from: x,
        to: contact,
        a: x,
        ..Message::default()
    };
    send(record, message)?;
    row.state = JOINING;
    row.lock = 1;
    row.write(record, x);
    Ok(Answer::default())
}

/// 2: wanting to leave, locked, and a LEAVEREQ to the succ.
fn leave<W: Word>(record: &mut Record<W>, x: u32) -> Result<Answer, u32> {
    let mut row = Row::read(record, x);
    if !row.in_ring() {
        return Err(refusal::NOT_IN_RING);
    }
    if row.lock != 0 {
        return Err(refusal::LOCKED);
    }
    if row.succ == x {
        return Err(refusal::LAST_HUB);
    }
    let message = Message {
        kind: kinds::LEAVEREQ,
        from: x,
        to: row.succ,
        ..Message::default()
    };
    send(record, message)?;
    row.state = WANTING;
    row.lock = 1;
    row.write(record, x);
    Ok(Answer::default())
}

/// 3: the oldest message of the link. Deliver needs no room: what it sends
/// takes the place that it made free.
fn deliver<W: Word>(
    record: &mut Record<W>,
    from: u32,
    to: u32,
    last: impl FnOnce(Answer) -> Result<(), u32>,
) -> Result<Answer, u32> {
    // Both words at once: a sender alone is no news worth a branch.
    let on_link = |words: &[W]| (words[1].get() == from) & (words[2].get() == to);
    let j = waiting(record)
        .position(on_link)
        .ok_or(refusal::NO_MESSAGE)?;
    let start = message_start(j);
    let message = Message::of_words(&record[start..start + MESSAGE_WORDS]);
    let effect = receive(record, message)?;
    last(effect.answer)?;
    effect.row.write(record, to);
    let m = record[M].get() as usize;
    record.copy_within(message_start(j + 1)..message_start(m), start);
    effect.sent.unwrap_or_default().write(record, m - 1);
    if effect.sent.is_none() {
        record[M] = W::of(m as u32 - 1);
    }
    Ok(effect.answer)
}

/// Adds a message as the last, if there is room.
fn send<W: Word>(record: &mut Record<W>, message: Message) -> Result<(), u32> {
    let m = record[M].get();
    if m as usize >= MOST_MESSAGES {
        return Err(refusal::MESSAGES_FULL);
    }
    message.write(record, m as usize);
    record[M] = W::of(m + 1);
    Ok(())
}

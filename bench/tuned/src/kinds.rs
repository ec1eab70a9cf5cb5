//! The fourteen kinds: what each needs of its receiver, and what that does
//! (document 01, 'Each kind below names what t, the receiver, must be').

use crate::answer::{kind, Answer};
use crate::record::{Message, Record, Row, INSIDE, MOST_HOPS, WANTING};
use crate::refusal;
use crate::routing::next_hub;
use crate::word::Word;

pub(crate) const LOOKUP: u32 = 1;
pub(crate) const JOIN: u32 = 2;
pub(crate) const JOINRETRY: u32 = 3;
pub(crate) const JOINPOINT: u32 = 4;
pub(crate) const NEWSUCC: u32 = 5;
pub(crate) const NEWSUCCACK: u32 = 6;
pub(crate) const JOINDONE: u32 = 7;
pub(crate) const LEAVEREQ: u32 = 8;
pub(crate) const LEAVERETRY: u32 = 9;
pub(crate) const LEAVEGRANT: u32 = 10;
pub(crate) const LEAVEPOINT: u32 = 11;
pub(crate) const UPDATESUCC: u32 = 12;
pub(crate) const STOPFORWARD: u32 = 13;
pub(crate) const LEAVEDONE: u32 = 14;

/// What a delivery does: the receiver's row afterwards, at most one message
/// sent, and the answer. Nothing is written before it is complete.
pub(crate) struct Effect {
    pub row: Row,
    pub sent: Option<Message>,
    pub answer: Answer,
}

/// A receiver with the message that it gets, and its row, which the rules
/// change in place.
pub(crate) struct Delivery<'a, W: Word> {
    pub record: &'a Record<W>,
    pub message: Message,
    pub row: Row,
}

/// What an accepted rule gives besides the changed row.
pub(crate) type Outcome = Result<(Option<Message>, Answer), u32>;

/// The delivery of this message, or 10 where the receiver is not as required.
pub(crate) fn receive<W: Word>(record: &Record<W>, message: Message) -> Result<Effect, u32> {
    let row = Row::read(record, message.to);
    let mut delivery = Delivery {
        record,
        message,
        row,
    };
    let (sent, answer) = delivery.act()?;
    Ok(Effect {
        row: delivery.row,
        sent,
        answer,
    })
}

impl<W: Word> Delivery<'_, W> {
    fn act(&mut self) -> Outcome {
        match self.message.kind {
            LOOKUP => self.lookup(),
            JOIN => self.join(),
            JOINRETRY => self.joinretry(),
            JOINPOINT => self.joinpoint(),
            NEWSUCC => self.succ_changes(NEWSUCCACK, self.message.from),
            NEWSUCCACK => self.newsuccack(),
            JOINDONE => self.unlock(Answer::naming(kind::JOINED, self.message.to)),
            LEAVEREQ => self.leavereq(),
            LEAVERETRY => self.leaveretry(),
            LEAVEGRANT => self.leavegrant(),
            LEAVEPOINT => self.leavepoint(),
            UPDATESUCC => self.succ_changes(STOPFORWARD, 0),
            STOPFORWARD => self.stopforward(),
            LEAVEDONE => self.unlock(Answer::default()),
            _ => Err(refusal::NOT_EXPECTED),
        }
    }

    /// Refuses unless the receiver is as its kind needs.
    pub fn needs(&self, as_required: bool) -> Result<(), u32> {
        if as_required {
            Ok(())
        } else {
            Err(refusal::NOT_EXPECTED)
        }
    }

    /// A message of the receiver's without ticket and hops.
    pub fn send(&self, kind: u32, to: u32, a: u32) -> Option<Message> {
        let from = self.message.to;
        Some(Message {
            kind,
            from,
            to,
            a,
            ..Message::default()
        })
    }

    /// 1: hops grow, at the owner too, but for a message of the receiver's own.
    fn lookup(&self) -> Outcome {
        self.needs(self.row.in_ring())?;
        let Message { from, to, a, b, .. } = self.message;
        let hops = (self.message.hops + u32::from(from != to)).min(MOST_HOPS);
        Ok(match next_hub(self.record, &self.row, Some(from), a) {
            None => (
                None,
                Answer {
                    kind: kind::FOUND,
                    hub: to,
                    number: a,
                    ticket: b,
                    hops,
                },
            ),
            Some(next) => {
                let sent = Message {
                    kind: LOOKUP,
                    from: to,
                    to: next,
                    a,
                    b,
                    hops,
                };
                (Some(sent), Answer::default())
            }
        })
    }

    /// 5 and 12: the old succ hears of it, then the sender is the succ.
    fn succ_changes(&mut self, kind: u32, a: u32) -> Outcome {
        self.needs(matches!(self.row.state, INSIDE | WANTING))?;
        let sent = self.send(kind, self.row.succ, a);
        self.row.succ = self.message.from;
        Ok((sent, Answer::default()))
    }

    /// 7 and 14: the last message of a join, of a leave.
    fn unlock(&mut self, answer: Answer) -> Outcome {
        let Row {
            state, lock, flag, ..
        } = self.row;
        self.needs(state == INSIDE && lock == 1 && flag == 0)?;
        self.row.lock = 0;
        Ok((None, answer))
    }
}

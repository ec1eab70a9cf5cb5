//! What a hub does with the messages of a join (document 01, kinds 2 to 7).

use crate::answer::{kind, Answer};
use crate::kinds::{Delivery, Outcome, JOIN, JOINDONE, JOINPOINT, JOINRETRY, NEWSUCC};
use crate::record::{Row, INSIDE, JOINING, NONE, OUTSIDE};
use crate::routing::next_hub;
use crate::word::Word;

impl<W: Word> Delivery<'_, W> {
    /// 2: routed by the joiner's identifier; the owner takes one join or leave
    /// at a time.
    pub fn join(&mut self) -> Outcome {
        let joiner = self.message.a;
        let joining = Row::read(self.record, joiner);
        self.needs(joining.state == JOINING)?;
        let turned_away = (self.send(JOINRETRY, joiner, 0), Answer::default());
        if !self.row.in_ring() {
            return Ok(turned_away);
        }
        let sender = Some(self.message.from);
        if let Some(next) = next_hub(self.record, &self.row, sender, joining.identifier) {
            return Ok((self.send(JOIN, next, joiner), Answer::default()));
        }
        if self.row.lock == 1 {
            return Ok(turned_away);
        }
        let oldpred = self.row.pred;
        self.row.lock = 1;
        self.row.flag = 1;
        self.row.oldpred = oldpred;
        self.row.pred = joiner;
        let granted = self.send(JOINPOINT, joiner, oldpred);
        Ok((granted, Answer::naming(kind::ENTERED, joiner)))
    }

    /// 3: outside again.
    pub fn joinretry(&mut self) -> Outcome {
        self.needs(self.row.state == JOINING)?;
        self.row.state = OUTSIDE;
        self.row.lock = 0;
        let answer = Answer::naming(kind::JOIN_TURNED_AWAY, self.message.to);
        Ok((None, answer))
    }

    /// 4: inside, between the two neighbours that the message tells of.
    pub fn joinpoint(&mut self) -> Outcome {
        self.needs(self.row.state == JOINING)?;
        self.row.state = INSIDE;
        self.row.pred = self.message.a;
        self.row.succ = self.message.from;
        Ok((self.send(NEWSUCC, self.message.a, 0), Answer::default()))
    }

    /// 6: nothing more comes from the old pred.
    pub fn newsuccack(&mut self) -> Outcome {
        self.needs(self.row.flag == 1)?;
        self.row.flag = 0;
        self.row.oldpred = NONE;
        self.row.lock = 0;
        Ok((self.send(JOINDONE, self.message.a, 0), Answer::default()))
    }
}

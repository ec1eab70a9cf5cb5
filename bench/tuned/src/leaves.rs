//! What a hub does with the messages of a leave (document 01, kinds 8 to 14).

use crate::answer::{kind, Answer};
use crate::kinds::{Delivery, Outcome, LEAVEDONE, LEAVEGRANT, LEAVEPOINT, LEAVERETRY, UPDATESUCC};
use crate::record::{Row, INSIDE, LEAVING, NONE, OUTSIDE, WANTING};
use crate::word::Word;

impl<W: Word> Delivery<'_, W> {
    /// 8: a taken lock turns the leave away.
    pub fn leavereq(&mut self) -> Outcome {
        self.needs(self.row.in_ring())?;
        let reply = if self.row.lock == 1 {
            LEAVERETRY
        } else {
            LEAVEGRANT
        };
        self.row.lock = 1;
        Ok((self.send(reply, self.message.from, 0), Answer::default()))
    }

    /// 9: inside, as before.
    pub fn leaveretry(&mut self) -> Outcome {
        self.needs(self.row.state == WANTING)?;
        self.row.state = INSIDE;
        self.row.lock = 0;
        let answer = Answer::naming(kind::LEAVE_TURNED_AWAY, self.message.to);
        Ok((None, answer))
    }

    /// 10: from now on the leaver only sends on.
    pub fn leavegrant(&mut self) -> Outcome {
        self.needs(self.row.state == WANTING)?;
        self.row.state = LEAVING;
        let sent = self.send(LEAVEPOINT, self.message.from, self.row.pred);
        Ok((sent, Answer::default()))
    }

    /// 11: the successor takes over the leaver's numbers.
    pub fn leavepoint(&mut self) -> Outcome {
        self.needs(self.row.state == INSIDE && self.row.lock == 1)?;
        self.row.pred = self.message.a;
        let sent = self.send(UPDATESUCC, self.message.a, 0);
        Ok((sent, Answer::naming(kind::GONE, self.message.from)))
    }

    /// 13: the leaver tells its succ, then forgets all neighbours.
    pub fn stopforward(&mut self) -> Outcome {
        self.needs(self.row.state == LEAVING)?;
        let sent = self.send(LEAVEDONE, self.row.succ, 0);
        self.row = Row {
            state: OUTSIDE,
            lock: 0,
            pred: NONE,
            succ: NONE,
            oldpred: NONE,
            ..self.row
        };
        Ok((sent, Answer::naming(kind::LEFT, self.message.to)))
    }
}

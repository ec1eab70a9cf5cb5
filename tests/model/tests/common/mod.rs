//! What several tests share: a ring under a witness, and records made by hand.
#![allow(dead_code)]

use ring_model::command::{ASK, DELIVER, JOIN, LEAVE};
use ring_model::record::{Message, Row, State, INSIDE, NONE, OUTSIDE};
use ring_model::step::smallest;
use ring_model::{
    fresh, fresh_by, roll_call, step, well_formed, Answer, Command, Witness, RECORD_WORDS,
};

pub mod driver;
pub mod orders;
pub mod records;

/// A ring from fresh on, with every call watched.
#[derive(Clone)]
pub struct Run {
    pub words: Vec<u32>,
    pub witness: Witness,
}

impl Run {
    /// Founded by the smallest identifier.
    pub fn found(identifiers: &[u32]) -> Run {
        let mut words = vec![0; RECORD_WORDS];
        fresh(&mut words, identifiers).expect("fresh is accepted");
        Run::watched(words, Witness::new(identifiers, smallest(identifiers)))
    }

    /// Founded by this node.
    pub fn found_by(identifiers: &[u32], founder: u32) -> Run {
        let mut words = vec![0; RECORD_WORDS];
        fresh_by(&mut words, identifiers, founder).expect("fresh is accepted");
        Run::watched(words, Witness::new(identifiers, founder))
    }

    fn watched(words: Vec<u32>, mut witness: Witness) -> Run {
        witness
            .judge(&words)
            .expect("the empty list keeps demand 3");
        Run { words, witness }
    }

    /// A ring at rest with node 0, which founded it, and these others inside.
    pub fn with_members(identifiers: &[u32], others: &[u32]) -> Run {
        let mut run = Run::found_by(identifiers, 0);
        for &node in others {
            run.join(node, 0).expect("join is accepted");
            run.drain();
        }
        run
    }

    /// A ring at rest with all of its nodes inside.
    pub fn settled(identifiers: &[u32]) -> Run {
        let others: Vec<u32> = (1..identifiers.len() as u32).collect();
        Run::with_members(identifiers, &others)
    }

    /// One call. A refusal must change nothing, an accepted step must leave
    /// the record well formed, and demand 3 must hold after both.
    pub fn call(&mut self, operation: u32, x: u32, y: u32) -> Result<Answer, u32> {
        let command = Command::new(operation, x, y);
        let before = self.words.clone();
        let outcome = step(&mut self.words, operation, x, y);
        match outcome {
            Ok(_) => assert!(well_formed(&self.words), "{command:?}"),
            Err(_) => assert_eq!(before, self.words, "{command:?}"),
        }
        if let Err(violation) = self.witness.observe(command, &outcome, &self.words) {
            panic!("{violation:?} at {command:?} {outcome:?}");
        }
        outcome
    }

    pub fn ask(&mut self, node: u32, key: u32) -> Result<Answer, u32> {
        self.call(ASK, node, key)
    }

    pub fn join(&mut self, node: u32, contact: u32) -> Result<Answer, u32> {
        self.call(JOIN, node, contact)
    }

    pub fn leave(&mut self, node: u32) -> Result<Answer, u32> {
        self.call(LEAVE, node, 0)
    }

    pub fn deliver(&mut self, from: u32, to: u32) -> Result<Answer, u32> {
        self.call(DELIVER, from, to)
    }

    pub fn state(&self) -> State {
        State::read(&self.words).expect("the record reads")
    }

    pub fn row(&self, node: u32) -> Row {
        *self.state().row(node)
    }

    /// The kinds in flight, oldest first.
    pub fn kinds(&self) -> Vec<u32> {
        self.state()
            .messages
            .iter()
            .map(|message| message.kind)
            .collect()
    }

    /// The links that have a message in flight, each once.
    pub fn links(&self) -> Vec<(u32, u32)> {
        let mut links: Vec<(u32, u32)> = self
            .state()
            .messages
            .iter()
            .map(|message| (message.from, message.to))
            .collect();
        links.sort_unstable();
        links.dedup();
        links
    }

    /// Delivers oldest first until the ring is at rest; the answers.
    pub fn drain(&mut self) -> Vec<Answer> {
        let mut answers = Vec::new();
        while let Some(oldest) = self.state().messages.first() {
            let answer = self.deliver(oldest.from, oldest.to);
            answers.push(answer.expect("deliver is accepted"));
            assert!(answers.len() < 1000, "the ring does not come to rest");
        }
        answers
    }

    pub fn roll(&self, node: u32) -> Result<Vec<u32>, u32> {
        let mut output = [NONE; 64];
        let length = roll_call(&self.words, node, &mut output)?;
        assert!(output[length..].iter().all(|&word| word == NONE));
        Ok(output[..length].to_vec())
    }

    /// At rest every member's roll call lists the members clockwise, every
    /// lock is free, and nobody else points at anyone.
    pub fn assert_at_rest(&self) {
        let state = self.state();
        assert!(state.messages.is_empty());
        let membership = self.witness.membership();
        for (node, row) in state.rows.iter().enumerate() {
            let node = node as u32;
            assert!(!row.lock && !row.flag, "node {node}: {row:?}");
            if membership.members().contains(&node) {
                assert_eq!(row.state, INSIDE, "node {node}: {row:?}");
                assert_eq!(self.roll(node), Ok(membership.clockwise_from(node)));
            } else {
                assert_eq!(row.state, OUTSIDE, "node {node}: {row:?}");
                assert_eq!((row.pred, row.succ, row.oldpred), (NONE, NONE, NONE));
            }
        }
    }
}

/// A row outside the ring.
pub fn outside(identifier: u32) -> Row {
    Row {
        identifier,
        state: OUTSIDE,
        lock: false,
        flag: false,
        pred: NONE,
        succ: NONE,
        oldpred: NONE,
    }
}

/// An unlocked row inside the ring.
pub fn inside(identifier: u32, pred: u32, succ: u32) -> Row {
    Row {
        state: INSIDE,
        pred,
        succ,
        ..outside(identifier)
    }
}

/// A message without ticket and hops.
pub fn message(kind: u32, from: u32, to: u32, a: u32) -> Message {
    Message {
        kind,
        from,
        to,
        a,
        b: 0,
        hops: 0,
    }
}

/// The record of a state made by hand, which must be well formed.
pub fn record(asked: u32, rows: &[Row], messages: &[Message]) -> Vec<u32> {
    let state = State {
        asked,
        rows: rows.to_vec(),
        messages: messages.to_vec(),
    };
    let mut words = vec![0; RECORD_WORDS];
    state.write(&mut words);
    assert!(well_formed(&words), "{state:?}");
    words
}

/// A refused step, checked to change nothing.
pub fn refused(words: &[u32], operation: u32, x: u32, y: u32) -> u32 {
    let mut copy = words.to_vec();
    let number = step(&mut copy, operation, x, y).expect_err("the step is refused");
    assert_eq!(copy, words);
    number
}

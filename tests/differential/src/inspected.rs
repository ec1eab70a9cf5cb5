//! What `inspect` has said, so that a run can tell whether it heard every form of answer.

use ring_model::frames::{decode, Frame};
use ring_model::inspect::{Inspect, MOST_PLACES, UNREADABLE};
use ring_model::record::{State, MAX_MESSAGES};
use ring_model::refusal::NO_SUCH_NODE;
use ring_model::tally::REFUSED;
use ring_model::Tally;

use crate::founded::passes_over_the_smallest;
use crate::reached::{add_all, by_number, Cells};

/// The answers by their kinds, as `inspect` names them, and the states and kinds of messages.
const ANSWERS: [&str; 8] = [
    "quiet",
    "found",
    "entered",
    "gone",
    "join turned away",
    "leave turned away",
    "joined",
    "left",
];
const STATES: [&str; 5] = ["outside", "joining", "inside", "wanting to leave", "leaving"];
const KINDS: [&str; 14] = [
    "LOOKUP",
    "JOIN",
    "JOINRETRY",
    "JOINPOINT",
    "NEWSUCC",
    "NEWSUCCACK",
    "JOINDONE",
    "LEAVEREQ",
    "LEAVERETRY",
    "LEAVEGRANT",
    "LEAVEPOINT",
    "UPDATESUCC",
    "STOPFORWARD",
    "LEAVEDONE",
];

/// Which numbers each call can give; 0 stands for no refusal.
const OF_FRESH: [usize; 4] = [0, 1, 13, 14];
const OF_STEP: [usize; 13] = [0, 1, 2, 3, 4, 5, 6, 7, 8, 9, 10, 11, 12];
const OF_ROLL: [usize; 7] = [0, 1, 2, 4, 5, 16, 17];
const OF_OWNER: [usize; 4] = [0, 1, 2, 15];
const OF_WAITING: [usize; 3] = [0, 1, 2];
/// A row that is not handed out says no number: these are the questions.
const OF_ROW: [usize; 4] = [0, 1, 2, 4];

/// Counts by refusal number.
type Numbers = [u64; 18];

/// Counts of what was said.
#[derive(Clone, Default)]
pub struct Inspected {
    /// Lines answered.
    pub lines: u64,
    fresh: Numbers,
    first_founds: u64,
    step: Numbers,
    roll: Numbers,
    owner: Numbers,
    waiting: Numbers,
    row: Numbers,
    answers: [u64; 8],
    states: [u64; 5],
    kinds: [u64; 14],
    stays: [u64; 9],
    full_rolls: u64,
    full_waiting: u64,
    unreadable: u64,
    /// Counts that stayed at the limit, and have not been shown since.
    unseen: [bool; 9],
}

impl Inspected {
    /// Takes in a line and its answer, with the counts before it and what `inspect` keeps after it.
    pub fn take_in(&mut self, line: &[u8], answer: &str, before: &Tally, inspect: &Inspect) {
        self.lines += 1;
        let frame = decode(line);
        match &frame {
            Frame::Found(_) => {
                self.fresh[number(answer)] += 1;
                let another = number(answer) == 0 && passes_over_the_smallest(&frame);
                self.first_founds += u64::from(another);
            }
            Frame::Command(..) => self.step(answer, before),
            Frame::Unreadable => self.reading(answer, inspect),
        }
    }

    /// A step's outcome, and whether its count is at the limit already.
    fn step(&mut self, answer: &str, before: &Tally) {
        self.step[number(answer)] += 1;
        let name = answer.split(':').next().unwrap_or_default();
        let kind = ANSWERS.iter().position(|&known| known == name);
        if let Some(kind) = kind {
            self.answers[kind] += 1;
        }
        let place = kind.unwrap_or(REFUSED);
        self.unseen[place] |= before.counts[place] == u64::MAX;
    }

    /// The answer to a line of words.
    fn reading(&mut self, answer: &str, inspect: &Inspect) {
        let word = answer.split([' ', ':']).next().unwrap_or_default();
        match word {
            "row" => self.row(answer, inspect),
            "roll" => {
                self.roll[number(answer)] += 1;
                self.full_rolls += u64::from(answer.contains(&format!(" length {MOST_PLACES}:")));
            }
            "owner" => self.owner[number(answer)] += 1,
            "waiting" => self.messages(answer),
            "counts" => self.counts(),
            "count" => self.overwritten(answer),
            _ => self.unreadable += u64::from(answer == UNREADABLE),
        }
    }

    fn row(&mut self, answer: &str, inspect: &Inspect) {
        for (count, state) in self.states.iter_mut().zip(STATES) {
            *count += u64::from(answer.contains(&format!(", {state}, lock ")));
        }
        let question = match State::read(inspect.lent()) {
            _ if !answer.ends_with(": none") => 0,
            Ok(_) => NO_SUCH_NODE,
            Err(number) => number,
        };
        self.row[question as usize] += 1;
    }

    fn messages(&mut self, answer: &str) {
        self.waiting[number(answer)] += 1;
        let messages = answer.lines().skip(1);
        self.full_waiting += u64::from(messages.clone().count() == MAX_MESSAGES);
        for message in messages {
            let name = message.split(' ').next();
            if let Some(kind) = KINDS.iter().position(|&kind| Some(kind) == name) {
                self.kinds[kind] += 1;
            }
        }
    }

    /// What is written over was not shown.
    fn overwritten(&mut self, answer: &str) {
        let place = answer.split([' ', ':']).nth(1).and_then(|place| place.parse::<usize>().ok());
        if let Some(unseen) = place.and_then(|place| self.unseen.get_mut(place)) {
            *unseen = false;
        }
    }

    /// All counts are shown.
    fn counts(&mut self) {
        for (count, unseen) in self.stays.iter_mut().zip(&mut self.unseen) {
            *count += u64::from(*unseen);
            *unseen = false;
        }
    }

    /// Adds another script's or thread's counts.
    pub fn add(&mut self, other: &Inspected) {
        self.lines += other.lines;
        add_all(&mut self.fresh, &other.fresh);
        self.first_founds += other.first_founds;
        add_all(&mut self.step, &other.step);
        add_all(&mut self.roll, &other.roll);
        add_all(&mut self.owner, &other.owner);
        add_all(&mut self.waiting, &other.waiting);
        add_all(&mut self.row, &other.row);
        add_all(&mut self.answers, &other.answers);
        add_all(&mut self.states, &other.states);
        add_all(&mut self.kinds, &other.kinds);
        add_all(&mut self.stays, &other.stays);
        self.full_rolls += other.full_rolls;
        self.full_waiting += other.full_waiting;
        self.unreadable += other.unreadable;
    }

    /// The table: names and counts.
    pub fn rows(&self) -> Vec<(&'static str, Cells)> {
        let from = |first: usize, counts: &[u64]| {
            let cells = counts.iter().enumerate();
            cells.map(|(place, &count)| (Some(first + place), count)).collect::<Cells>()
        };
        let one = |count: u64| vec![(None, count)];
        vec![
            ("inspect: foundings, 0 or refused by", by_number(&OF_FRESH, &self.fresh)),
            ("inspect: foundings whose first hub is not the smallest", one(self.first_founds)),
            ("inspect: steps, 0 or refused by", by_number(&OF_STEP, &self.step)),
            ("inspect: rows, 0 or none by", by_number(&OF_ROW, &self.row)),
            ("inspect: rolls, 0 or refused by", by_number(&OF_ROLL, &self.roll)),
            ("inspect: owners, 0 or refused by", by_number(&OF_OWNER, &self.owner)),
            ("inspect: waiting, 0 or refused by", by_number(&OF_WAITING, &self.waiting)),
            ("inspect: answers by kind", from(0, &self.answers)),
            ("inspect: rows by state", from(0, &self.states)),
            ("inspect: messages by kind", from(1, &self.kinds)),
            ("inspect: counts that stay at the limit, by place", from(0, &self.stays)),
            ("inspect: rolls of 64 hubs", one(self.full_rolls)),
            ("inspect: 256 messages shown", one(self.full_waiting)),
            ("inspect: lines that do not read", one(self.unreadable)),
        ]
    }
}

/// The number of a refusal in an answer, 0 if there is none.
fn number(answer: &str) -> usize {
    let refusal = answer.lines().next().and_then(|line| line.split_once("refused "));
    let digits = refusal.and_then(|(_, rest)| rest.split(' ').next());
    digits.and_then(|digits| digits.parse().ok()).unwrap_or(0)
}

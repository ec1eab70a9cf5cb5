//! What the calls with cards have reached.

mod table;

use ring_model::answer::{ENTERED, GONE};
use ring_model::bytes::NO_REFUSAL;
use ring_model::cards::{read, Cards, MAX_CARDS};
use ring_model::record::State;
use ring_model::refusal::{
    CARDS_FULL, NOT_WELL_FORMED, PRICE_DIFFERS, RECORD_SHORT, REVISION_LOWER,
};
use ring_model::Answer;

use crate::calls::{words_of, RECORD_BYTES};
use crate::form::Form;
use crate::reached::add_all;

/// The calls, by their places below.
const FRESH: usize = 0;
const FRESH_BY: usize = 1;
const STEP: usize = 2;
const OFFER: usize = 3;

/// The questions that two slices have alike: 1 of record and cards, 2 of record and cards, and the
/// step's last.
const RECORDS_1: usize = 0;
const CARDS_1: usize = 1;
const RECORDS_2: usize = 2;
const CARDS_2: usize = 3;
const ONLY_MEMBER: usize = 4;

/// What an offer came to.
const NEW: usize = 0;
const HIGHER: usize = 1;
const EQUAL: usize = 2;

/// Parts of a card slice in which a word can be put wrong.
const FIELDS: usize = 8;

/// Counts of calls with cards.
#[derive(Clone, Default)]
pub struct CardCounts {
    /// Calls compared.
    pub calls: u64,
    /// Deliveries tried on copies.
    pub tried: u64,
    /// Entered and gone in a run with a large ledger.
    pub large: u64,
    /// By call and number returned.
    numbers: [[u64; 25]; 4],
    /// By call and question.
    questions: [[u64; 5]; 4],
    /// Entered and gone: cards change hub; of all 512; no card does.
    moved: [u64; 2],
    moved_full: [u64; 2],
    stayed: [u64; 2],
    /// A hub enters that is a member, and one goes that is none.
    no_change: [u64; 2],
    /// Offers by what they came to, and those to a slice of 512.
    offers: [u64; 6],
    offers_full: [u64; 6],
    /// The 512th card.
    filled: u64,
    /// Words put wrong by their field, refused and not.
    refused: [u64; FIELDS],
    passed: [u64; FIELDS],
    /// Machines that stand twice, by their places.
    pub twice: [u64; 5],
    /// Slices with many cards by the making of their machines.
    pub sets: [u64; 4],
}

impl CardCounts {
    fn number(&mut self, call: usize, code: u32) {
        self.calls += 1;
        if let Some(count) = self.numbers[call].get_mut(code as usize) {
            *count += 1;
        }
    }

    /// Counts a step with its outcome, and the cards before and after it.
    pub fn stepped(&mut self, outcome: &Result<Answer, u32>, before: &Cards, after: &Cards) {
        let code = outcome.err().unwrap_or(NO_REFUSAL);
        self.number(STEP, code);
        self.questions[STEP][ONLY_MEMBER] += u64::from(code == NOT_WELL_FORMED);
        let answer = match outcome {
            Ok(answer) if matches!(answer.kind, ENTERED | GONE) => answer,
            _ => return,
        };
        let which = usize::from(answer.kind == GONE);
        let moves = before.kept != after.kept;
        self.moved[which] += u64::from(moves);
        self.moved_full[which] += u64::from(moves && before.kept.len() == MAX_CARDS);
        self.stayed[which] += u64::from(!moves && !before.kept.is_empty());
        self.no_change[which] += u64::from(before.membership == after.membership);
    }

    /// Counts an offer with the cards before it.
    pub fn offered(&mut self, code: u32, [machine, revision, _]: [u32; 3], before: &Cards) {
        self.number(OFFER, code);
        let kept = before.kept.iter().find(|card| card.machine == machine);
        let class = match (code, kept) {
            (NO_REFUSAL, None) => NEW,
            (NO_REFUSAL, Some(kept)) if kept.revision < revision => HIGHER,
            (NO_REFUSAL, Some(_)) => EQUAL,
            (REVISION_LOWER, _) => 3,
            (PRICE_DIFFERS, _) => 4,
            (CARDS_FULL, _) => 5,
            _ => return,
        };
        self.offers[class] += 1;
        self.offers_full[class] += u64::from(before.kept.len() == MAX_CARDS);
        self.filled += u64::from(class == NEW && before.kept.len() == MAX_CARDS - 1);
    }

    /// Counts a step on any bytes.
    pub fn step_on_bytes(&mut self, code: u32, record: &[u8], cards: &[u8]) {
        self.on_bytes(STEP, code, record, cards);
    }

    /// Counts an offer on any bytes.
    pub fn offer_on_bytes(&mut self, code: u32, record: &[u8], cards: &[u8]) {
        self.on_bytes(OFFER, code, record, cards);
    }

    fn on_bytes(&mut self, call: usize, code: u32, record: &[u8], cards: &[u8]) {
        self.number(call, code);
        if let Some(question) = question(code, record, cards) {
            self.questions[call][question] += 1;
        }
    }

    /// Counts a founding, into a record of any length.
    pub fn founded(&mut self, form: Form, code: u32, record: &[u8]) {
        let call = match form {
            Form::Smallest => FRESH,
            Form::By(_) => FRESH_BY,
        };
        self.on_bytes(call, code, record, &[]);
    }

    /// Counts a word that was put wrong, and whether the slice was refused for it.
    pub fn damaged(&mut self, field: usize, refused: bool) {
        match refused {
            true => self.refused[field] += 1,
            false => self.passed[field] += 1,
        }
    }

    /// Adds another thread's counts.
    pub fn add(&mut self, other: &CardCounts) {
        self.calls += other.calls;
        self.tried += other.tried;
        self.large += other.large;
        for call in 0..4 {
            add_all(&mut self.numbers[call], &other.numbers[call]);
            add_all(&mut self.questions[call], &other.questions[call]);
        }
        add_all(&mut self.moved, &other.moved);
        add_all(&mut self.moved_full, &other.moved_full);
        add_all(&mut self.stayed, &other.stayed);
        add_all(&mut self.no_change, &other.no_change);
        add_all(&mut self.offers, &other.offers);
        add_all(&mut self.offers_full, &other.offers_full);
        self.filled += other.filled;
        add_all(&mut self.refused, &other.refused);
        add_all(&mut self.passed, &other.passed);
        add_all(&mut self.twice, &other.twice);
        add_all(&mut self.sets, &other.sets);
    }
}

/// Which question of a record and its cards a 1 or 2 answers.
fn question(code: u32, record: &[u8], cards: &[u8]) -> Option<usize> {
    match code {
        RECORD_SHORT if record.len() < RECORD_BYTES => Some(RECORDS_1),
        RECORD_SHORT => Some(CARDS_1),
        NOT_WELL_FORMED if State::read(&words_of(record)).is_err() => Some(RECORDS_2),
        NOT_WELL_FORMED if read(&words_of(record), &words_of(cards)).is_err() => Some(CARDS_2),
        NOT_WELL_FORMED => Some(ONLY_MEMBER),
        _ => None,
    }
}

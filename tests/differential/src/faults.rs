//! Faults planted in front of the engine: each must be seen by the part that is there for it. So
//! the test itself is tested: a comparison that says nothing would let these pass.

use std::cell::Cell;

use ring_model::bytes::{NO_REFUSAL, OWNER_BYTES};
use ring_model::queries::holds;
use ring_model::record::State;
use ring_model::refusal::NOT_AS_REQUIRED;
use ring_model::Answer;

use crate::calls::{put_word, words_of, Calls, ENGINE};
use crate::cards;
use crate::engine;
use crate::filters::{FILTERS, NO_FAULT};
use crate::parts::PARTS;
use crate::reached::Reached;
use crate::rolls;
use crate::routes;
use crate::sheets::wrong::{same_read, same_write, READS, WRITES};
use crate::wrong_foundings::{NAMED, UNNAMED};
use crate::wrong_ranges::{same_owner, OWNERS};
use crate::wrong_steps::STEPS;

/// A seldom fault shows in one of so many calls.
const SELDOM: u64 = 3000;
/// Batches that are tried until a fault is seen.
const BATCHES: u64 = 400;
/// Batches that are tried where there is no fault.
const UNFAULTED: u64 = 5;

thread_local! {
    static CALLS: Cell<u64> = const { Cell::new(0) };
}

/// Whether a seldom fault shows in this call.
pub fn seldom() -> bool {
    one_in(SELDOM)
}

/// True for one in so many calls.
pub fn one_in(many: u64) -> bool {
    CALLS.with(|calls| {
        calls.set(calls.get() + 1);
        calls.get() % many == 0
    })
}

/// A wrong engine, and the part that must see it.
pub struct Fault {
    /// What is wrong.
    pub name: &'static str,
    part: &'static str,
    calls: Calls,
}

/// All planted faults.
pub fn faults() -> Vec<Fault> {
    let fault = |name, part, calls| Fault { name, part, calls };
    let steps = STEPS.iter().map(|&(name, part, step)| fault(name, part, Calls { step, ..ENGINE }));
    let filtered = |&(name, inspect)| fault(name, "inspect", Calls { inspect, ..ENGINE });
    let ranged = |&(name, owner)| fault(name, "unreachable", Calls { owner, ..ENGINE });
    let ranges = OWNERS.iter().map(ranged);
    let others = other_faults().into_iter().chain(FILTERS.iter().map(filtered)).chain(ranges);
    let routes = routes::wrong::faults();
    let called = cards::wrong::faults().into_iter().chain(routes).chain(rolls::wrong::faults());
    let called = called.map(|(name, part, calls)| fault(name, part, calls));
    steps.chain(wrong_foundings()).chain(wrong_sheets()).chain(called).chain(others).collect()
}

/// Wrong foundings of both forms.
fn wrong_foundings() -> Vec<Fault> {
    let unnamed = |&(name, part, fresh)| Fault { name, part, calls: Calls { fresh, ..ENGINE } };
    let named = |&(name, part, fresh_by)| Fault { name, part, calls: Calls { fresh_by, ..ENGINE } };
    UNNAMED.iter().map(unnamed).chain(NAMED.iter().map(named)).collect()
}

/// Wrong readings and writings of sheets.
fn wrong_sheets() -> Vec<Fault> {
    let fault = |name, calls| Fault { name, part: "sheets", calls };
    let read = |&(name, sheet_read)| fault(name, Calls { sheet_read, ..ENGINE });
    let write = |&(name, sheet_write)| fault(name, Calls { sheet_write, ..ENGINE });
    READS.iter().map(read).chain(WRITES.iter().map(write)).collect()
}

/// Wrong calls other than these, and programs that are no ring at all.
fn other_faults() -> [Fault; 6] {
    let fault = |name, part, calls| Fault { name, part, calls };
    let witness = Calls { word_step: refuses_words, ..ENGINE };
    let owner = Calls { owner: highest_holder, ..ENGINE };
    let echo = Calls { ringrun: "cat", inspect: "cat", ..ENGINE };
    let silent = Calls { ringrun: "true", inspect: "true", ..ENGINE };
    [
        fault("a delivery of the witness is refused, seldom", "witnessed", witness),
        fault("the highest holder", "unreachable", owner),
        fault("a program that prints its input", "ringrun", echo),
        fault("a program that prints nothing", "ringrun", silent),
        fault("a program that prints its input, for inspect", "inspect", echo),
        fault("a program that prints nothing, for inspect", "inspect", silent),
    ]
}

impl Fault {
    /// Whether the part sees it.
    pub fn is_seen(&self, seed: u64) -> bool {
        self.is_seen_within(seed, BATCHES)
    }

    fn is_seen_within(&self, seed: u64, batches: u64) -> bool {
        let mut parts = PARTS.iter().filter(|part| part.name == self.part);
        parts.any(|part| {
            (0..batches)
                .any(|number| part.run(seed, number, self.calls, &mut Reached::default()).is_err())
        })
    }
}

/// That `inspect` passes behind a filter that changes nothing, and the calls with sheets, cards,
/// ranges, routes and rolls behind what makes them wrong elsewhere: the faults are seen there, not
/// their wrapping.
pub fn wrappings_pass(seed: u64) -> [(&'static str, bool); 12] {
    let filter = Calls { inspect: NO_FAULT, ..ENGINE };
    let sheets = Calls { sheet_read: same_read, sheet_write: same_write, ..ENGINE };
    let owner = Calls { owner: same_owner, ..ENGINE };
    let with_cards = "calls with cards that change nothing are not found wrong";
    let made_of_asks = "routes that are made of asks are not found wrong";
    let by_succ = "rolls by succ are not found wrong";
    [
        ("a filter that changes nothing is not found wrong", "inspect", filter),
        ("sheet calls that change nothing are not found wrong", "sheets", sheets),
        ("owners by the right range are not found wrong", "unreachable", owner),
        (with_cards, "cards", cards::wrong::same()),
        (with_cards, "damaged_cards", cards::wrong::same()),
        (made_of_asks, "routes", routes::wrong::same()),
        (made_of_asks, "any_routes", routes::wrong::same()),
        (made_of_asks, "damaged_routes", routes::wrong::same()),
        (made_of_asks, "route_edges", routes::wrong::same()),
        (by_succ, "runs", rolls::wrong::same()),
        (by_succ, "unreachable", rolls::wrong::same()),
        (by_succ, "roll_edges", rolls::wrong::same()),
    ]
    .map(|(name, part, calls)| (name, !Fault { name, part, calls }.is_seen_within(seed, UNFAULTED)))
}

fn refuses_words(words: &mut [u32], operation: u32, x: u32, y: u32) -> Result<Answer, u32> {
    if seldom() {
        return Err(NOT_AS_REQUIRED);
    }
    (ENGINE.word_step)(words, operation, x, y)
}

fn highest_holder(words: &[u8], key: u32, out: &mut [u8]) -> u32 {
    let code = engine::owner(words, key, out);
    if let (Ok(state), NO_REFUSAL) = (State::read(&words_of(words)), code) {
        let highest = (0..state.n()).rev().find(|&node| holds(&state, node, key));
        put_word(&mut out[..OWNER_BYTES], 0, highest.unwrap_or(0));
    }
    code
}

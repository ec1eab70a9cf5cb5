//! Whether a run tried enough: so many calls, and with them everything that there is to be reached.

use crate::reached::Reached;

/// From so many calls on, so many lines of `inspect`, so many calls with cards, so many routes and so
/// many texts that might be sheets, everything must have been reached.
const ENOUGH: u64 = 1_000_000;
const ENOUGH_LINES: u64 = 150_000;
const ENOUGH_WITH_CARDS: u64 = 100_000;
const ENOUGH_ROUTES: u64 = 20_000;
const ENOUGH_TEXTS: u64 = 2_000_000;
// A long run must make so many calls. A shorter one may make fewer, and then says that it skips
// the test of what was reached.

/// What there was too little of to have reached all.
pub fn too_few(sum: &Reached) -> Option<String> {
    if sum.calls < ENOUGH {
        return Some(format!("fewer than {ENOUGH} calls were made"));
    }
    if sum.inspected.lines < ENOUGH_LINES {
        return Some(format!("inspect answered fewer than {ENOUGH_LINES} lines"));
    }
    if sum.cards.calls < ENOUGH_WITH_CARDS {
        return Some(format!("fewer than {ENOUGH_WITH_CARDS} calls with cards were made"));
    }
    if sum.routes.calls < ENOUGH_ROUTES {
        return Some(format!("fewer than {ENOUGH_ROUTES} routes were made"));
    }
    let few = sum.sheets.texts < ENOUGH_TEXTS;
    few.then(|| format!("fewer than {ENOUGH_TEXTS} texts were read as sheets"))
}

/// Whether there were enough calls, and nothing was left out by all of them.
pub fn reached_all(sum: &Reached) -> bool {
    if let Some(what) = too_few(sum) {
        println!("FAILED: {what}");
        return false;
    }
    let missing = sum.missing();
    if !missing.is_empty() {
        println!("FAILED: never reached: {}", missing.join(", "));
    }
    missing.is_empty()
}

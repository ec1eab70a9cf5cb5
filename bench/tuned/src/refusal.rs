//! The refusal numbers (document 01, 'Questions before a call, in order').

/// Fewer than 1,988 words; fewer than 2,113 of the cards.
pub const RECORD_SHORT: u32 = 1;
/// The record is not well formed, or the cards beside it are not.
pub const NOT_WELL_FORMED: u32 = 2;
/// The operation is not 0 to 3.
pub const NO_OPERATION: u32 = 3;
/// A hub number is not below n.
pub const NO_HUB: u32 = 4;
/// The hub is not in state 2 to 4.
pub const NOT_IN_RING: u32 = 5;
/// The hub is not outside.
pub const NOT_OUTSIDE: u32 = 6;
/// The hub is locked.
pub const LOCKED: u32 = 7;
/// The hub is its own succ.
pub const LAST_HUB: u32 = 8;
/// No message on this link.
pub const NO_MESSAGE: u32 = 9;
/// The receiver, or hub a of a JOIN, is not as required.
pub const NOT_EXPECTED: u32 = 10;
/// 256 messages are waiting.
pub const MESSAGES_FULL: u32 = 11;
/// All tickets were given.
pub const TICKETS_USED_UP: u32 = 12;
/// Not 1 to 64 identifiers.
pub const IDENTIFIER_COUNT: u32 = 13;
/// An identifier stands twice.
pub const IDENTIFIER_TWICE: u32 = 14;
/// No hub holds the number.
pub const NO_HOLDER: u32 = 15;
/// The way along succ does not come back.
pub const NO_WAY_ROUND: u32 = 16;
/// The output is too short.
pub const OUTPUT_SHORT: u32 = 17;
/// The founder named is not below the hub count (document 02, 2026-02).
pub const NO_FOUNDER: u32 = 18;
/// The machine's card has a higher revision (document 02, 2026-04).
pub const REVISION_LOWER: u32 = 22;
/// The machine's card has this revision, and another price.
pub const PRICE_DIFFERS: u32 = 23;
/// A new machine, and 512 cards are kept.
pub const CARDS_FULL: u32 = 24;
/// More than 64 numbers in a route (document 02, 2026-06).
pub const ROUTE_LONG: u32 = 25;
/// Fewer places for outcomes than numbers.
pub const PLACES_SHORT: u32 = 26;

//! The refusal numbers of document 01, 'Questions before a call, in order',
//! and of document 02. Each is the number returned on a no to the question
//! named beside it.

/// Are there 1,988 words? Are there 2,113 for the cards?
pub const RECORD_SHORT: u32 = 1;
/// Is the record well formed? Are the cards beside it?
pub const NOT_WELL_FORMED: u32 = 2;
/// Is the operation 0 to 3?
pub const NO_SUCH_OPERATION: u32 = 3;
/// Are the node numbers that are read below n?
pub const NO_SUCH_NODE: u32 = 4;
/// Is the node in state 2 to 4?
pub const NOT_IN_RING: u32 = 5;
/// Is the node outside?
pub const NOT_OUTSIDE: u32 = 6;
/// Is the lock free?
pub const LOCKED: u32 = 7;
/// Is succ another node?
pub const ALONE: u32 = 8;
/// Is there such a message?
pub const LINK_EMPTY: u32 = 9;
/// Is the receiver, and node a for JOIN, as required?
pub const NOT_AS_REQUIRED: u32 = 10;
/// Is m below 256?
pub const MESSAGES_FULL: u32 = 11;
/// Is asked below 4294967295?
pub const TICKETS_USED_UP: u32 = 12;
/// Are there 1 to 64 identifiers?
pub const IDENTIFIER_COUNT: u32 = 13;
/// Are all identifiers different?
pub const IDENTIFIERS_REPEAT: u32 = 14;
/// Does some node hold the key?
pub const NO_HOLDER: u32 = 15;
/// Does following succ come back to the start after at most n nodes?
pub const NO_WAY_ROUND: u32 = 16;
/// Is the output long enough?
pub const OUTPUT_SHORT: u32 = 17;
/// Is the founder below the hub count?
pub const NO_FOUNDER: u32 = 18;
/// Is the text a sheet? Are the names to be written one for each identifier?
pub const NO_SHEET: u32 = 19;
/// Are all identifiers at most 4294967295?
pub const IDENTIFIER_TOO_LARGE: u32 = 20;
/// Are the outputs long enough for what is to be written?
pub const ROOM_SHORT: u32 = 21;
/// Is the revision at least the kept card's?
pub const REVISION_LOWER: u32 = 22;
/// Has an equal revision the same price?
pub const PRICE_DIFFERS: u32 = 23;
/// Are fewer than 512 cards kept, for a new machine?
pub const CARDS_FULL: u32 = 24;
/// Are there at most 64 numbers?
pub const ROUTE_LONG: u32 = 25;
/// Are there as many places for outcomes as numbers?
pub const PLACES_SHORT: u32 = 26;

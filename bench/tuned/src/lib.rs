//! A fast model of the depot hub ring of document 01, to measure an engine
//! against: no heap and no typed copy of the record; in place, nothing is
//! written but what a step changes.
//!
//! It works on a slice of words, whatever carries a word: a `u32`,
//! or the four bytes that C lends; and it tests rows and messages in one of
//! two ways, field by field or by ranges. It shares no code with the
//! engine.

#![forbid(unsafe_code)]
#![warn(missing_docs)]

pub mod answer;
pub mod bytes;
pub mod cards;
pub mod check;
pub mod clockwise;
mod fields;
pub mod frames;
mod joins;
mod kinds;
mod lanes;
mod leaves;
pub mod queries;
mod ranges;
pub mod record;
pub mod refusal;
pub mod ringrun;
pub mod routes;
mod routing;
mod shapes;
pub mod step;
mod well_formed;
pub mod word;

pub use answer::Answer;
pub use cards::{fresh_by_cards, fresh_cards, offer, step_cards, BOOK_WORDS};
pub use check::Check;
pub use fields::Fields;
pub use queries::{owner, roll_call};
pub use ranges::Ranges;
pub use record::RECORD_WORDS;
pub use routes::route;
pub use step::{fresh, fresh_by, step};
pub use well_formed::well_formed;

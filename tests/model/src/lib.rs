//! A plain model of the depot hub ring of document 01, with document 02's
//! requests as they come in, for differential tests.
//!
//! It is meant to be read beside document 01 and run beside an engine: each
//! rule stands here once, in its order, with no thought for speed.
//! It shares no code with any engine.

#![forbid(unsafe_code)]
#![warn(missing_docs)]

pub mod answer;
pub mod bytes;
pub mod cards;
pub mod clockwise;
pub mod command;
pub mod frames;
pub mod generator;
pub mod inspect;
pub mod kinds;
pub mod ledger;
pub mod lines;
pub mod queries;
pub mod record;
pub mod refusal;
pub mod rest;
pub mod ringrun;
pub mod routes;
pub mod routing;
pub mod sheet;
pub mod states;
pub mod step;
pub mod tally;
pub mod well_formed;
pub mod witness;

pub use answer::Answer;
pub use command::Command;
pub use ledger::{Membership, Witness};
pub use queries::{hub_row, owner, roll_call};
pub use record::{well_formed, RECORD_WORDS};
pub use routes::{route, route_tallied};
pub use step::{fresh, fresh_by, step};
pub use tally::{step_tallied, Tally};

//! Price cards: rings with cards from fresh on, slices that no ring made, damaged ones, and all
//! lengths.

pub mod any;
pub mod calls;
pub mod claims;
pub mod counts;
pub mod damaged;
pub mod edges;
mod machines;
mod offers;
mod pair;
mod ring;
pub mod runs;
pub mod wrong;
pub mod wrong_claims;

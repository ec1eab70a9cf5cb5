//! A route's questions in one call: among the calls on rings from fresh on, on records that no run
//! reaches, on damaged ones, and with memory of every length.

pub mod any;
pub mod counts;
pub mod damaged;
pub mod edges;
pub mod lists;
pub mod route;
pub mod runs;
pub mod wrong;

//! The roll call: among the calls on rings from fresh on, on records that no run reaches, on damaged
//! ones, and with memory of every length; and held to the ledger wherever no message waits.

pub mod counts;
pub mod edges;
pub mod rest;
pub mod roll;
pub mod wrong;
pub mod wrong_claims;

//! Document 01 read aloud: its listing, its probes, the field engineer's
//! checks, every refusal number, and the faults a good engineer makes; and, by
//! document 02, who founds, how planners read a range, and a route's questions.

mod common;

#[path = "document/checklist.rs"]
mod checklist;
#[path = "document/faults.rs"]
mod faults;
#[path = "document/founding.rs"]
mod founding;
#[path = "document/kinds.rs"]
mod kinds;
#[path = "document/listing.rs"]
mod listing;
#[path = "document/probes.rs"]
mod probes;
#[path = "document/ranges.rs"]
mod ranges;
#[path = "document/refusals.rs"]
mod refusals;
#[path = "document/routes.rs"]
mod routes;
#[path = "document/well_formed.rs"]
mod well_formed;

//! Card slices beside their records, for the tests of the calls with cards.

pub mod books;
pub mod pair;

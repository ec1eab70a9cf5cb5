//! What a test of rows, messages and unused words has to say, however it goes
//! about it.

use crate::word::Word;

/// A way to test the words. The model is written once for all ways and
/// compiled for each, as it is for each carrier of words.
pub trait Check {
    /// Is one of these rows not as its state needs?
    fn rows_wrong<W: Word>(rows: &[W], n: u32) -> bool;

    /// Is one of these messages not as its kind needs?
    fn messages_wrong<W: Word>(messages: &[W], n: u32, asked: u32) -> bool;

    /// Is one of these unused words not 0?
    fn any_set<W: Word>(words: &[W]) -> bool;
}

//! The ring record in its words (document 01, 'Ring record').

use crate::check::Check;
use crate::refusal;
use crate::well_formed::well_formed;
use crate::word::Word;

/// Words of a record.
pub const RECORD_WORDS: usize = 1988;
/// Word 0.
pub const FORM: u32 = 1;
/// Most hubs.
pub const MOST_HUBS: usize = 64;
/// Most waiting messages.
pub const MOST_MESSAGES: usize = 256;
/// A pointer to no hub.
pub const NONE: u32 = 255;
/// Hops stay here.
pub const MOST_HOPS: u32 = 65_535;
/// Words of a hub's row.
pub const ROW_WORDS: usize = 7;
/// Words of a message.
pub const MESSAGE_WORDS: usize = 6;

/// Where the words n, m and asked stand.
pub(crate) const N: usize = 1;
pub(crate) const M: usize = 2;
pub(crate) const ASKED: usize = 3;
/// Where the rows and the messages begin.
pub(crate) const ROWS: usize = 4;
pub(crate) const MESSAGES: usize = ROWS + MOST_HUBS * ROW_WORDS;
const _: () = assert!(MESSAGES + MOST_MESSAGES * MESSAGE_WORDS == RECORD_WORDS);

/// The states of a hub.
pub(crate) const OUTSIDE: u32 = 0;
pub(crate) const JOINING: u32 = 1;
pub(crate) const INSIDE: u32 = 2;
pub(crate) const WANTING: u32 = 3;
pub(crate) const LEAVING: u32 = 4;

/// The record's words, their number known to the compiler.
pub type Record<W> = [W; RECORD_WORDS];

/// A hub's row, read from its words.
#[derive(Clone, Copy)]
pub(crate) struct Row {
    pub identifier: u32,
    pub state: u32,
    pub lock: u32,
    pub flag: u32,
    pub pred: u32,
    pub succ: u32,
    pub oldpred: u32,
}

impl Row {
    pub fn read<W: Word>(record: &Record<W>, hub: u32) -> Row {
        let start = row_start(hub);
        let words = &record[start..start + ROW_WORDS];
        Row {
            identifier: words[0].get(),
            state: words[1].get(),
            lock: words[2].get(),
            flag: words[3].get(),
            pred: words[4].get(),
            succ: words[5].get(),
            oldpred: words[6].get(),
        }
    }

    /// The identifier never changes, so it is not written.
    pub fn write<W: Word>(&self, record: &mut Record<W>, hub: u32) {
        let start = row_start(hub);
        let words = &mut record[start..start + ROW_WORDS];
        words[1] = W::of(self.state);
        words[2] = W::of(self.lock);
        words[3] = W::of(self.flag);
        words[4] = W::of(self.pred);
        words[5] = W::of(self.succ);
        words[6] = W::of(self.oldpred);
    }

    /// State 2 to 4.
    pub fn in_ring(&self) -> bool {
        (INSIDE..=LEAVING).contains(&self.state)
    }
}

/// The identifier of a hub alone.
pub(crate) fn identifier<W: Word>(record: &Record<W>, hub: u32) -> u32 {
    record[row_start(hub)].get()
}

/// The succ of a hub alone.
pub(crate) fn succ<W: Word>(record: &Record<W>, hub: u32) -> u32 {
    record[row_start(hub) + 5].get()
}

fn row_start(hub: u32) -> usize {
    ROWS + ROW_WORDS * hub as usize
}

/// A waiting message, read from its words.
#[derive(Clone, Copy, Default)]
pub(crate) struct Message {
    pub kind: u32,
    pub from: u32,
    pub to: u32,
    pub a: u32,
    pub b: u32,
    pub hops: u32,
}

impl Message {
    pub fn of_words<W: Word>(words: &[W]) -> Message {
        Message {
            kind: words[0].get(),
            from: words[1].get(),
            to: words[2].get(),
            a: words[3].get(),
            b: words[4].get(),
            hops: words[5].get(),
        }
    }

    pub fn write<W: Word>(&self, record: &mut Record<W>, j: usize) {
        let start = message_start(j);
        let words = &mut record[start..start + MESSAGE_WORDS];
        words[0] = W::of(self.kind);
        words[1] = W::of(self.from);
        words[2] = W::of(self.to);
        words[3] = W::of(self.a);
        words[4] = W::of(self.b);
        words[5] = W::of(self.hops);
    }
}

pub(crate) fn message_start(j: usize) -> usize {
    MESSAGES + MESSAGE_WORDS * j
}

/// The words of the waiting messages, oldest first.
pub(crate) fn waiting<W: Word>(record: &Record<W>) -> std::slice::ChunksExact<'_, W> {
    let m = record[M].get() as usize;
    record[MESSAGES..message_start(m)].chunks_exact(MESSAGE_WORDS)
}

/// Questions 1 and 2: the record of a caller's slice.
pub(crate) fn checked<C: Check, W: Word>(words: &[W]) -> Result<&Record<W>, u32> {
    let record = words.first_chunk().ok_or(refusal::RECORD_SHORT)?;
    if well_formed::<C, W>(record) {
        Ok(record)
    } else {
        Err(refusal::NOT_WELL_FORMED)
    }
}

/// Questions 1 and 2 for a call that may write.
pub(crate) fn checked_mut<C: Check, W: Word>(words: &mut [W]) -> Result<&mut Record<W>, u32> {
    checked::<C, W>(words)?;
    words.first_chunk_mut().ok_or(refusal::RECORD_SHORT)
}

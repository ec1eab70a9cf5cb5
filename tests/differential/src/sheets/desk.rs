//! Sheets read and written by engine and model side by side.

use ring_model::bytes::{ring_sheet_read, ring_sheet_write, NO_REFUSAL};
use ring_model::generator::Generator;
use ring_model::refusal::OUTPUT_SHORT;
use ring_model::sheet::rows;

use crate::calls::Calls;
use crate::lent::{compare, Lent};
use crate::sheets::counts::Sheets;
use crate::sheets::room::{around, counts_around, for_list, for_text};
use crate::sheets::texts::Making;

/// A list of hubs as it is lent.
#[derive(PartialEq, Eq)]
pub struct List {
    /// Names, each with a zero byte behind it if the list is sound.
    pub names: Vec<u8>,
    /// Four bytes for each identifier, and maybe some left over.
    pub identifiers: Vec<u8>,
}

impl List {
    /// The list as it is told.
    fn shown(&self) -> String {
        let List { names, identifiers } = self;
        format!("\"{}\" with the identifiers' bytes {identifiers:02X?}", names.escape_ascii())
    }
}

/// Both readers and writers, and what they reached.
pub struct Desk<'a> {
    /// Where everything random comes from.
    pub generator: &'a mut Generator,
    /// The calls under test.
    pub calls: Calls,
    /// What was reached.
    pub counts: &'a mut Sheets,
}

impl Desk<'_> {
    /// A text read into outputs of any lengths. If it is read, its list is written into an output of
    /// any length, and if that is written, it is read again and must be the same list.
    pub fn there_and_back(&mut self, making: Making, text: &[u8]) -> Result<(), String> {
        let sheet = rows(text);
        let need = for_text(text, sheet.as_deref());
        let room = need.map(|need| around(self.generator, need));
        let (code, list) = self.read(text, room)?;
        self.counts.text(making, code, text, sheet.as_deref());
        self.counts.room(code, room, need);
        if sheet.is_none() && matches!(making, Making::Whole) {
            return Err(format!("a sheet is said to be none: \"{}\"", text.escape_ascii()));
        }
        let Some(list) = list else {
            return Ok(());
        };
        let Some(written) = self.write(&list)? else {
            return Ok(());
        };
        let exact = [list.identifiers.len(), list.names.len()];
        match self.read(&written, exact)? {
            // Counts that are too short are asked before the list.
            (OUTPUT_SHORT, _) => {}
            (_, Some(again)) if again == list => self.counts.again += 1,
            _ => {
                let (text, written) = (text.escape_ascii(), written.escape_ascii());
                return Err(format!("\"{text}\" is written as \"{written}\": another list"));
            }
        }
        Ok(())
    }

    /// A text read by both, compared, with room for so many bytes of identifiers and names: the
    /// number returned, and the list if it was read.
    fn read(&mut self, text: &[u8], room: [usize; 2]) -> Result<(u32, Option<List>), String> {
        let mut sheet = Lent::holding(self.generator, text, 0);
        let [mut identifiers, mut names] = room.map(|length| Lent::new(self.generator, length));
        let mut counts = counts_around(self.generator);
        let code = (self.calls.sheet_read)(
            sheet.engine(),
            identifiers.engine(),
            names.engine(),
            counts.engine(),
        );
        let should = ring_sheet_read(
            sheet.look(),
            identifiers.expected(),
            names.expected(),
            counts.expected(),
        );
        let lent = [
            ("text", &sheet),
            ("identifiers", &identifiers),
            ("names", &names),
            ("counts", &counts),
        ];
        compare(code, should, &lent)
            .map_err(|what| format!("reading \"{}\": {what}", text.escape_ascii()))?;
        let list = (code == NO_REFUSAL).then(|| {
            let [rows, bytes] = counted(&counts);
            List {
                names: names.look()[..bytes].to_vec(),
                identifiers: identifiers.look()[..4 * rows].to_vec(),
            }
        });
        Ok((code, list))
    }

    /// A list written by both, compared; the text, if it was written.
    pub fn write(&mut self, list: &List) -> Result<Option<Vec<u8>>, String> {
        let length = around(self.generator, for_list(list));
        let mut names = Lent::holding(self.generator, &list.names, 0);
        let mut identifiers = Lent::holding(self.generator, &list.identifiers, 0);
        let mut text = Lent::new(self.generator, length);
        let mut counts = counts_around(self.generator);
        let code = (self.calls.sheet_write)(
            names.engine(),
            identifiers.engine(),
            text.engine(),
            counts.engine(),
        );
        let should =
            ring_sheet_write(names.look(), identifiers.look(), text.expected(), counts.expected());
        self.counts.list(code);
        let lent = [
            ("names", &names),
            ("identifiers", &identifiers),
            ("text", &text),
            ("counts", &counts),
        ];
        compare(code, should, &lent).map_err(|what| format!("writing {}: {what}", list.shown()))?;
        Ok((code == NO_REFUSAL).then(|| text.look()[..counted(&counts)[1]].to_vec()))
    }
}

/// The two counts of an accepted call.
fn counted(counts: &Lent) -> [usize; 2] {
    [0, 8].map(|place| {
        let mut eight = [0; 8];
        eight.copy_from_slice(&counts.look()[place..place + 8]);
        u64::from_le_bytes(eight) as usize
    })
}

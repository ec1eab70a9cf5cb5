//! Routing at a hub (document 01, 'Routing at hub t').

use crate::clockwise::in_interval;
use crate::record::{identifier, Record, Row, LEAVING};
use crate::word::Word;

/// Where a number goes from the hub with this row: to another hub, or nowhere,
/// since this one owns it. An ask has no sender.
pub(crate) fn next_hub<W: Word>(
    record: &Record<W>,
    row: &Row,
    sender: Option<u32>,
    number: u32,
) -> Option<u32> {
    if row.flag == 1 && sender == Some(row.oldpred) {
        return Some(row.pred);
    }
    let owned =
        row.state != LEAVING && in_interval(number, identifier(record, row.pred), row.identifier);
    if owned {
        None
    } else {
        Some(row.succ)
    }
}

//! Routing at a node (document 01, 'Routing at hub t').

use crate::clockwise::in_interval;
use crate::record::{State, LEAVING};

/// Where a lookup or a join goes from the node that routes it.
#[derive(Clone, Copy, Debug, PartialEq, Eq)]
pub enum Route {
    /// The routing node owns the key.
    Owned,
    /// It goes on to this node.
    SendOn(u32),
}

/// Routes `key` at `node`, which is in state 2 to 4.
///
/// `sender` is the node that the message comes from; an ask has none. The
/// sender is looked at before the interval, so that what comes over the old
/// link reaches the newcomer, and only what comes over the old link goes
/// there: what the newcomer itself sends must not bounce.
pub fn route(state: &State, node: u32, sender: Option<u32>, key: u32) -> Route {
    let row = state.row(node);
    if row.flag && sender == Some(row.oldpred) {
        return Route::SendOn(row.pred);
    }
    if row.state == LEAVING {
        return Route::SendOn(row.succ);
    }
    let pred_identifier = state.row(row.pred).identifier;
    if in_interval(key, pred_identifier, row.identifier) {
        return Route::Owned;
    }
    Route::SendOn(row.succ)
}

//! Rolls that have other hubs, or in another order.

use ring_model::record::OUTSIDE;

use super::{changed, Wrong};
use crate::faults::seldom;

/// The wrong rolls.
pub const ROLLS: [Wrong; 15] = [
    ("a roll goes anticlockwise", "runs", |words, hub, roll, length| {
        changed(words, hub, roll, length, |hubs, _| hubs[1..].reverse())
    }),
    ("a roll begins with the next hub", "runs", |words, hub, roll, length| {
        changed(words, hub, roll, length, |hubs, _| hubs.rotate_left(1))
    }),
    ("a roll ends with its start", "runs", |words, hub, roll, length| {
        changed(words, hub, roll, length, |hubs, _| hubs.reverse())
    }),
    ("the start is left out", "runs", |words, hub, roll, length| {
        changed(words, hub, roll, length, |hubs, _| *hubs = hubs[1..].to_vec())
    }),
    ("the last hub is left out", "runs", |words, hub, roll, length| {
        changed(words, hub, roll, length, |hubs, _| hubs.truncate(1.max(hubs.len() - 1)))
    }),
    ("a hub between is left out", "runs", |words, hub, roll, length| {
        changed(words, hub, roll, length, |hubs, _| {
            if hubs.len() > 2 {
                hubs.remove(hubs.len() / 2);
            }
        })
    }),
    ("the last of 64 hubs is left out", "roll_edges", |words, hub, roll, length| {
        changed(words, hub, roll, length, |hubs, _| hubs.truncate(63))
    }),
    ("the start is there again at the end", "runs", |words, hub, roll, length| {
        changed(words, hub, roll, length, |hubs, _| hubs.push(hubs[0]))
    }),
    ("the start is there twice", "runs", |words, hub, roll, length| {
        changed(words, hub, roll, length, |hubs, _| hubs.insert(0, hubs[0]))
    }),
    ("a hub is there in the place of another", "runs", |words, hub, roll, length| {
        changed(words, hub, roll, length, |hubs, _| {
            let last = hubs.len() - 1;
            hubs[last] = hubs[last / 2];
        })
    }),
    ("a hub outside is there, too", "runs", |words, hub, roll, length| {
        changed(words, hub, roll, length, |hubs, state| {
            let outside = |&hub: &u32| state.row(hub).state == OUTSIDE;
            hubs.extend((0..state.n()).find(outside));
        })
    }),
    ("hubs in the order of their numbers", "runs", |words, hub, roll, length| {
        changed(words, hub, roll, length, |hubs, _| hubs.sort_unstable())
    }),
    ("hubs in the order of their identifiers", "runs", |words, hub, roll, length| {
        changed(words, hub, roll, length, |hubs, state| {
            hubs.sort_unstable_by_key(|&hub| state.row(hub).identifier);
        })
    }),
    ("identifiers in the place of hubs", "runs", |words, hub, roll, length| {
        changed(words, hub, roll, length, |hubs, state| {
            hubs.iter_mut().for_each(|hub| *hub = state.row(*hub).identifier);
        })
    }),
    ("the last hub differs, seldom", "runs", |words, hub, roll, length| {
        changed(words, hub, roll, length, |hubs, _| {
            let last = hubs.len() - 1;
            hubs[last] ^= u32::from(seldom()) << 31;
        })
    }),
];

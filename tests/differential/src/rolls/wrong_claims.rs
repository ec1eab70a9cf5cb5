//! Rolls and owners at rest that the ledger does not have: the checks must see them. Beside the model
//! they cannot be told, since both might be wrong alike; so these are made by hand.

use ring_model::answer::{ENTERED, GONE};
use ring_model::command::DELIVER;
use ring_model::{Answer, Command};

use crate::claims::Claims;

/// Clockwise from 0 on: nodes 1, 3, 4, 0 and 2.
const NAMES: [u32; 5] = [300, 100, 400, 200, 250];

/// Rolls from node 3, where all but node 4 are in the ledger.
const ROLLS: [(&str, &[u32]); 11] = [
    ("at rest a roll goes anticlockwise", &[3, 1, 2, 0]),
    ("at rest two hubs of a roll are exchanged", &[3, 2, 0, 1]),
    ("at rest a roll lacks the last hub", &[3, 0, 2]),
    ("at rest a roll lacks one between", &[3, 2, 1]),
    ("at rest a roll lacks its start", &[0, 2, 1]),
    ("at rest a roll has a hub twice", &[3, 0, 0, 2, 1]),
    ("at rest a roll has its start twice", &[3, 0, 2, 1, 3]),
    ("at rest a roll has a hub in the place of another", &[3, 0, 0, 1]),
    ("at rest a roll has a hub that is gone", &[3, 4, 0, 2, 1]),
    ("at rest a roll begins with another hub", &[0, 2, 1, 3]),
    ("at rest a roll is empty", &[]),
];

/// Owners of numbers: of another hub, of one that is gone, of one that there is not, refused by 15.
const OWNERS: [(&str, u32, Result<u32, u32>); 6] = [
    ("at rest another owner", 201, Ok(3)),
    ("at rest the owner that was", 250, Ok(4)),
    ("at rest the hub before", 0, Ok(2)),
    ("at rest an owner that is none", 300, Ok(255)),
    ("at rest no owner", 300, Err(15)),
    ("at rest the owner query is refused", 300, Err(2)),
];

/// Each case by its name, and whether it was seen as what it is.
pub fn cases() -> Vec<(&'static str, bool)> {
    let claims = four();
    let rolled = |roll: Result<Vec<u32>, u32>| claims.judge_roll(3, &roll).is_err();
    let roll = |(name, nodes): (_, &[u32])| (name, rolled(Ok(nodes.to_vec())));
    let owner = |(name, key, owner)| (name, claims.judge_owner(key, owner).is_err());
    let mut cases: Vec<_> = ROLLS.map(roll).into_iter().chain(OWNERS.map(owner)).collect();
    cases.extend([
        ("at rest a roll is refused by 16", rolled(Err(16))),
        ("at rest a roll from a hub that is gone", claims.judge_roll(4, &Ok(vec![4])).is_err()),
        ("right rolls at rest are not found wrong", right_rolls(&claims)),
        ("right owners at rest are not found wrong", right_owners(&claims)),
    ]);
    cases
}

/// A ledger that took in all nodes, and struck off node 4.
fn four() -> Claims {
    let mut claims = Claims::new(&NAMES, 0);
    let answers = [1, 4, 2, 3].map(|node| Answer::naming(ENTERED, node));
    for answer in answers.into_iter().chain([Answer::naming(GONE, 4)]) {
        let taken = claims.take_in(Command::new(DELIVER, 0, 0), &answer);
        assert_eq!(taken, Ok(()), "these answers break no claim");
    }
    claims
}

fn right_rolls(claims: &Claims) -> bool {
    let mut roll = vec![1, 3, 0, 2];
    (0..4).all(|_| {
        let right = claims.judge_roll(roll[0], &Ok(roll.clone())).is_ok();
        roll.rotate_left(1);
        right
    })
}

fn right_owners(claims: &Claims) -> bool {
    let owners = [(0, 1), (100, 1), (101, 3), (200, 3), (201, 0), (250, 0), (300, 0), (301, 2)];
    let around = [(400, 2), (401, 1), (u32::MAX, 1)];
    let right = |(key, owner)| claims.judge_owner(key, Ok(owner)).is_ok();
    owners.into_iter().chain(around).all(right)
}

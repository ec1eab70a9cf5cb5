//! Records and card slices that no ring made, but that are well formed: any members, any cards,
//! each with its owner. There the calls must do what the rule says as well.

use ring_model::cards::{Card, Cards, MAX_CARDS};
use ring_model::command::DELIVER;
use ring_model::generator::Generator;
use ring_model::kinds::{JOIN, LEAVEPOINT};
use ring_model::ledger::Membership;
use ring_model::record::{Message, Row, State, INSIDE, JOINING, MAX_MESSAGES, NONE};
use ring_model::Command;

use super::counts::CardCounts;
use super::machines::{machines, Making};
use super::offers::{some_offer, MANY};
use super::ring::CardRing;
use crate::calls::Calls;
use crate::damaged::reachable;
use crate::driver::on_any_state;
use crate::identifiers::some_key;
use crate::reached::Reached;
use crate::states::any_state;
use crate::trail::Trail;

/// Slices of one batch.
const SLICES: u32 = 6;
/// Calls on each.
const CALLS: u32 = 8;

/// Some records and slices, some calls on each.
pub fn batch(
    generator: &mut Generator,
    calls: Calls,
    _number: u64,
    reached: &mut Reached,
) -> Result<(), String> {
    for _ in 0..SLICES {
        let mut state = any_record(generator);
        let first = plant(generator, &mut state);
        let typed = any_cards(generator, &state, first, &mut reached.cards);
        let mut ring = CardRing::new(generator, calls, state.clone(), typed.clone());
        let tried = some_calls(generator, &mut ring, first, &mut reached.cards);
        tried.map_err(|what| format!("{what}\n  the record: {state:?}\n  the cards: {typed:?}"))?;
    }
    Ok(())
}

/// Calls on one slice, this command first.
fn some_calls(
    generator: &mut Generator,
    ring: &mut CardRing,
    mut first: Option<Command>,
    counts: &mut CardCounts,
) -> Result<(), String> {
    let mut trail = Trail::new("the record and the cards below".to_string());
    for number in 0..CALLS {
        let called = if number % 3 == 1 {
            let others = [some_key(generator, &ring.state), generator.next_u32()];
            let offered = some_offer(generator, &others, &ring.typed);
            trail.push_offer(offered);
            ring.offer(offered, counts).map(|_| ())
        } else {
            let command = first.take().unwrap_or_else(|| on_any_state(generator, &ring.state));
            trail.push(command);
            ring.step(generator, command, counts).map(|_| ())
        };
        called.map_err(|what| trail.tell(&what))?;
    }
    Ok(())
}

/// A record that a run reaches, or any.
pub fn any_record(generator: &mut Generator) -> State {
    match generator.chance(10) {
        true => reachable(generator),
        false => any_state(generator),
    }
}

/// Mostly puts a message in front whose delivery answers gone or entered, and then gives the
/// command that delivers it.
fn plant(generator: &mut Generator, state: &mut State) -> Option<Command> {
    let n = state.n();
    if generator.chance(30) || state.messages.len() == MAX_MESSAGES {
        return None;
    }
    let [from, to, a] = [(); 3].map(|()| generator.below(n));
    let joins = generator.chance(40) && a != to;
    // A hub that is its own pred owns every number.
    let (lock, pred) = if joins { (false, to) } else { (true, generator.below(n)) };
    let row = state.row_mut(to);
    *row = Row { state: INSIDE, lock, flag: false, pred, succ: pred, oldpred: NONE, ..*row };
    if joins {
        let row = state.row_mut(a);
        let (pred, succ, oldpred) = (NONE, NONE, NONE);
        *row = Row { state: JOINING, lock: true, flag: false, pred, succ, oldpred, ..*row };
    }
    let kind = if joins { JOIN } else { LEAVEPOINT };
    state.messages.insert(0, Message { kind, from, to, a, b: 0, hops: 0 });
    Some(Command::new(DELIVER, from, to))
}

/// Any cards beside this record. If a hub is to go, it is often the only member, or none.
pub fn any_cards(
    generator: &mut Generator,
    state: &State,
    first: Option<Command>,
    counts: &mut CardCounts,
) -> Cards {
    let names: Vec<u32> = state.rows.iter().map(|row| row.identifier).collect();
    let mut members = some_members(generator, state.n());
    match (first, generator.below(4)) {
        (Some(planted), 0) => members = vec![planted.x],
        (Some(planted), 1) if members.len() > 1 => members.retain(|&hub| hub != planted.x),
        _ => {}
    }
    let (making, machines) = some_machines(generator, &names);
    counts.sets[making as usize] += u64::from(machines.len() >= MANY);
    let membership = Membership::of(&names, &members);
    let kept = machines.into_iter().map(|machine| Card {
        machine,
        revision: [0, 1, u32::MAX, generator.next_u32()][generator.below(4) as usize],
        price: generator.next_u32(),
        hub: nearest(&names, &members, machine),
    });
    Cards { kept: kept.collect(), membership }
}

/// Machines for none to 512 cards.
fn some_machines(generator: &mut Generator, identifiers: &[u32]) -> (Making, Vec<u32>) {
    let count = match generator.below(8) {
        0 => 0,
        1 => MAX_CARDS,
        2 => MAX_CARDS - 1,
        3 => generator.below(MAX_CARDS as u32) as usize,
        _ => 1 + generator.below(20) as usize,
    };
    machines(generator, identifiers, count)
}

/// One hub, all, or some.
fn some_members(generator: &mut Generator, n: u32) -> Vec<u32> {
    let one = generator.below(n);
    match generator.below(4) {
        0 => vec![one],
        1 => (0..n).collect(),
        _ => (0..n).filter(|&hub| hub == one || generator.chance(50)).collect(),
    }
}

/// The member nearest clockwise from a number on.
pub fn nearest(identifiers: &[u32], members: &[u32], number: u32) -> u32 {
    let away = |&hub: &u32| identifiers[hub as usize].wrapping_sub(number);
    members.iter().copied().min_by_key(away).unwrap_or(NONE)
}

//! Runs from fresh rings with routes among the steps: every call compared, each route asked one by
//! one as well, demand 3's claims after every call, and the ledger's rolls and owners at rest.

use ring_model::bytes::NO_REFUSAL;
use ring_model::generator::Generator;
use ring_model::Command;

use super::counts::Source;
use super::lists::some_route;
use super::route::Route;
use crate::calls::{Calls, RECORD_BYTES};
use crate::claims::Claims;
use crate::driver::Phase;
use crate::form::Form;
use crate::identifiers::{identifiers, ring_size};
use crate::reached::Reached;
use crate::ring::Ring;
use crate::trail::Trail;

/// Calls of a phase, unless a large ring is to come about.
const MOST_CALLS: u32 = 120;

/// A run under way.
struct Run<'a> {
    ring: Ring,
    claims: Claims,
    copy: Vec<u8>,
    reached: &'a mut Reached,
}

/// A run of any size, with few routes or many.
pub fn batch(
    generator: &mut Generator,
    calls: Calls,
    _number: u64,
    reached: &mut Reached,
) -> Result<(), String> {
    let n = ring_size(generator);
    let names = identifiers(generator, n);
    let form = Form::some(generator, n);
    let mut trail = Trail::new(format!("fresh {form:?} {names:?}"));
    let ring = Ring::founded(generator, calls, &names, form).map_err(|what| trail.tell(&what))?;
    let claims = Claims::new(&names, form.founder(&names));
    let mut run = Run { ring, claims, copy: vec![0; RECORD_BYTES], reached };
    for (phase, routes) in some_phases(generator, n) {
        for _ in 0..phase.calls {
            let called = if generator.chance(routes) {
                let mut route = some_route(generator, &run.ring.state);
                trail.push_route(route.hub, route.numbers(), route.room());
                run.route(generator, &mut route)
            } else {
                let command = phase.command(generator, &run.ring.state);
                trail.push(command);
                run.step(generator, command)
            };
            called.map_err(|what| trail.tell(&what))?;
        }
    }
    Ok(())
}

/// Some phases, each with its share of routes, of 100. A ring that is to grow has no room for many
/// questions.
fn some_phases(generator: &mut Generator, n: usize) -> Vec<(Phase, u32)> {
    let count = 1 + generator.below(4);
    let some_phase = |_| {
        let mut phase = Phase::new(generator);
        phase.calls = phase.calls.min(MOST_CALLS);
        (phase, [1, 4, 12, 40][generator.below(4) as usize])
    };
    let mut phases: Vec<(Phase, u32)> = (0..count).map(some_phase).collect();
    if n > 8 && generator.chance(30) {
        phases.insert(0, (Phase::growth(n), 0));
    }
    phases
}

impl Run<'_> {
    /// A route, and what must be so after it: its questions are asks, and the ledger is the one that
    /// the calls before it left.
    fn route(&mut self, generator: &mut Generator, route: &mut Route) -> Result<(), String> {
        let counts = &mut self.reached.routes;
        if self.ring.route(route, Source::Fresh, counts)? == NO_REFUSAL {
            self.claims.take_in_route(route.hub, &route.asked())?;
        }
        self.claims.judge(&self.ring.state)?;
        self.try_links(generator)
    }

    fn step(&mut self, generator: &mut Generator, command: Command) -> Result<(), String> {
        if let Ok(answer) = &self.ring.step(generator, command, self.reached)? {
            self.claims.take_in(command, answer)?;
        }
        self.claims.judge(&self.ring.state)?;
        let rest = self.ring.at_rest(&self.claims, self.reached);
        rest.map_or(Ok(()), |mut rest| rest.look(generator))
    }

    /// 'Whatever waits can be delivered': after a route the latest message, and any.
    fn try_links(&mut self, generator: &mut Generator) -> Result<(), String> {
        let messages = &self.ring.state.messages;
        let tried = [messages.last(), generator.pick(messages)];
        for message in tried.into_iter().flatten() {
            self.reached.tried += 1;
            self.ring.delivers(message.from, message.to, &mut self.copy)?;
        }
        Ok(())
    }
}

//! Runs from fresh rings with cards: steps, offers and routes compared, and all claims after every
//! call, and the ledger's rolls and owners at rest. Cards are not lent to a route, and must be right
//! after it as well.

use ring_model::answer::{ENTERED, GONE};
use ring_model::bytes::NO_REFUSAL;
use ring_model::generator::Generator;
use ring_model::Command;

use super::claims::CardClaims;
use super::offers::{some_offer, Stock};
use super::ring::CardRing;
use crate::calls::Calls;
use crate::claims::Claims;
use crate::driver::Phase;
use crate::form::Form;
use crate::identifiers::{identifiers, ring_size};
use crate::reached::Reached;
use crate::routes::lists::some_route;
use crate::routes::route::Route;
use crate::trail::Trail;

/// Calls of a phase, unless a large ring is to come about.
const MOST_CALLS: u32 = 150;
/// A ledger of more hubs is large.
const LARGE: u64 = 32;
/// Of 100 calls of a phase that are no offers, so many are routes.
const ROUTES: [u32; 4] = [0, 1, 5, 25];

/// A run under way.
struct Run<'a> {
    ring: CardRing,
    claims: Claims,
    cards: CardClaims,
    /// A route was made since the ledger last changed.
    routed: bool,
    reached: &'a mut Reached,
}

/// A run of any size, with few machines or many.
pub fn batch(
    generator: &mut Generator,
    calls: Calls,
    _number: u64,
    reached: &mut Reached,
) -> Result<(), String> {
    let n = ring_size(generator);
    let names = identifiers(generator, n);
    let form = Form::some(generator, n);
    let mut trail = Trail::new(format!("fresh with cards {form:?} {names:?}"));
    let ring =
        CardRing::founded(generator, calls, &names, form).map_err(|what| trail.tell(&what))?;
    let founder = form.founder(&names);
    let mut run = Run {
        ring,
        claims: Claims::new(&names, founder),
        cards: CardClaims::new(&names, founder),
        routed: false,
        reached,
    };
    run.judge().map_err(|what| trail.tell(&what))?;
    let stock = Stock::new(generator, &names, &mut run.reached.cards);
    for _ in 0..stock.at_first {
        let offered = stock.new_offer(generator, &run.ring.typed);
        trail.push_offer(offered);
        run.offer(offered).map_err(|what| trail.tell(&what))?;
    }
    run.go_on(generator, n, &stock, &mut trail)
}

impl Run<'_> {
    /// Steps, offers and routes in some phases.
    fn go_on(
        &mut self,
        generator: &mut Generator,
        n: usize,
        stock: &Stock,
        trail: &mut Trail,
    ) -> Result<(), String> {
        let count = 1 + generator.below(3);
        let mut phases: Vec<Phase> = (0..count).map(|_| Phase::new(generator)).collect();
        phases.iter_mut().for_each(|phase| phase.calls = phase.calls.min(MOST_CALLS));
        let mut routes: Vec<u32> =
            (0..count).map(|_| ROUTES[generator.below(4) as usize]).collect();
        if n > 8 && generator.chance(50) {
            // A ring that is to grow has no room for many questions.
            phases.insert(0, Phase::growth(n));
            routes.insert(0, 0);
        }
        for (phase, routes) in phases.into_iter().zip(routes) {
            let share = [3, 10, 30, 60][generator.below(4) as usize];
            for _ in 0..phase.calls {
                let called = if generator.chance(share) {
                    let offered = some_offer(generator, &stock.machines, &self.ring.typed);
                    trail.push_offer(offered);
                    self.offer(offered)
                } else if generator.chance(routes) {
                    let mut route = some_route(generator, &self.ring.state);
                    trail.push_route(route.hub, route.numbers(), route.room());
                    self.route(&mut route)
                } else {
                    let command = phase.command(generator, &self.ring.state);
                    trail.push(command);
                    self.step(generator, command)
                };
                called.map_err(|what| trail.tell(&what))?;
            }
        }
        Ok(())
    }

    /// One step: the same as without cards, and what must be so after it.
    fn step(&mut self, generator: &mut Generator, command: Command) -> Result<(), String> {
        let alone = self.ring.alone(command);
        let outcome = self.ring.step(generator, command, &mut self.reached.cards)?;
        self.ring.same_as(&alone, &outcome)?;
        if let Ok(answer) = &outcome {
            self.claims.take_in(command, answer)?;
            self.cards.answered(answer);
            let large = self.claims.members() > LARGE;
            let moves = matches!(answer.kind, ENTERED | GONE);
            self.reached.cards.large += u64::from(large && moves);
            if moves && self.routed && !self.ring.typed.kept.is_empty() {
                self.reached.routes.then[usize::from(answer.kind == GONE)] += 1;
                self.routed = false;
            }
        }
        self.judge()?;
        let rest = self.ring.at_rest(&self.claims, self.reached);
        rest.map_or(Ok(()), |mut rest| rest.look(generator))?;
        self.try_a_link(generator)
    }

    fn offer(&mut self, offered: [u32; 3]) -> Result<(), String> {
        let outcome = self.ring.offer(offered, &mut self.reached.cards)?;
        if outcome.is_ok() {
            self.cards.accepted(offered);
            self.reached.routes.then[2] += u64::from(self.routed);
        }
        self.judge()
    }

    /// One route: its questions are asks, which move no card.
    fn route(&mut self, route: &mut Route) -> Result<(), String> {
        if self.ring.route(route, &mut self.reached.routes)? == NO_REFUSAL {
            self.claims.take_in_route(route.hub, &route.asked())?;
            self.routed = true;
        }
        self.judge()
    }

    /// Demand 3's claims on the record, and those on the cards.
    fn judge(&self) -> Result<(), String> {
        self.claims.judge(&self.ring.state)?;
        self.cards.judge(&self.ring.slice())
    }

    /// 'Whatever waits can be delivered', with cards lent: now and then tried on copies.
    fn try_a_link(&mut self, generator: &mut Generator) -> Result<(), String> {
        if !generator.chance(30) {
            return Ok(());
        }
        let Some(message) = generator.pick(&self.ring.state.messages) else {
            return Ok(());
        };
        self.reached.cards.tried += 1;
        self.ring.delivers(message.from, message.to)
    }
}

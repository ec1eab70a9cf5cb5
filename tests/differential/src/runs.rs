//! Runs from fresh rings: every call compared, and demand 3's claims after every call. Many come to
//! rest, with several members, and go on: then rolls and owners are held to the ledger.

use ring_model::bytes::NO_REFUSAL;
use ring_model::command::DELIVER;
use ring_model::generator::Generator;
use ring_model::record::RECORD_WORDS;
use ring_model::{Answer, Command, Witness};

use crate::calls::{Calls, RECORD_BYTES};
use crate::claims::Claims;
use crate::driver::Phase;
use crate::form::Form;
use crate::identifiers::{identifiers, ring_size, some_key};
use crate::reached::Reached;
use crate::ring::Ring;
use crate::rolls::counts::Source;
use crate::rolls::roll::Roll;
use crate::trail::Trail;

/// With so few messages every link is tried after a call; otherwise the latest message's and a
/// random one's.
const TRY_ALL: usize = 3;
/// A ring comes to rest within so many deliveries, or is left as it is.
const MOST_DELIVERIES: u32 = 3000;

/// A run under way.
struct Run<'a> {
    ring: Ring,
    claims: Claims,
    witness: Option<Witness>,
    /// The ledger when no message waited.
    rested: u64,
    copy: Vec<u8>,
    reached: &'a mut Reached,
}

/// A run of any size with the quick claims.
pub fn batch(
    generator: &mut Generator,
    calls: Calls,
    _number: u64,
    reached: &mut Reached,
) -> Result<(), String> {
    let n = ring_size(generator);
    // Most runs are short, so that many rings are tried; some are long.
    let count = if generator.chance(2) { 40 } else { 1 + generator.below(6) };
    let mut phases: Vec<Phase> = (0..count).map(|_| Phase::new(generator)).collect();
    if generator.chance(30) {
        let (first, later) = phases.split_at_mut(1);
        later.iter_mut().for_each(|phase| phase.starve_like(&first[0]));
    }
    if n > 8 && generator.chance(50) {
        phases.insert(0, Phase::growth(n));
    }
    if generator.chance(10) {
        phases.extend(Phase::flood());
    }
    run(generator, calls, n, &phases, false, reached)
}

/// A run under the model's witness as well, which tries every link and many keys with the engine
/// after each call. It is slow, so the run is short.
pub fn witnessed_batch(
    generator: &mut Generator,
    calls: Calls,
    _number: u64,
    reached: &mut Reached,
) -> Result<(), String> {
    let n = ring_size(generator);
    let count = 1 + generator.below(3);
    let mut phases: Vec<Phase> = (0..count).map(|_| Phase::new(generator)).collect();
    phases.iter_mut().for_each(|phase| phase.calls = phase.calls.min(200));
    run(generator, calls, n, &phases, true, reached)
}

fn run(
    generator: &mut Generator,
    calls: Calls,
    n: usize,
    phases: &[Phase],
    witnessed: bool,
    reached: &mut Reached,
) -> Result<(), String> {
    let names = identifiers(generator, n);
    let form = Form::some(generator, n);
    let mut trail = Trail::new(format!("fresh {form:?} {names:?}"));
    let ring = Ring::founded(generator, calls, &names, form).map_err(|what| trail.tell(&what))?;
    reached.founding(form, NO_REFUSAL, &names);
    let founder = form.founder(&names);
    let claims = Claims::new(&names, founder);
    let mut run = Run {
        ring,
        rested: claims.ledger(),
        claims,
        witness: witnessed.then(|| Witness::with_step(&names, founder, calls.word_step)),
        copy: vec![0; RECORD_BYTES],
        reached,
    };
    // The list of calls may be empty: the claims hold of the fresh record already.
    run.claims.judge(&run.ring.state).map_err(|what| trail.tell(&what))?;
    run.look_at_all(generator).map_err(|what| trail.tell(&what))?;
    // Some runs never rest, since links are to be starved for long; some do after each phase.
    let rests = [0, 40, 100][generator.below(3) as usize];
    for phase in phases {
        for _ in 0..phase.calls {
            let command = phase.command(generator, &run.ring.state);
            run.noted(generator, command, &mut trail)?;
        }
        if generator.chance(rests) {
            run.come_to_rest(generator, &mut trail)?;
        }
    }
    Ok(())
}

impl Run<'_> {
    /// One call on the trail.
    fn noted(
        &mut self,
        generator: &mut Generator,
        command: Command,
        trail: &mut Trail,
    ) -> Result<(), String> {
        trail.push(command);
        self.call(generator, command).map_err(|what| trail.tell(&what))
    }

    /// Deliveries alone until no message waits, and then all rolls and owners.
    fn come_to_rest(&mut self, generator: &mut Generator, trail: &mut Trail) -> Result<(), String> {
        for _ in 0..MOST_DELIVERIES {
            let Some(&message) = generator.pick(&self.ring.state.messages) else {
                break;
            };
            self.noted(generator, Command::new(DELIVER, message.from, message.to), trail)?;
        }
        self.look_at_all(generator).map_err(|what| trail.tell(&what))
    }

    /// All rolls and owners, where no message waits.
    fn look_at_all(&mut self, generator: &mut Generator) -> Result<(), String> {
        let Some(mut rest) = self.ring.at_rest(&self.claims, self.reached) else {
            return Ok(());
        };
        rest.look_at_all(generator)?;
        self.reached.rolls.rested(self.rested, self.claims.ledger());
        self.rested = self.claims.ledger();
        Ok(())
    }

    /// One call, and what must be so after it. The record has just been found equal to the model's
    /// state in every byte, so what is judged is the engine's.
    fn call(&mut self, generator: &mut Generator, command: Command) -> Result<(), String> {
        let outcome = self.ring.step(generator, command, self.reached)?;
        if let Ok(answer) = &outcome {
            self.claims.take_in(command, answer)?;
        }
        self.claims.judge(&self.ring.state)?;
        self.reached.most_members = self.reached.most_members.max(self.claims.members());
        self.try_links(generator)?;
        self.observe(command, &outcome)?;
        if generator.chance(6) {
            let key = some_key(generator, &self.ring.state);
            let asked = self.ring.owner(generator, key, self.reached);
            asked.map_err(|what| format!("then the owner of {key}: {what}"))?;
        }
        if generator.chance(6) {
            let mut roll = Roll::some(generator, &self.ring.state);
            let called = self.ring.roll(&mut roll, Source::Fresh, self.reached);
            called.map_err(|what| format!("then the {what}"))?;
        }
        let rest = self.ring.at_rest(&self.claims, self.reached);
        rest.map_or(Ok(()), |mut rest| rest.look(generator))
    }

    fn try_links(&mut self, generator: &mut Generator) -> Result<(), String> {
        let messages = &self.ring.state.messages;
        let picked: [Option<usize>; TRY_ALL] = match messages.len() {
            0 => return Ok(()),
            m if m <= TRY_ALL => [0, 1, 2].map(|j| (j < m).then_some(j)),
            m => [Some(m - 1), Some(generator.below(m as u32) as usize), None],
        };
        for message in picked.into_iter().flatten().map(|j| messages[j]) {
            self.reached.tried += 1;
            self.ring.delivers(message.from, message.to, &mut self.copy)?;
        }
        Ok(())
    }

    fn observe(&mut self, command: Command, outcome: &Result<Answer, u32>) -> Result<(), String> {
        let Some(witness) = &mut self.witness else {
            return Ok(());
        };
        let words = &self.ring.words()[..RECORD_WORDS];
        witness
            .observe(command, outcome, words)
            .map_err(|violation| format!("the witness sees {violation:?}"))
    }
}

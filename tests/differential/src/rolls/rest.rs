//! Rings from fresh on in which no message waits (document 02, 2026-07): there the engine's rolls
//! and owners are held to the ledger. Beside the model they are compared as everywhere.

use ring_model::bytes::{ring_owner, LENGTH_BYTES, NO_REFUSAL, OWNER_BYTES};
use ring_model::generator::Generator;
use ring_model::ledger::telling_keys;

use super::counts::Source;
use super::roll::Roll;
use crate::calls::{word_at, Calls};
use crate::claims::Claims;
use crate::lent::{compare, Lent};
use crate::reached::Reached;

/// A record in which no message waits, and the ledger that goes with it.
pub struct Rest<'a> {
    /// The calls under test.
    pub calls: Calls,
    /// The record, just found equal to the model's.
    pub record: &'a mut Lent,
    /// The ledger.
    pub claims: &'a Claims,
    /// What is counted.
    pub reached: &'a mut Reached,
}

impl Rest<'_> {
    /// The roll from one member, and who owns one number. Rings of one rest often, and there is
    /// little to see.
    pub fn look(&mut self, generator: &mut Generator) -> Result<(), String> {
        if self.claims.members() == 1 && generator.chance(90) {
            return Ok(());
        }
        let members = self.claims.in_order();
        if let Some(&member) = generator.pick(&members) {
            self.roll(generator, member)?;
        }
        let keys = telling_keys(self.claims.identifiers());
        let one = generator.next_u32();
        let key = if generator.chance(25) { one } else { keys[one as usize % keys.len()] };
        self.owner(generator, key)
    }

    /// The rolls from all members, and who owns the numbers at which ranges meet, and some.
    pub fn look_at_all(&mut self, generator: &mut Generator) -> Result<(), String> {
        for member in self.claims.in_order() {
            self.roll(generator, member)?;
        }
        let mut keys = telling_keys(self.claims.identifiers());
        keys.extend([(); 4].map(|()| generator.next_u32()));
        keys.into_iter().try_for_each(|key| self.owner(generator, key))
    }

    fn roll(&mut self, generator: &mut Generator, member: u32) -> Result<(), String> {
        let room = 4 * self.claims.members() as usize + generator.below(9) as usize;
        let mut roll = Roll::new(generator, member, [room, LENGTH_BYTES]);
        let code = roll.call(self.calls, self.record)?;
        self.reached.roll(Source::Fresh, code, &roll, self.record.look());
        let came = if code == NO_REFUSAL { Ok(roll.hubs()) } else { Err(code) };
        self.claims.judge_roll(member, &came)?;
        self.reached.rolls.rolled_at_rest(self.claims.members());
        Ok(())
    }

    fn owner(&mut self, generator: &mut Generator, key: u32) -> Result<(), String> {
        let mut out = Lent::new(generator, OWNER_BYTES);
        let code = (self.calls.owner)(self.record.engine(), key, out.engine());
        let should = ring_owner(self.record.look(), key, out.expected());
        let compared = compare(code, should, &[("record", self.record), ("output", &out)]);
        compared.map_err(|what| format!("owner {key}: {what}"))?;
        self.reached.code(code);
        let came = if code == NO_REFUSAL { Ok(word_at(out.look(), 0)) } else { Err(code) };
        self.claims.judge_owner(key, came)?;
        self.reached.rolls.owned_at_rest(self.claims.members());
        Ok(())
    }
}

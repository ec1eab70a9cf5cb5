//! Well-formed records that no run reaches: there the step must do what the rule says as well.

use ring_model::generator::Generator;
use ring_model::record::well_formed;

use crate::calls::Calls;
use crate::driver::on_any_state;
use crate::identifiers::some_key;
use crate::reached::Reached;
use crate::ring::Ring;
use crate::rolls::counts::Source;
use crate::rolls::roll::Roll;
use crate::states::any_state;
use crate::trail::Trail;

/// Records of one batch.
const RECORDS: u32 = 20;
/// Calls on each.
const CALLS: u32 = 16;

/// Some records, some calls on each.
pub fn batch(
    generator: &mut Generator,
    calls: Calls,
    _number: u64,
    reached: &mut Reached,
) -> Result<(), String> {
    for _ in 0..RECORDS {
        let state = any_state(generator);
        let mut ring = Ring::new(generator, calls, state);
        let mut trail = Trail::new(format!("{:?}", ring.state));
        if !well_formed(ring.words()) {
            return Err(trail.tell("the record drawn is not well formed"));
        }
        for _ in 0..CALLS {
            let command = on_any_state(generator, &ring.state);
            trail.push(command);
            let _ = ring.step(generator, command, reached).map_err(|what| trail.tell(&what))?;
            let key = some_key(generator, &ring.state);
            let asked = ring.owner(generator, key, reached);
            asked.map_err(|what| trail.tell(&format!("then the owner of {key}: {what}")))?;
            let mut roll = Roll::some(generator, &ring.state);
            let called = ring.roll(&mut roll, Source::Any, reached);
            called.map_err(|what| trail.tell(&format!("then the {what}")))?;
        }
    }
    Ok(())
}

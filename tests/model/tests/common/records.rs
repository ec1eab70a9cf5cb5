//! Random records that are well formed but mostly out of reach of any run.

use ring_model::generator::Generator;
use ring_model::record::State;

use super::driver::identifiers;

/// Any well-formed state, small rings more often than large ones.
pub fn any_state(generator: &mut Generator) -> State {
    let most = [2, 4, 8, 64][generator.below(4) as usize];
    let n = 1 + generator.below(most);
    let names = identifiers(generator, n as usize);
    ring_model::states::any_state(generator, names)
}

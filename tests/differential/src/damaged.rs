//! Records with one word put wrong, word by word; records of random words.

use ring_model::command::DELIVER;
use ring_model::generator::Generator;
use ring_model::record::{State, RECORD_WORDS};
use ring_model::step::step_state;
use ring_model::Command;

use crate::calls::{put_word, put_words, word_at, Calls, RECORD_BYTES};
use crate::driver::{on_any_state, Phase};
use crate::form::Form;
use crate::identifiers::{identifiers, ring_size, some_key};
use crate::pair::Pair;
use crate::reached::Reached;
use crate::rolls::counts::Source;
use crate::rolls::roll::Roll;
use crate::states::{any_state, founded};

/// A batch damages the words of one window; as many batches damage each word once.
const WINDOWS: usize = 28;
/// Words of a window.
const WINDOW: usize = RECORD_WORDS / WINDOWS;
const _: () = assert!(WINDOW * WINDOWS == RECORD_WORDS);

/// A state that a run reaches, as the model alone makes it.
pub fn reachable(generator: &mut Generator) -> State {
    let n = ring_size(generator);
    let names = identifiers(generator, n);
    let mut state = founded(&names, Form::some(generator, n));
    let mut phases = vec![Phase::new(generator), Phase::new(generator)];
    if generator.chance(30) {
        phases.insert(0, Phase::growth(n));
    }
    if generator.chance(20) {
        phases.extend(Phase::flood());
    }
    for phase in phases {
        for _ in 0..phase.calls {
            let Command { operation, x, y } = phase.command(generator, &state);
            // A refused command leaves the state as it was.
            let _ = step_state(&mut state, operation, x, y);
        }
    }
    state
}

/// The bytes of a state's record.
pub fn bytes_of(state: &State) -> Vec<u8> {
    let mut words = vec![0; RECORD_WORDS];
    state.write(&mut words);
    let mut bytes = vec![0; RECORD_BYTES];
    put_words(&mut bytes, &words);
    bytes
}

/// The limits that document 01 names, and what is next to them.
const LIMITS: [u32; 14] = [0, 1, 2, 3, 4, 5, 14, 15, 254, 255, 256, 65535, 65536, u32::MAX];

/// What a word is set to: the limits, what is next to the word, and what stands elsewhere.
pub fn values(generator: &mut Generator, state: &State, word: u32) -> Vec<u32> {
    let (n, m, asked) = (state.n(), state.messages.len() as u32, state.asked);
    let another = state.row(generator.below(n)).identifier;
    let mut all = vec![n - 1, n, n + 1, m, m + 1, asked, asked.wrapping_sub(1), another];
    all.extend([word.wrapping_add(1), word.wrapping_sub(1)]);
    all.extend([generator.next_u32(), generator.below(16), generator.below(n)]);
    all.extend(LIMITS);
    all
}

/// A command that reads what was damaged, if it is a node or a message.
fn command_at(generator: &mut Generator, state: &State, place: usize) -> Command {
    if place >= 452 {
        if let Some(message) = state.messages.get((place - 452) / 6) {
            return Command::new(DELIVER, message.from, message.to);
        }
    }
    let node = place.saturating_sub(4) as u32 / 7;
    if place >= 4 && node < state.n() && generator.chance(60) {
        return Command::new(generator.below(3), node, some_key(generator, state));
    }
    on_any_state(generator, state)
}

/// Damages each word of a window in turn.
pub fn batch(
    generator: &mut Generator,
    calls: Calls,
    number: u64,
    reached: &mut Reached,
) -> Result<(), String> {
    let state = if generator.chance(70) { reachable(generator) } else { any_state(generator) };
    let sound = bytes_of(&state);
    let behind = generator.below(9) as usize;
    let longer = generator.below(4) as usize;
    let mut pair = Pair::new(generator, calls, RECORD_BYTES + behind, 20 + longer);
    pair.record.put(&sound);
    let first = number as usize % WINDOWS * WINDOW;
    for place in first..first + WINDOW {
        for value in values(generator, &state, word_at(&sound, place)) {
            let tell =
                |what: String| format!("word {place} set to {value}: {what}\n  in {state:?}");
            put_both(&mut pair, place, value);
            pair.out.fill(generator.next_u32() as u8);
            pair.owner(some_key(generator, &state), reached).map_err(tell)?;
            let mut roll = Roll::some(generator, &state);
            pair.roll(&mut roll, Source::Damaged, reached).map_err(tell)?;
            let command = command_at(generator, &state, place);
            if pair.step(command, reached).map_err(tell)? {
                pair.record.put(&sound);
            }
        }
        put_both(&mut pair, place, word_at(&sound, place));
    }
    random_words(generator, &mut pair, &state, reached)
}

fn put_both(pair: &mut Pair, place: usize, value: u32) {
    put_word(pair.record.engine(), place, value);
    put_word(pair.record.expected(), place, value);
}

/// Some records of random words behind a header that reads, and some altogether random.
fn random_words(
    generator: &mut Generator,
    pair: &mut Pair,
    state: &State,
    reached: &mut Reached,
) -> Result<(), String> {
    for round in 0..12 {
        let limit = [2, 5, 256, u32::MAX][generator.below(4) as usize];
        let mut bytes = bytes_of(state);
        let first = if round % 2 == 0 { 0 } else { 4 };
        for place in first..RECORD_WORDS {
            put_word(&mut bytes, place, generator.below(limit));
        }
        pair.record.put(&bytes);
        let tell =
            |what: String| format!("random words below {limit} from word {first} on: {what}");
        pair.step(on_any_state(generator, state), reached).map_err(tell)?;
        pair.owner(generator.next_u32(), reached).map_err(tell)?;
        let mut roll = Roll::some(generator, state);
        pair.roll(&mut roll, Source::Damaged, reached).map_err(tell)?;
    }
    Ok(())
}

//! Random input of `inspect`: frames as `ringrun` gets them, lines that ask, and trouble.

use ring_model::generator::Generator;
use ring_model::inspect::{Inspect, KEPT_WORDS, MOST_PLACES};
use ring_model::record::{State, MAX_MESSAGES, RECORD_WORDS};

use crate::driver::{any_node, on_any_state, Phase};
use crate::form::FRAME;
use crate::identifiers::{identifiers, ring_size, some_key};
use crate::scripts::{end, founding, frame, push_line};
use crate::states::{any_state, founded, settled};

/// A script under way, with the model's `inspect` beside it, so that the next line can be drawn by
/// what is there.
pub struct Script {
    text: Vec<u8>,
    /// What the program keeps.
    pub inspect: Inspect,
    /// What the record said when it was last well formed.
    pub state: State,
}

/// A script of some lines.
pub fn script(generator: &mut Generator) -> Vec<u8> {
    let state = founded(&[0], FRAME);
    let mut script = Script { text: Vec::new(), inspect: Inspect::default(), state };
    // Some scripts begin before any founding, when the record is all 0.
    if generator.chance(10) {
        script.some_lines(generator);
    }
    if generator.chance(40) {
        (0..9).for_each(|place| script.count(generator, place));
    }
    // Words behind the record are never read.
    for place in RECORD_WORDS..KEPT_WORDS {
        script.push(&format!("word {place} {}", generator.next_u32()));
    }
    for _ in 0..1 + generator.below(3) {
        script.ring(generator);
    }
    end(generator, &mut script.text);
    script.text
}

impl Script {
    /// One more line.
    pub fn push(&mut self, line: &str) {
        self.push_bytes(line.as_bytes());
    }

    /// One more line, of any bytes but LF.
    pub fn push_bytes(&mut self, line: &[u8]) {
        push_line(&mut self.text, line);
        self.inspect.answer_line(line);
        if let Ok(state) = State::read(self.inspect.words()) {
            self.state = state;
        }
    }

    /// A ring, founded or put there, and calls on it.
    fn ring(&mut self, generator: &mut Generator) {
        if generator.chance(95) {
            self.push(&format!("lend {}", 1988 + generator.below(3)));
        }
        let reachable = generator.chance(70);
        match generator.below(4) {
            _ if !reachable => self.put(&any_state(generator), generator),
            0 => self.put(&settled(generator), generator),
            _ => self.found(generator),
        }
        if generator.chance(50) {
            self.push("waiting");
            self.push(&format!("roll {} {MOST_PLACES}", generator.below(self.state.n())));
        }
        let phases = match generator.below(12) {
            0 if reachable => Vec::from(Phase::flood()),
            _ => vec![Phase::new(generator)],
        };
        phases.iter().for_each(|phase| self.calls(generator, phase, reachable));
    }

    /// Commands with questions and trouble among them.
    fn calls(&mut self, generator: &mut Generator, phase: &Phase, reachable: bool) {
        let questions = [5, 40, 100][generator.below(3) as usize];
        let trouble = [0, 2, 20][generator.below(3) as usize];
        for _ in 0..phase.calls {
            let command = match reachable {
                true => phase.command(generator, &self.state),
                false => on_any_state(generator, &self.state),
            };
            self.push(&frame(command));
            if generator.chance(questions) {
                self.question(generator);
            }
            if generator.chance(trouble) {
                self.trouble(generator);
            }
        }
    }

    /// A founding; now and then one that is refused.
    fn found(&mut self, generator: &mut Generator) {
        let n = ring_size(generator);
        let mut names = identifiers(generator, n);
        match generator.below(20) {
            0 => names.clear(),
            1 => names[n - 1] = names[0],
            _ => {}
        }
        self.push(&founding(&names));
    }

    /// Writes a state word by word; a question in between meets a record that is half of it.
    fn put(&mut self, state: &State, generator: &mut Generator) {
        let mut words = vec![0; RECORD_WORDS];
        state.write(&mut words);
        for (place, &word) in words.iter().enumerate() {
            if self.inspect.words()[place] != word {
                self.push(&format!("word {place} {word}"));
            }
            if generator.below(2000) == 0 {
                self.question(generator);
            }
        }
    }

    /// A line that asks.
    fn question(&mut self, generator: &mut Generator) {
        let hub = any_node(generator, self.state.n());
        let line = match generator.below(16) {
            0..=3 => format!("row {hub}"),
            4..=7 => format!("roll {hub} {}", self.places(generator)),
            8..=10 => format!("owner {}", some_key(generator, &self.state)),
            11 | 12 if self.shows_all(generator) => "waiting".to_string(),
            _ => "counts".to_string(),
        };
        self.push(&line);
    }

    /// Long lists are shown seldom, the longest now and then.
    fn shows_all(&self, generator: &mut Generator) -> bool {
        match self.state.messages.len() {
            0..=40 => true,
            MAX_MESSAGES => generator.chance(20),
            _ => generator.chance(5),
        }
    }

    /// Places of an output: mostly about as many as the ring has hubs.
    fn places(&self, generator: &mut Generator) -> u32 {
        let inside = self.state.rows.iter().filter(|row| row.in_ring()).count() as u32;
        match generator.below(3) {
            0 => generator.below(MOST_PLACES as u32 + 1),
            _ => (inside + generator.below(3)).saturating_sub(1).min(MOST_PLACES as u32),
        }
    }

    /// Questions, commands and foundings.
    pub fn some_lines(&mut self, generator: &mut Generator) {
        for _ in 0..1 + generator.below(5) {
            match generator.below(12) {
                0 => self.found(generator),
                1..=4 => self.push(&frame(on_any_state(generator, &self.state))),
                _ => self.question(generator),
            }
        }
    }
}

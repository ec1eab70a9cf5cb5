//! What the calls have reached, so that a run can tell whether it tried enough.

use ring_model::command::{ASK, DELIVER, JOIN};
use ring_model::kinds::{as_required, LEAVEDONE, LOOKUP};
use ring_model::record::{Message, State, MAX_HOPS, MAX_MESSAGES};
use ring_model::{Answer, Command};

use crate::cards::counts::CardCounts;
use crate::form::Form;
use crate::founded::Founded;
use crate::inspected::Inspected;
use crate::rolls::counts::{RollCounts, Source};
use crate::rolls::roll::Roll;
use crate::routes::counts::RouteCounts;
use crate::sheets::counts::Sheets;

/// Refusal numbers of the ring's C calls.
const REFUSALS: [usize; 18] = [1, 2, 3, 4, 5, 6, 7, 8, 9, 10, 11, 12, 13, 14, 15, 16, 17, 18];

/// Counts by their numbers; a count of its own has no number.
pub type Cells = Vec<(Option<usize>, u64)>;

/// Counts of what was reached.
#[derive(Clone, Default)]
pub struct Reached {
    /// Calls compared: steps, owner queries, roll calls and fresh calls.
    pub calls: u64,
    /// Deliveries tried on copies, for demand 3's last claim.
    pub tried: u64,
    /// Lines answered by `ringrun` and by `inspect`.
    pub lines: u64,
    /// What the fresh calls were about.
    pub founded: Founded,
    /// What `inspect` said.
    pub inspected: Inspected,
    /// What the calls with cards were about. They are counted there alone.
    pub cards: CardCounts,
    /// What the routes were about. They are counted there alone.
    pub routes: RouteCounts,
    /// What the roll calls were about.
    pub rolls: RollCounts,
    /// What the sheets were about. Their calls are counted there alone.
    pub sheets: Sheets,
    /// The most nodes that were in the ledger at once.
    pub most_members: u64,
    refusals: [u64; 19],
    answers: [u64; 8],
    delivered: [u64; 15],
    not_expected: [u64; 15],
    receivers: [[u64; 5]; 15],
    asked_in_state: [u64; 5],
    full: u64,
    joined_again: u64,
    hops_stay: u64,
    to_itself: u64,
}

impl Reached {
    /// Counts a call's number: 0, or a refusal.
    pub fn code(&mut self, code: u32) {
        self.calls += 1;
        if let Some(count) = self.refusals.get_mut(code as usize) {
            *count += 1;
        }
    }

    /// Counts a fresh call with these identifiers, and its number.
    pub fn founding(&mut self, form: Form, code: u32, identifiers: &[u32]) {
        self.code(code);
        self.founded.take_in(form, code, identifiers);
    }

    /// Counts a roll call, its number, and the record that it read.
    pub fn roll(&mut self, source: Source, code: u32, roll: &Roll, record: &[u8]) {
        self.code(code);
        self.rolls.called(source, code, roll, record);
    }

    /// Counts what a step was about, before it is made.
    pub fn about(&mut self, command: Command, state: &State) {
        self.full += u64::from(state.messages.len() == MAX_MESSAGES);
        if command.x >= state.n() {
            return;
        }
        let row = state.row(command.x);
        match command.operation {
            ASK => self.asked_in_state[row.state as usize] += 1,
            JOIN if row.state == 0 => {
                let waits = |m: &Message| m.kind == LEAVEDONE && m.from == command.x;
                self.joined_again += u64::from(state.messages.iter().any(waits));
            }
            DELIVER => self.delivery(command, state),
            _ => {}
        }
    }

    fn delivery(&mut self, command: Command, state: &State) {
        let on_link = |m: &&Message| m.from == command.x && m.to == command.y;
        let Some(message) = state.messages.iter().find(on_link) else {
            return;
        };
        self.receivers[message.kind as usize][state.row(message.to).state as usize] += 1;
        if as_required(state, message) {
            self.delivered[message.kind as usize] += 1;
            self.hops_stay += u64::from(message.hops == MAX_HOPS);
            self.to_itself += u64::from(message.kind == LOOKUP && message.from == message.to);
        } else {
            self.not_expected[message.kind as usize] += 1;
        }
    }

    /// Counts an accepted step's answer.
    pub fn answer(&mut self, answer: &Answer) {
        if let Some(count) = self.answers.get_mut(answer.kind as usize) {
            *count += 1;
        }
    }

    /// Adds another thread's counts.
    pub fn add(&mut self, other: &Reached) {
        self.calls += other.calls;
        self.tried += other.tried;
        self.lines += other.lines;
        self.founded.add(&other.founded);
        self.inspected.add(&other.inspected);
        self.cards.add(&other.cards);
        self.routes.add(&other.routes);
        self.rolls.add(&other.rolls);
        self.sheets.add(&other.sheets);
        self.most_members = self.most_members.max(other.most_members);
        add_all(&mut self.refusals, &other.refusals);
        add_all(&mut self.answers, &other.answers);
        add_all(&mut self.delivered, &other.delivered);
        add_all(&mut self.not_expected, &other.not_expected);
        for (row, others) in self.receivers.iter_mut().zip(&other.receivers) {
            add_all(row, others);
        }
        add_all(&mut self.asked_in_state, &other.asked_in_state);
        self.full += other.full;
        self.joined_again += other.joined_again;
        self.hops_stay += other.hops_stay;
        self.to_itself += other.to_itself;
    }

    /// The table: names and counts.
    fn rows(&self) -> Vec<(&'static str, Cells)> {
        let from = |first: usize, counts: &[u64]| {
            let cells = counts.iter().enumerate().skip(first);
            cells.map(|(number, &count)| (Some(number), count)).collect::<Cells>()
        };
        let one = |count: u64| vec![(None, count)];
        let least_tried = self.receivers[1..].iter().flatten().copied().min();
        let calls = [
            ("refusals by number", by_number(&REFUSALS, &self.refusals)),
            ("answers by kind", from(0, &self.answers)),
            ("messages delivered, by kind", from(1, &self.delivered)),
            ("messages refused by 10, by kind", from(1, &self.not_expected)),
            ("asks by the node's state", from(0, &self.asked_in_state)),
            ("least tried of 70 pairs of kind and receiver's state", one(least_tried.unwrap_or(0))),
            ("most nodes in the ledger at once", one(self.most_members)),
            ("steps at 256 messages", one(self.full)),
            ("joins of a node whose LEAVEDONE waits", one(self.joined_again)),
            ("LOOKUPs delivered with hops at 65535", one(self.hops_stay)),
            ("LOOKUPs delivered to their own sender", one(self.to_itself)),
        ];
        let others = [
            self.founded.rows(),
            self.inspected.rows(),
            self.cards.rows(),
            self.routes.rows(),
            self.rolls.rows(),
            self.sheets.rows(),
        ];
        calls.into_iter().chain(others.into_iter().flatten()).collect()
    }

    /// The table as text.
    pub fn table(&self) -> String {
        let cell = |&(number, count): &(Option<usize>, u64)| match number {
            Some(number) => format!("{number}: {count}"),
            None => count.to_string(),
        };
        let line = |(name, counts): (&str, Cells)| {
            let cells: Vec<String> = counts.iter().map(cell).collect();
            format!("  {name}: {}\n", cells.join(", "))
        };
        self.rows().into_iter().map(line).collect()
    }

    /// What was never reached.
    pub fn missing(&self) -> Vec<String> {
        let mut names = Vec::new();
        for (name, counts) in self.rows() {
            for (number, _) in counts.iter().filter(|cell| cell.1 == 0) {
                names.push(number.map_or(name.to_string(), |number| format!("{name} {number}")));
            }
        }
        names
    }
}

/// Counts at these numbers.
pub fn by_number(numbers: &[usize], counts: &[u64]) -> Cells {
    numbers.iter().map(|&number| (Some(number), counts[number])).collect()
}

/// Adds counts one by one.
pub fn add_all(counts: &mut [u64], others: &[u64]) {
    for (count, other) in counts.iter_mut().zip(others) {
        *count += other;
    }
}

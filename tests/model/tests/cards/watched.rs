//! A ring with cards from fresh on, and the four claims after every call, by
//! code that shares nothing with the model's.

use ring_model::answer::{ENTERED, GONE};
use ring_model::cards::{fresh_by_cards, fresh_cards};
use ring_model::step::smallest;
use ring_model::{route, step, Answer, Command, Witness, RECORD_WORDS};

use crate::{cards, members, owner, Both, MOST, SLICE};

/// The ring, its cards, and what the answers and offers alone say.
pub struct Watched {
    pub both: Both,
    identifiers: Vec<u32>,
    ledger: Vec<u32>,
    plain: Vec<[u32; 3]>,
    witness: Witness,
}

impl Watched {
    /// Founded by this hub, or by the smallest identifier.
    pub fn found(identifiers: &[u32], named: Option<u32>) -> Watched {
        let mut both = Both::new(&[9; RECORD_WORDS], &[9; SLICE]);
        let Both { words, cards } = &mut both;
        let founded = match named {
            Some(founder) => fresh_by_cards(words, cards, identifiers, founder),
            None => fresh_cards(words, cards, identifiers),
        };
        assert_eq!(founded, Ok(()));
        let founder = named.unwrap_or(smallest(identifiers));
        let watched = Watched {
            both,
            identifiers: identifiers.to_vec(),
            ledger: vec![founder],
            plain: Vec::new(),
            witness: Witness::new(identifiers, founder),
        };
        watched.judge();
        watched
    }

    /// A step. The outcome and the record are those of the call without cards
    /// on a copy, and demand 3 holds of them.
    pub fn step(&mut self, command: Command) -> Result<Answer, u32> {
        let Command { operation, x, y } = command;
        let mut alone = self.both.words.clone();
        let should = step(&mut alone, operation, x, y);
        let outcome = self.both.step(operation, x, y);
        assert_eq!(outcome, should, "{command:?}");
        assert_eq!(self.both.words, alone, "{command:?}");
        match outcome {
            Ok(answer) if answer.kind == ENTERED => self.ledger.push(answer.hub),
            Ok(answer) if answer.kind == GONE => self.ledger.retain(|&hub| hub != answer.hub),
            _ => {}
        }
        let seen = self.witness.observe(command, &outcome, &alone);
        assert_eq!(seen, Ok(()), "{command:?}");
        self.judge();
        outcome
    }

    /// A route, to which the cards are not lent. The same asks with cards lent
    /// leave the same record on a copy, and the same cards. How many of its
    /// questions were refused.
    pub fn route(&mut self, hub: u32, numbers: &[u32]) -> usize {
        let mut lent = self.both.clone();
        let asks = numbers.iter().map(|&number| Command::new(0, hub, number));
        let asked: Vec<_> = asks
            .map(|ask| (ask, lent.step(ask.operation, ask.x, ask.y)))
            .collect();
        let mut places = vec![0; 6 * numbers.len()];
        let called = route(&mut self.both.words, hub, numbers, &mut places);
        assert_eq!((called, &self.both), (Ok(()), &lent));
        for (ask, outcome) in &asked {
            let seen = self.witness.take_in(*ask, outcome);
            assert_eq!(seen, Ok(()), "{ask:?}");
        }
        assert_eq!(self.witness.judge(&self.both.words), Ok(()));
        self.judge();
        asked.iter().filter(|(_, outcome)| outcome.is_err()).count()
    }

    /// An offer, judged by the plain list alone.
    pub fn offer(&mut self, machine: u32, revision: u32, price: u32) -> Result<(), u32> {
        let kept = self.plain.iter().position(|card| card[0] == machine);
        let should = match kept.map(|place| self.plain[place]) {
            Some([_, kept, _]) if revision < kept => Err(22),
            Some([_, kept, other]) if revision == kept && price != other => Err(23),
            None if self.plain.len() == MOST => Err(24),
            _ => Ok(()),
        };
        let outcome = self.both.offer(machine, revision, price);
        assert_eq!(outcome, should, "{machine} {revision} {price}");
        let offered = [machine, revision, price];
        match (outcome, kept) {
            (Ok(()), Some(place)) => self.plain[place] = offered,
            (Ok(()), None) => self.plain.push(offered),
            _ => {}
        }
        self.judge();
        outcome
    }

    /// Member words are the ledger; each card is with the ledger's owner; what
    /// else the cards say is the plain list; nothing else is in the slice.
    fn judge(&self) {
        let mut ledger = self.ledger.clone();
        ledger.sort_unstable();
        assert_eq!(members(&self.both.cards), ledger);
        let cards = cards(&self.both.cards);
        let said: Vec<[u32; 3]> = cards.iter().map(|&[a, b, c, _]| [a, b, c]).collect();
        assert_eq!(said, self.plain);
        for [machine, _, _, hub] in cards {
            assert_eq!(hub, owner(&self.identifiers, &ledger, machine));
        }
        assert_eq!(self.both.cards, crate::slice(&ledger, &self.fours()));
    }

    /// The plain list with each card's owner.
    fn fours(&self) -> Vec<[u32; 4]> {
        let four = |&[machine, revision, price]: &[u32; 3]| {
            let hub = owner(&self.identifiers, &self.ledger, machine);
            [machine, revision, price, hub]
        };
        self.plain.iter().map(four).collect()
    }

    /// How many cards are kept.
    pub fn count(&self) -> usize {
        self.plain.len()
    }
}

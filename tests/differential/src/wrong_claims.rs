//! Records and answers that break one claim of demand 3 each: the checks of the claims must see
//! them. Comparing engine and model cannot show a broken claim, since both might be wrong alike; so
//! these are made by hand.

use ring_model::answer::{ENTERED, GONE};
use ring_model::command::{ASK, DELIVER};
use ring_model::kinds::{JOINPOINT, LOOKUP};
use ring_model::record::{Message, Row, State, INSIDE, NONE};
use ring_model::{Answer, Command};

use crate::claims::Claims;
use crate::form::Form;
use crate::states::founded;

type Verdict = Result<(), String>;

/// A case: its name, the verdict on it, and words that the verdict must have.
type Case = (&'static str, Verdict, &'static str);

/// Each case by its name, and whether it was seen as what it is.
pub fn cases() -> Vec<(&'static str, bool)> {
    let mut cases = holders();
    cases.extend(questions());
    cases.extend(wrong_answers());
    cases.extend(routes());
    cases.extend(founders());
    let seen = |verdict: Verdict, words: &str| verdict.is_err_and(|what| what.contains(words));
    let broken = cases.into_iter().map(|(name, verdict, words)| (name, seen(verdict, words)));
    let sound = [
        ("a sound ring is not found wrong", sound().is_ok()),
        ("a ring by any founder is not found wrong", by_any_founder().is_ok()),
    ];
    broken.chain(sound).collect()
}

fn holders() -> Vec<Case> {
    let stranger = Claims::new(&[100, 200], 0).judge(&state([1, 0], &[]));
    let whole_at_0 = both().judge(&state([0, 0], &[]));
    let whole_at_1 = both().judge(&state([1, 1], &[]));
    vec![
        ("a node outside the ledger holds", stranger, "not in the ledger"),
        ("a gone node still holds", gone_still_holds(), "not in the ledger"),
        ("node 0 holds what node 1 owns", whole_at_0, "node 0 holds"),
        ("node 1 holds what node 0 owns", whole_at_1, "node 1 holds"),
    ]
}

fn questions() -> Vec<Case> {
    let stuck = both().judge(&state([1, 0], &[UNEXPECTED]));
    vec![
        ("a ticket found twice", ticket_twice(), "found twice"),
        ("a question lost", waiting(&[]), "1 questions accepted, 0 answered, 0 waiting"),
        ("a question doubled", waiting(&[LOOKED_UP, LOOKED_UP]), "2 waiting"),
        ("a message that cannot be delivered", stuck, "cannot be delivered"),
    ]
}

/// Found answers of another node: by the ledger of the past, and at each end of the two ranges.
fn wrong_answers() -> Vec<Case> {
    let wrong = [(0, 150), (0, 101), (0, 200), (1, 100), (1, 201), (1, u32::MAX), (1, 0)];
    let verdict = |&(node, key)| ask(&mut both(), Answer::found(node, key, 0, 0));
    let case = |wrong| ("a found answer of another node", verdict(wrong), "found names another");
    wrong.iter().map(case).collect()
}

/// Routes of a question that is found and one that is sent on: it is lost, or the found one is
/// another node's, or has the ticket of one before.
fn routes() -> Vec<Case> {
    let two =
        |node, ticket| [(7, Ok(Answer::found(node, 7, ticket, 0))), (150, Ok(Answer::quiet()))];
    let taken = |node| both().take_in_route(0, &two(node, 0));
    let mut claims = both();
    let lost = claims.take_in_route(0, &two(0, 0)).and_then(|()| claims.judge(&state([1, 0], &[])));
    let mut claims = both();
    let twice =
        claims.take_in_route(0, &two(0, 3)).and_then(|()| claims.take_in_route(0, &two(0, 3)));
    vec![
        ("a question of a route lost", lost, "2 questions accepted, 1 answered, 0 waiting"),
        ("a found question of a route, of another node", taken(1), "found names another"),
        ("a ticket found in two routes", twice, "found twice"),
    ]
}

/// Ledgers that start with another node than the founder: seen before any call, and in the first
/// answer.
fn founders() -> Vec<Case> {
    let wrong = |ledger, founder| Claims::new(&NAMES, ledger).judge(&lone(founder));
    let answered = ask(&mut Claims::new(&NAMES, 0), Answer::found(SMALLEST, 100, 0, 0));
    vec![
        ("a ledger that starts with node 0", wrong(0, SMALLEST), "not in the ledger"),
        ("a ledger that starts with the smallest", wrong(SMALLEST, 2), "not in the ledger"),
        ("a ledger that does not start with node 0", wrong(2, 0), "not in the ledger"),
        ("a found answer of the founder, by another ledger", answered, "found names another"),
    ]
}

/// Identifiers of a ring in which node 1 has the smallest.
const NAMES: [u32; 3] = [200, 100, 300];
const SMALLEST: u32 = 1;

/// A fresh ring by this founder.
fn lone(founder: u32) -> State {
    founded(&NAMES, Form::By(founder))
}

/// Whoever founds, a ledger that starts with it holds of the fresh ring and of its first answer.
fn by_any_founder() -> Verdict {
    for founder in 0..3 {
        let mut claims = Claims::new(&NAMES, founder);
        claims.judge(&lone(founder))?;
        ask(&mut claims, Answer::found(founder, 150, 0, 0))?;
        claims.judge(&lone(founder))?;
    }
    Claims::new(&NAMES, SMALLEST).judge(&founded(&NAMES, Form::Smallest))
}

const LOOKED_UP: Message = Message { kind: LOOKUP, from: 0, to: 1, a: 7, b: 0, hops: 0 };
/// Node 1 is inside already.
const UNEXPECTED: Message = Message { kind: JOINPOINT, from: 0, to: 1, a: 0, b: 0, hops: 0 };

/// Nodes 100 and 200 inside, with these preds.
fn state(preds: [u32; 2], messages: &[Message]) -> State {
    let row = |identifier, pred| Row {
        identifier,
        state: INSIDE,
        lock: false,
        flag: false,
        pred,
        succ: 0,
        oldpred: NONE,
    };
    State {
        asked: 9,
        rows: vec![row(100, preds[0]), row(200, preds[1])],
        messages: messages.to_vec(),
    }
}

/// A ledger that took in both nodes.
fn both() -> Claims {
    let mut claims = Claims::new(&[100, 200], 0);
    let entered = claims.take_in(Command::new(DELIVER, 1, 0), &Answer::naming(ENTERED, 1));
    assert_eq!(entered, Ok(()), "an entered answer breaks no claim");
    claims
}

fn ask(claims: &mut Claims, answer: Answer) -> Verdict {
    claims.take_in(Command::new(ASK, 0, answer.number), &answer)
}

fn sound() -> Verdict {
    let mut claims = both();
    ask(&mut claims, Answer::found(1, 150, 0, 0))?;
    ask(&mut claims, Answer::quiet())?;
    claims.judge(&state([1, 0], &[LOOKED_UP]))?;
    let found = Ok(Answer::found(0, 7, 2, 0));
    claims.take_in_route(0, &[(7, found), (7, Err(11)), (150, Ok(Answer::quiet()))])?;
    claims.judge(&state([1, 0], &[LOOKED_UP, LOOKED_UP]))
}

fn gone_still_holds() -> Verdict {
    let mut claims = both();
    claims.take_in(Command::new(DELIVER, 1, 0), &Answer::naming(GONE, 1))?;
    claims.judge(&state([1, 0], &[]))
}

fn ticket_twice() -> Verdict {
    let mut claims = both();
    ask(&mut claims, Answer::found(0, 7, 3, 0))?;
    ask(&mut claims, Answer::found(0, 7, 3, 0))
}

/// One question sent on, and these messages waiting.
fn waiting(messages: &[Message]) -> Verdict {
    let mut claims = both();
    ask(&mut claims, Answer::quiet())?;
    claims.judge(&state([1, 0], messages))
}

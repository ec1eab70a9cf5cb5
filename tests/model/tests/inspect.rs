//! The program `inspect` of docs/INSPECT.md: what it answers, what it
//! refuses, and which lines it reads.

mod common;

#[path = "inspect/answers.rs"]
mod answers;
#[path = "inspect/counts.rs"]
mod counts;
#[path = "inspect/lines.rs"]
mod lines;
#[path = "inspect/page.rs"]
mod page;
#[path = "inspect/process.rs"]
mod process;
#[path = "inspect/refusals.rs"]
mod refusals;

use ring_model::inspect::{run, Inspect};

/// What is printed for an input.
fn printed(input: &[u8]) -> String {
    let mut output = Vec::new();
    run(input, &mut output).expect("memory does not fail");
    String::from_utf8(output).expect("the output is text")
}

/// The answer to one line.
fn ask(inspect: &mut Inspect, line: &str) -> String {
    inspect.answer_line(line.as_bytes())
}

/// The answer to the last of these lines, from the start on.
fn last(lines: &[&str]) -> String {
    let mut inspect = Inspect::default();
    let answers = lines.iter().map(|line| ask(&mut inspect, line));
    answers.last().expect("there is a line")
}

/// `inspect` with these words in its record, put there by lines.
fn holding(words: &[u32]) -> Inspect {
    let mut inspect = Inspect::default();
    for (place, word) in words.iter().enumerate().filter(|(_, &word)| word != 0) {
        let answer = ask(&mut inspect, &format!("word {place} {word}"));
        assert_eq!(answer, format!("word {place}: {word}"));
    }
    assert_eq!(inspect.lent(), words);
    inspect
}

//! What the model prints for the input of a program.

use ring_model::frames::answer_line;
use ring_model::inspect::Inspect;
use ring_model::lines;
use ring_model::record::RECORD_WORDS;

use crate::reached::Reached;

/// The output of the model.
pub struct Expected {
    /// Every byte.
    pub bytes: Vec<u8>,
    /// How many lines are printed after the first line of the input, after the second, and so on.
    after: Vec<usize>,
}

/// `ringrun` as the model has it; foundings that pass over the smallest identifier are counted.
pub fn ringrun(text: &[u8], reached: &mut Reached) -> Expected {
    let mut words = vec![0; RECORD_WORDS];
    Expected::new(text, |line| {
        let answer = answer_line(line, &mut words);
        reached.founded.frame(line, &answer);
        answer
    })
}

/// `inspect` as the model has it; what it says is counted.
pub fn inspect(text: &[u8], reached: &mut Reached) -> Expected {
    let mut inspect = Inspect::default();
    Expected::new(text, |line| {
        let before = *inspect.tally();
        let answer = inspect.answer_line(line);
        reached.inspected.take_in(line, &answer, &before, &inspect);
        answer
    })
}

impl Expected {
    /// What is printed where each line is answered so.
    fn new(text: &[u8], mut answer: impl FnMut(&[u8]) -> String) -> Expected {
        let (mut bytes, mut after, mut printed) = (Vec::new(), Vec::new(), 0);
        let ran = lines::run(text, &mut bytes, |line| {
            let answer = answer(line);
            printed += 1 + count_lines(answer.as_bytes());
            after.push(printed);
            answer
        });
        ran.expect("memory takes every write");
        Expected { bytes, after }
    }

    /// How many lines of the input there are.
    pub fn inputs(&self) -> usize {
        self.after.len()
    }

    /// How many lines are printed for the first so many of the input.
    pub fn due(&self, ended: usize) -> usize {
        ended.checked_sub(1).map_or(0, |last| self.after[last])
    }

    /// The first line that differs, with the line of the input that it is for.
    pub fn compare(&self, text: &[u8], output: &[u8]) -> Result<(), String> {
        if output == self.bytes {
            return Ok(());
        }
        let differs = output.iter().zip(&self.bytes).position(|(a, b)| a != b);
        let byte = differs.unwrap_or(output.len().min(self.bytes.len()));
        let line = count_lines(&self.bytes[..byte]);
        let asked = self.after.partition_point(|&printed| printed <= line);
        let (input, found) = (nth(text, asked), nth(output, line));
        let should = nth(&self.bytes, line);
        let place = format!("byte {byte} of the output differs, in line {line}");
        Err(format!("{place}: {found:?}, should be {should:?}, for {input:?}, line {asked}"))
    }
}

/// Line n, or the start of it.
fn nth(bytes: &[u8], n: usize) -> String {
    let found = bytes.split(|&b| b == b'\n').nth(n).unwrap_or_default();
    String::from_utf8_lossy(&found[..found.len().min(600)]).into_owned()
}

/// How many lines end in these bytes.
pub fn count_lines(bytes: &[u8]) -> usize {
    bytes.iter().filter(|&&byte| byte == b'\n').count()
}

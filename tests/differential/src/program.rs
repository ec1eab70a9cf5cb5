//! `ringrun` and `inspect` beside the model's on random scripts, written in chunks that split lines
//! anywhere.

use std::io::{Read, Write};
use std::process::{Child, ChildStdin, Command, Stdio};
use std::sync::mpsc::{channel, Receiver};
use std::thread;
use std::time::Duration;

use ring_model::generator::Generator;

use crate::calls::Calls;
use crate::expected::{self, count_lines, Expected};
use crate::reached::Reached;
use crate::{inspections, scripts};

/// How long an answer may take before the program counts as stuck: far more than a busy machine
/// needs.
const PATIENCE: Duration = Duration::from_secs(20);

/// A program under test.
struct Program {
    name: &'static str,
    /// A name is started as it is, a command of more words by the shell.
    command: &'static str,
    /// Its input.
    script: fn(&mut Generator) -> Vec<u8>,
    /// What it should print.
    model: fn(&[u8], &mut Reached) -> Expected,
}

/// A program under way: what it prints comes in by a channel, since a read cannot be given a time
/// limit.
struct Running<'a> {
    name: &'static str,
    expected: &'a Expected,
    child: Child,
    input: Option<ChildStdin>,
    printed: Receiver<Vec<u8>>,
    output: Vec<u8>,
}

/// One script of `ringrun`.
pub fn batch(
    generator: &mut Generator,
    calls: Calls,
    _number: u64,
    reached: &mut Reached,
) -> Result<(), String> {
    let (script, model) = (scripts::script, expected::ringrun);
    let program = Program { name: "ringrun", command: calls.ringrun, script, model };
    program.batch(generator, reached)
}

/// One script of `inspect`.
pub fn inspect_batch(
    generator: &mut Generator,
    calls: Calls,
    _number: u64,
    reached: &mut Reached,
) -> Result<(), String> {
    let (script, model) = (inspections::script, expected::inspect);
    let program = Program { name: "inspect", command: calls.inspect, script, model };
    program.batch(generator, reached)
}

impl Program {
    /// One script. What it reached counts only if the program printed the same.
    fn batch(&self, generator: &mut Generator, reached: &mut Reached) -> Result<(), String> {
        let text = (self.script)(generator);
        let mut reaches = Reached::default();
        let expected = (self.model)(&text, &mut reaches);
        reaches.lines += expected.inputs() as u64;
        let mut running = self.start(&expected)?;
        let fed = if generator.chance(30) {
            running.feed_waiting(generator, &text)
        } else {
            running.feed(generator, &text)
        };
        let ended = fed.and_then(|()| running.finish());
        // A program that is stuck must not outlive its test.
        let _ = running.child.kill();
        let _ = running.child.wait();
        match (ended, expected.compare(&text, &running.output)) {
            (Err(first), Err(then)) => Err(format!("{first}; {then}")),
            (ended, compared) => ended.and(compared).map(|()| reached.add(&reaches)),
        }
    }

    fn command(&self) -> Command {
        if !self.command.contains(' ') {
            return Command::new(self.command);
        }
        let mut shell = Command::new("sh");
        shell.args(["-c", self.command]);
        shell
    }

    fn start<'a>(&self, expected: &'a Expected) -> Result<Running<'a>, String> {
        let Program { name, command, .. } = *self;
        let spawned = self.command().stdin(Stdio::piped()).stdout(Stdio::piped()).spawn();
        let mut child = spawned.map_err(|error| format!("{command} does not start: {error}"))?;
        let input = child.stdin.take();
        let mut source = child.stdout.take().ok_or("no output")?;
        let (sender, printed) = channel();
        thread::spawn(move || {
            let mut bytes = [0; 1 << 16];
            while let Ok(count) = source.read(&mut bytes) {
                // An empty read is the end of the output, and is passed on as such.
                if sender.send(bytes[..count].to_vec()).is_err() || count == 0 {
                    return;
                }
            }
        });
        Ok(Running { name, expected, child, input, printed, output: Vec::new() })
    }
}

impl Running<'_> {
    /// Writes all, in chunks of random sizes.
    fn feed(&mut self, generator: &mut Generator, text: &[u8]) -> Result<(), String> {
        let most = [7, 40, 1000, 9000, 70000][generator.below(5) as usize];
        let mut rest = text;
        while !rest.is_empty() {
            let (chunk, later) = rest.split_at(rest.len().min(1 + generator.below(most) as usize));
            self.write(chunk)?;
            rest = later;
        }
        Ok(())
    }

    /// Writes chunks, and waits after each until all lines that ended are answered: so the next
    /// read begins where the chunk did, in the midst of a line, and an answer that comes only after
    /// a later read is seen.
    fn feed_waiting(&mut self, generator: &mut Generator, text: &[u8]) -> Result<(), String> {
        let mut rest = text;
        let (mut ended, mut answered) = (0, 0);
        while !rest.is_empty() {
            let (chunk, later) = rest.split_at(rest.len().min(1 + generator.below(120) as usize));
            self.write(chunk)?;
            rest = later;
            ended += count_lines(chunk);
            while answered < self.expected.due(ended) {
                answered += self.receive()?;
            }
        }
        Ok(())
    }

    fn write(&mut self, chunk: &[u8]) -> Result<(), String> {
        let input = self.input.as_mut().ok_or("the input is closed")?;
        input.write_all(chunk).map_err(|error| format!("{} does not read on: {error}", self.name))
    }

    /// What was printed next; nothing at the end.
    fn printed(&mut self, otherwise: &str) -> Result<usize, String> {
        let waited = self.printed.recv_timeout(PATIENCE);
        let bytes = waited.map_err(|_| format!("{} does not {otherwise}", self.name))?;
        self.output.extend_from_slice(&bytes);
        Ok(bytes.len())
    }

    /// Takes in what was printed next; the number of lines in it. Once it differs there is nothing
    /// to wait for.
    fn receive(&mut self) -> Result<usize, String> {
        let start = self.output.len();
        if self.printed("answer")? == 0 {
            return Err(format!("{} ends too early", self.name));
        }
        if !self.expected.bytes.starts_with(&self.output) {
            return Err(format!("{} prints something else", self.name));
        }
        Ok(count_lines(&self.output[start..]))
    }

    /// Ends the input and waits for the end of the output.
    fn finish(&mut self) -> Result<(), String> {
        self.input = None;
        while self.printed("end")? > 0 {}
        let status = self.child.wait().map_err(|error| format!("{}: {error}", self.name))?;
        if status.success() {
            return Ok(());
        }
        Err(format!("{} ends with {status}", self.name))
    }
}

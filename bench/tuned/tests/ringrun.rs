//! Both models' `ringrun` print the same, however the input is cut up.

use std::io::{BufReader, Read};

use ring_model::generator::Generator;

/// Hands out its bytes in pieces of a few.
struct Pieces<'a> {
    rest: &'a [u8],
    generator: Generator,
}

impl Read for Pieces<'_> {
    fn read(&mut self, buffer: &mut [u8]) -> std::io::Result<usize> {
        let most = buffer.len().min(self.rest.len());
        let piece = most.min(1 + self.generator.below(700) as usize);
        let (now, later) = self.rest.split_at(piece);
        buffer[..piece].copy_from_slice(now);
        self.rest = later;
        Ok(piece)
    }
}

/// Frames that read, and a few that do not.
fn frames(generator: &mut Generator, count: usize) -> Vec<u8> {
    let mut text = b"030000000000000001\nF00000006400000000FFFFFFFF00000190\n".to_vec();
    for _ in 0..count {
        let [operation, x, y] = [generator.below(4), generator.below(5), generator.below(5)];
        let mut line = format!("{operation:02X}{x:08X}{y:08X}").into_bytes();
        match generator.below(20) {
            0 => line[generator.below(18) as usize] = generator.below(128) as u8,
            1 => line.truncate(generator.below(18) as usize),
            2 => line.resize(510 + generator.below(8) as usize, b'0'),
            _ => {}
        }
        text.extend(line);
        text.push(b'\n');
    }
    text
}

#[test]
fn prints_what_the_plain_model_prints() {
    for seed in 0..20 {
        let mut generator = Generator::new(seed);
        let mut text = frames(&mut generator, 2_000);
        if seed % 2 == 0 {
            text.pop();
        }
        let mut expected = Vec::new();
        ring_model::ringrun::run(BufReader::new(&text[..]), &mut expected).expect("it ends");
        let mut printed = Vec::new();
        let rest = &text[..];
        ring_tuned::ringrun::run(Pieces { rest, generator }, &mut printed).expect("it ends");
        assert!(printed == expected, "seed {seed}");
    }
}

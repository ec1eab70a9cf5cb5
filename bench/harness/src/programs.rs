//! `ringrun`: the engine's program and the models', on the same file.

use std::fs::{self, File};
use std::io::{self, Error};
use std::path::Path;
use std::process::{Command, Stdio};
use std::time::Instant;

use crate::frames::frames;

/// The programs, by contestant. The tuned model's works on words and tests them
/// field by field.
pub const PROGRAMS: [(&str, &str); 3] = [
    ("engine", "target/bin/ringrun"),
    ("plain", "target/model/release/model_ringrun"),
    ("tuned", "target/bench/release/tuned_ringrun"),
];

/// Frames a second, best and median, by program.
pub struct Programs {
    pub frames: usize,
    pub rates: [(f64, f64); PROGRAMS.len()],
}

/// Runs each program on the same frames, in turns.
pub fn measure(count: usize, runs: usize) -> io::Result<Programs> {
    let input = Path::new("target/bench/frames");
    fs::write(input, frames(count))?;
    agree(input)?;
    let mut times = [(); PROGRAMS.len()].map(|()| Vec::new());
    for _ in 0..runs {
        for (list, (_, program)) in times.iter_mut().zip(PROGRAMS) {
            list.push(time(program, input)?);
        }
    }
    let rates = times.map(|mut list| {
        list.sort_by(f64::total_cmp);
        let rate = |seconds: f64| count as f64 / seconds;
        (rate(list[0]), rate(list[list.len() / 2]))
    });
    Ok(Programs {
        frames: count,
        rates,
    })
}

/// Seconds for one run, its start included.
fn time(program: &str, input: &Path) -> io::Result<f64> {
    let start = Instant::now();
    run(program, input, Stdio::null())?;
    Ok(start.elapsed().as_secs_f64())
}

fn run(program: &str, input: &Path, output: Stdio) -> io::Result<Vec<u8>> {
    let ended = Command::new(program)
        .stdin(File::open(input)?)
        .stdout(output)
        .spawn()?
        .wait_with_output()?;
    if ended.status.success() {
        Ok(ended.stdout)
    } else {
        Err(Error::other(format!("{program} failed")))
    }
}

/// Nothing is measured that does not print the same.
fn agree(input: &Path) -> io::Result<()> {
    let (_, plain) = PROGRAMS[1];
    let expected = run(plain, input, Stdio::piped())?;
    for (name, program) in PROGRAMS {
        let same = run(program, input, Stdio::piped())? == expected;
        assert!(same, "ringrun of {name} prints something else");
    }
    Ok(())
}

//! The document's part about the sheet.

use std::fmt::Write;

use super::contestants::{Way, CONTESTANTS, COUNT, CSV};
use super::Figures;
use crate::ratios::{kept, marked};
use crate::turns::Time;

const HEAD: &str = "
## The office sheet

`ring_sheet_read` and `ring_sheet_write` beside Debian's `csv` crate (`bench/by_csv`), both through the calls for C, on the same memory. Read:
the same bytes into identifiers of four bytes, names with a zero byte behind each, and both counts. Written: the same list into a text with
room enough. Before anything is measured, the return and all outputs of both are compared, byte by byte, with the list that the sheet was made
from. Figures are microseconds of one call, best / median, and megabytes of text in a second by the median; rounds, ratio and `(!)` are as
above.

The sheets have 1 MB (1048576 bytes, down to a whole row), but for one of 64 rows, which is what a ring takes. Names have 4 to 23 letters,
digits and blanks, identifiers are spread over all 32 bits. In a name that is quoted heavily one byte in eight is a quote, one at least, and
here and there stands a comma or a line break.

What csv does, and what it does not:

- It is set up to be fast: no header, one record used again for each row, bytes and no text, digits read by a loop of our own and written by
  the crate `itoa`. In each call it sets up its reader or writer once, which shows in the sheet of 64 rows.
- It goes over the text once and stops at the first fault; what it wrote until then stays. The engine judges all of the text, all identifiers
  and all of the room before it writes the first byte.
- It takes texts that the engine refuses: a CR or LF alone ends a row, an empty line is skipped, a quote may stand anywhere, a name may have
  a zero byte. To refuse them would cost it more time.

";

/// The whole part.
pub fn section(table: &[Figures]) -> String {
    let aimed = || {
        table
            .iter()
            .filter_map(|f| Some((f.part(), f.case.target?)))
    };
    let (kept, all) = (kept(aimed()), aimed().count());
    let names = CONTESTANTS.each_ref().map(|contestant| contestant.name);
    let rates = names.map(|name| format!("{name}, MB/s"));
    let mut text = format!(
        "{HEAD}The target is the most that engine/csv should be. It is kept by {kept} of the {all} lines that have one.\n\n\
         | call | sheet | rows | bytes | {} | {} | engine/csv | target |\n{}{}|---|\n",
        names.join(" | "),
        rates.join(" | "),
        "|---".repeat(2),
        "|---:".repeat(3 + 2 * COUNT)
    );
    for figures in table {
        let _ = writeln!(text, "{}", figures.line());
    }
    text
}

impl Figures {
    /// The engine's time as a part of csv's.
    fn part(&self) -> f64 {
        self.times[CSV].engine
    }

    fn line(&self) -> String {
        let (way, kind) = (self.case.way.name(), self.case.kind.name());
        let micros = |time: Time| format!("{:.1} / {:.1}", time.best / 1e3, time.median / 1e3);
        let rate = |time: Time| format!("{:.0}", self.bytes as f64 * 1e3 / time.median);
        let target = self.case.target;
        format!(
            "| {way} | {kind} | {} | {} | {} | {} | {} | {} |",
            self.rows,
            self.bytes,
            self.times.map(micros).join(" | "),
            self.times.map(rate).join(" | "),
            marked(self.part(), target),
            target.map_or("none".to_string(), |target| format!("at most {target:.1}"))
        )
    }
}

impl Way {
    /// Its name in the table.
    fn name(self) -> &'static str {
        match self {
            Way::Read => "read",
            Way::Write => "write",
        }
    }
}

#[cfg(test)]
mod tests {
    use super::super::lists::Kind;
    use super::super::{Case, Figures};
    use super::{section, Time, Way};

    fn figures(part: f64, target: Option<f64>) -> Figures {
        let time = |nanoseconds: f64, engine: f64| Time {
            best: nanoseconds / 2.0,
            median: nanoseconds,
            engine,
        };
        Figures {
            case: Case::new(Way::Read, Kind::Plain, target),
            rows: 3,
            bytes: 5000,
            times: [time(4000.0, 1.0), time(10000.0, part)],
        }
    }

    #[test]
    fn a_miss_is_counted_and_marked() {
        let text = section(&[
            figures(1.0, Some(1.0)),
            figures(1.001, Some(1.0)),
            figures(1.3, None),
        ]);
        assert!(text.contains("kept by 1 of the 2 lines"));
        let begin = "| read | plain | 3 | 5000 | 2.0 / 4.0 | 5.0 / 10.0 | 1250 | 500 |";
        let ends = [
            "1.00 | at most 1.0 |",
            "1.001 (!) | at most 1.0 |",
            "1.30 | none |",
        ];
        let lines = ends.map(|end| format!("{begin} {end}\n")).concat();
        assert!(text.ends_with(&lines), "{text}");
    }
}

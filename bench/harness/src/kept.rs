//! The part of the document that `bench/proofs` writes, and that is kept.

const BEGIN: &str = "<!-- proofs -->";
const END: &str = "<!-- /proofs -->";

/// The marked part of an older document, marks included; two marks with
/// nothing between them where it has none.
pub fn marked(older: &str) -> String {
    let found = older.find(BEGIN).and_then(|begin| {
        let length = older[begin..].find(END)? + END.len();
        Some(&older[begin..begin + length])
    });
    found.map_or(format!("{BEGIN}\n{END}"), str::to_string)
}

#[cfg(test)]
mod tests {
    use super::marked;

    #[test]
    fn what_is_marked_is_kept() {
        let part = "<!-- proofs -->\n| crate | seconds |\n\nx < y\n<!-- /proofs -->";
        assert_eq!(marked(&format!("# Before\n\n{part}\n\nafter\n")), part);
        assert_eq!(marked(part), part);
    }

    #[test]
    fn without_marks_there_is_an_empty_place() {
        let empty = "<!-- proofs -->\n<!-- /proofs -->";
        for older in ["", "text", "<!-- proofs --> no end", "<!-- /proofs -->"] {
            assert_eq!(marked(older), empty);
        }
    }
}

//! The tally: what is counted, and where a count stays.

use super::last;

/// Steps alone are counted: no founding, no query, nothing that does not
/// read.
#[test]
fn what_counts() {
    let all_zero = "counts: quiet 0, found 0, entered 0, gone 0, join turned away 0, \
                    leave turned away 0, joined 0, left 0, refused 0";
    assert_eq!(last(&["counts"]), all_zero);
    let lines = [
        "F0",
        "F000000064",
        "row 9",
        "roll 9 9",
        "owner 1",
        "waiting",
        "no",
        "counts",
    ];
    assert_eq!(last(&lines), all_zero);
    let refused = last(&[
        "000000000000000000",
        "lend 0",
        "000000000000000000",
        "counts",
    ]);
    assert!(refused.ends_with(", left 0, refused 2"), "{refused}");
    let kept = last(&["F000000064", "000000000000000000", "F000000064", "counts"]);
    assert!(kept.starts_with("counts: quiet 0, found 1,"), "{kept}");
}

/// 'A count at 18446744073709551615 stays', one below it is raised.
#[test]
fn counts_at_the_limit() {
    let most = u64::MAX;
    for (value, then) in [(most - 1, most), (most, most), (0, 1)] {
        let found = format!("count 1 {value}");
        let refused = format!("count 8 {value}");
        let lines = [
            found.as_str(),
            refused.as_str(),
            "F000000064",
            "000000000000000000",
            "090000000000000000",
            "counts",
        ];
        let counts = format!(
            "counts: quiet 0, found {then}, entered 0, gone 0, join turned away 0, \
             leave turned away 0, joined 0, left 0, refused {then}"
        );
        assert_eq!(last(&lines), counts);
    }
    let names = [
        "quiet",
        "found",
        "entered",
        "gone",
        "join turned away",
        "leave turned away",
        "joined",
        "left",
        "refused",
    ];
    for (place, name) in names.iter().enumerate() {
        let line = format!("count {place} {most}");
        assert_eq!(last(&[&line]), format!("count {place}: {most}"));
        assert!(last(&[&line, "counts"]).contains(&format!(" {name} {most}")));
    }
}

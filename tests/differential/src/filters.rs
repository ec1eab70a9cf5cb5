//! Faults planted behind `inspect`: what it prints goes through sed, which makes it wrong. Each
//! line is passed on at once (-u), since a script may wait for it.

/// `inspect` behind a script of sed.
macro_rules! filtered {
    ($script:literal) => {
        concat!("target/bin/inspect | sed -u '", $script, "'")
    };
}

/// A filter that changes nothing.
pub const NO_FAULT: &str = filtered!("");

/// What is wrong, and the command that does it.
pub const FILTERS: [(&str, &str); 9] = [
    (
        "the roll call's 4 made 3",
        filtered!(r"s/^\(roll from [0-9]*, refused \)4 (no hub)/\13 (no operation)/"),
    ),
    (
        "two counts swapped",
        filtered!(r"s/, entered \([0-9]*\), gone \([0-9]*\),/, entered \2, gone \1,/"),
    ),
    ("a count at the limit begins again", filtered!(r"/^counts/s/ 18446744073709551615,/ 0,/")),
    (
        "a row's pred and succ swapped",
        filtered!(
            r"s/^\(row .*\), pred \(.*\), succ \(.*\), oldpred/\1, pred \3, succ \2, oldpred/"
        ),
    ),
    ("a hub that leaves wants to", filtered!(r"s/^\(row .*\), leaving, /\1, wanting to leave, /")),
    (
        "a refused roll writes its first place",
        filtered!(r"s/^\(roll from \([0-9]*\), refused .*:\) -/\1 \2/"),
    ),
    ("a message left out, the oldest of several", filtered!(r"/^waiting: messages [2-9]/{n;d}")),
    (
        "a question not counted among the messages",
        filtered!(r"/^waiting: messages/s/questions [1-9][0-9]*/questions 0/"),
    ),
    ("10 told as 9", filtered!(r"s/^refused 10 (not expected)/refused 9 (no message)/")),
];

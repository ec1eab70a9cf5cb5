//! Ranges as planners read them (document 02, request 2026-05), held against
//! document 01's interval.

use ring_model::clockwise::in_interval;

/// The range from above `a` to `b` by the three numbers alone: all of them
/// where `a` is `b`, then without zero inside, then with it.
fn by_cases(v: i64, a: i64, b: i64) -> bool {
    if a == b {
        return true;
    }
    if a < b {
        return a < v && v <= b;
    }
    a < v || v <= b
}

/// Document 01's interval on a circle of this many numbers.
fn by_distances(circle: i64, v: i64, a: i64, b: i64) -> bool {
    let distance = |to: i64| (to - a).rem_euclid(circle);
    a == b || (1 <= distance(v) && distance(v) <= distance(b))
}

/// All ways to choose three of these numbers.
fn triples(numbers: &[i64]) -> impl Iterator<Item = [i64; 3]> + '_ {
    let pairs = move |v| {
        numbers
            .iter()
            .flat_map(move |&a| numbers.iter().map(move |&b| [v, a, b]))
    };
    numbers.iter().flat_map(move |&v| pairs(v))
}

#[test]
fn on_every_small_circle() {
    for circle in 1..=40 {
        let numbers: Vec<i64> = (0..circle).collect();
        for [v, a, b] in triples(&numbers) {
            let expected = by_distances(circle, v, a, b);
            assert_eq!(by_cases(v, a, b), expected, "{v} in ({a}, {b}] on {circle}");
        }
    }
}

/// Numbers at both ends, in the middle, and beside a range's ends.
#[test]
fn on_the_circle_of_the_ring() {
    let top = i64::from(u32::MAX);
    let half = 1 << 31;
    let around = |number: i64| [number - 1, number, number + 1];
    let mut numbers = vec![0, 1, 2, top - 2, top - 1, top];
    for number in [100, 200, half, 3 << 30] {
        numbers.extend(around(number));
    }
    for [v, a, b] in triples(&numbers) {
        let expected = in_interval(v as u32, a as u32, b as u32);
        assert_eq!(by_cases(v, a, b), expected, "{v} in ({a}, {b}]");
    }
}

/// The two agree for the circle's own numbers alone: not where the first, the
/// second or the third number is no place on it.
#[test]
fn off_the_circle_they_part() {
    let parted = |v, a, b| by_cases(v, a, b) != by_distances(8, v, a, b);
    assert!(parted(0, 10, 3) && parted(5, 1, 10) && parted(10, 1, 3));
}

//! Chooses cases of row values for coverage and prints them, with the answers of values.rs, in the form of the worked cases: for
//! tests/row_values/cases.py.
//!
//! store_values [SEED]
//!
//! A case is taken where it shows a pair of features that no case before it shows. Files with more parts than compile ever
//! writes follow.

use differential::model_files::File;
use differential::random;
use differential::value_cases::{case, Case, COMPILED_ROWS};
use differential::values::{Values, MOST_SHARED};
use std::collections::BTreeSet;

const CANDIDATES: u64 = 60_000;
/// The most words and numbers of a case.
const ROOM: usize = 60;

/// The case is small, and its numbers fit in 32 bits.
fn fits(case: &Case) -> bool {
    let Case { file, point, lent, .. } = case;
    let most = [file.words.len(), file.constants.len(), point.len(), lent[0], lent[1]];
    most.iter().all(|&length| length <= ROOM) && file.columns < 1 << 32
}

fn features(case: &Case, expected: &Values) -> Vec<String> {
    let mut features = case.features(expected);
    let words = &case.file.words;
    let when = |fact: bool, name: &'static str| fact.then(|| name.to_owned());
    features.extend(when(case.compiled, "compile's file"));
    features.extend(when(case.file.constants.iter().any(|x| !x.is_finite()), "a constant not finite"));
    features.extend((3..=9).filter_map(|kind| when(words.iter().any(|word| word >> 28 == kind), "").map(|_| format!("kind {kind}"))));
    features.extend(when(case.point.is_empty(), "no columns"));
    features.extend(when(expected.rows.len() > 3, "more than three rows"));
    features
}

/// Files of one kind of part alone, `count` times column 0, with the objective `last`.
fn many(kind: u32, count: usize, last: &[u32], constants: &[f64], lent: [usize; 2]) -> Case {
    let mut words = Vec::new();
    for part in 0..count {
        words.extend([kind << 28 | part as u32, 0x1000_0000]);
    }
    words.push(0xc000_0000);
    words.extend(last);
    words.push(0xd000_0000);
    let file = File { words, constants: constants.to_vec(), columns: 1 };
    Case { compiled: false, file, point: vec![-2.5], lent }
}

fn large() -> Vec<Case> {
    let (column, constant) = ([0x1000_0000], [0x0000_0000]);
    let (rows, room) = (COMPILED_ROWS + 1, COMPILED_ROWS + 8);
    let mut wrong = many(10, MOST_SHARED + 1, &column, &[], [MOST_SHARED; 2]);
    *wrong.file.words.last_mut().expect("the end word") = 0;
    vec![
        many(11, COMPILED_ROWS, &column, &[], [0, COMPILED_ROWS]),
        many(11, rows, &column, &[], [0, room]),
        many(11, rows, &column, &[], [0, rows - 1]),
        many(11, rows, &constant, &[f64::INFINITY], [0, room]),
        many(10, MOST_SHARED, &[0x2000_0000 + MOST_SHARED as u32 - 1], &[], [MOST_SHARED, 0]),
        many(10, MOST_SHARED + 1, &column, &[], [0, 0]),
        many(10, MOST_SHARED + 1, &constant, &[f64::NAN], [MOST_SHARED + 1, 0]),
        wrong,
    ]
}

fn bits(values: &[f64]) -> String {
    let patterns: Vec<String> = values.iter().map(|value| format!("{:016X}", value.to_bits())).collect();
    patterns.join(" ")
}

fn json(number: usize, case: &Case, expected: &Values) -> String {
    let Case { file, point, lent, .. } = case;
    let words: Vec<String> = file.words.iter().map(|word| format!("{word:08X}")).collect();
    let list = |values: &[f64]| match expected.refusal.0 {
        0 => format!("\"{}\"", bits(values)),
        _ => "null".to_owned(),
    };
    format!(
        r#"{{"id": "s{number}", "call": "row_values",
"inputs": {{"words": "{}", "constants": "{}", "columns": {}, "point": "{}", "shared_length": {}, "row_length": {}}},
"expect": {{"number": {}, "place": {}, "objective": "{}", "shared": {}, "rows": {}}}}}"#,
        words.join(" "),
        bits(&file.constants),
        file.columns,
        bits(point),
        lent[0],
        lent[1],
        expected.refusal.0,
        expected.refusal.1,
        bits(&[expected.objective]),
        list(&expected.shared),
        list(&expected.rows),
    )
}

fn main() {
    let seed = random::seed(std::env::args().nth(1));
    let mut shown: BTreeSet<(String, String)> = BTreeSet::new();
    let mut chosen = Vec::new();
    let mut all: Vec<Case> = (0..CANDIDATES).map(|number| case(seed, number)).filter(fits).collect();
    // The smallest first.
    all.sort_by_key(|case| case.file.words.len() + 2 * case.file.constants.len() + 2 * case.point.len());
    for case in all {
        let expected = case.expected();
        let features = features(&case, &expected);
        let pairs = || features.iter().enumerate().flat_map(|(i, a)| features[i..].iter().map(move |b| (a.clone(), b.clone())));
        if pairs().any(|pair| !shown.contains(&pair)) {
            shown.extend(pairs());
            chosen.push(case);
        }
    }
    chosen.extend(large());
    let texts = chosen.iter().enumerate().map(|(number, case)| json(number, case, &case.expected()));
    println!("[{}]", texts.collect::<Vec<String>>().join(",\n"));
}

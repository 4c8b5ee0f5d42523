//! Row values at a point: the port against an interpreter of documents 01 and 02 (values.rs), on files that compile wrote and on files of
//! any writer.
//!
//! values N [SEED]
//!
//! Of each case: number and place, both lists by bits, the objective's value by bits, and the two counts. Every list ends where memory
//! without access starts. Lists that are written are full of NaNs of many payloads, and what is not a result must be as it was; those that
//! are read must be as they were.

use differential::compare::packed;
use differential::guarded::{self, Guarded, GuardedOutput};
use differential::value_cases::{case, Case};
use differential::values::{self, Values};
use differential::{ours, random};
use std::collections::BTreeMap;

/// Cases that differ are printed, so many at most.
const SHOWN: u64 = 10;
/// The longest list of words, and of numbers.
const MOST_WORDS: usize = 120_000;
const MOST_NUMBERS: usize = 40_000;

/// The memory of all lists, taken once.
struct Memory {
    words: Guarded<u32>,
    constants: Guarded<f64>,
    point: Guarded<f64>,
    shared: GuardedOutput,
    rows: GuardedOutput,
}

impl Memory {
    fn new() -> Self {
        let output = || GuardedOutput::new(MOST_NUMBERS);
        Self {
            words: Guarded::new(MOST_WORDS),
            constants: Guarded::new(MOST_NUMBERS),
            point: Guarded::new(MOST_NUMBERS),
            shared: output(),
            rows: output(),
        }
    }
}

fn bits(values: &[f64]) -> Vec<u64> {
    values.iter().map(|value| value.to_bits()).collect()
}

fn differences(case: &Case, expected: &Values, memory: &mut Memory) -> Vec<String> {
    let mut differences = Vec::new();
    let Case { file, point, lent, .. } = case;
    let Memory { words, constants, point: lent_point, shared, rows } = memory;
    let (words, constants, x) = (words.lend(&file.words), constants.lend(&file.constants), lent_point.lend(point));
    let got = ours::row_values(words, constants, file.columns, x, shared.lend(lent[0]), rows.lend(lent[1]));
    if got != packed(expected.refusal) {
        differences.push(format!("{} {} and not {} {}", got >> 32, got & 0xffff_ffff, expected.refusal.0, expected.refusal.1));
    }
    let mut lists = |name: &str, shared: &mut GuardedOutput, rows: &mut GuardedOutput| {
        if !shared.holds(&expected.shared) {
            differences.push(format!("{name}: the shared values"));
        }
        if !rows.holds(&expected.rows) {
            differences.push(format!("{name}: the row values"));
        }
    };
    lists("row_values", shared, rows);
    let objective = ours::row_values_objective(words, constants, file.columns, x, shared.lend(lent[0]), rows.lend(lent[1]));
    lists("objective", shared, rows);
    if objective.to_bits() != expected.objective.to_bits() {
        differences.push(format!("objective {objective:e} and not {:e}", expected.objective));
    }
    // The counts are had from any number of constants.
    for count in [constants.len(), constants.len() + 1, usize::MAX] {
        let counts = [ours::shared_count(words, count, file.columns), ours::row_count(words, count, file.columns)];
        let needed = match values::parts(&file.words, count, file.columns) {
            Ok(parts) => [parts.shared.len(), parts.rows.len()],
            Err(_) => [0, 0],
        };
        if counts != needed {
            differences.push(format!("{count} constants: counts {counts:?} and not {needed:?}"));
        }
    }
    if *words != file.words[..] || bits(constants) != bits(&file.constants) || bits(x) != bits(point) {
        differences.push("a list lent for reading has changed".to_owned());
    }
    differences
}

/// The case in full, by bits.
fn text(case: &Case) -> String {
    let Case { file, point, lent, .. } = case;
    let (constants, point) = (bits(&file.constants), bits(point));
    format!("words {:08x?}\nconstants {constants:016x?}\ncolumns {}, point {point:016x?}, lists of {lent:?}", file.words, file.columns)
}

fn main() {
    let (count, seed) = random::count_and_seed("values N [SEED]");
    let mut memory = Memory::new();
    guarded::watch();
    let mut tally: BTreeMap<String, [u64; 2]> = BTreeMap::new();
    let mut different = 0;
    for number in 0..count {
        guarded::under_way(number);
        let case = case(seed, number);
        let expected = case.expected();
        for feature in case.features(&expected) {
            tally.entry(feature).or_default()[usize::from(!case.compiled)] += 1;
        }
        let differences = differences(&case, &expected, &mut memory);
        if !differences.is_empty() {
            different += 1;
            if different <= SHOWN {
                println!("DIFFERENT: case {number}: {}\n{}", differences.join("; "), text(&case));
            }
        }
    }
    println!("{count} cases of row values under seed {seed}; {different} with a difference\n");
    println!("| answer | files of compile | of another writer |\n|---|---|---|");
    for (feature, [compiled, foreign]) in &tally {
        println!("| {feature} | {compiled} | {foreign} |");
    }
    if different > 0 {
        std::process::exit(1);
    }
}

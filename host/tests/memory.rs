//! What lent lists hold after a call, by bits: all as it was after a refusal, all behind the result as it was where there is one.
//!
//! The lists are full of NaNs, each with bits of its own. A list that was written with another NaN is seen, which a proof about values
//! cannot tell from one that was left alone.

#[allow(dead_code)]
#[path = "../src/boundary/mod.rs"]
mod boundary;
#[allow(dead_code)]
mod depot;
mod lent;

use boundary::row_values::{fervoulk_row_count, fervoulk_row_values, fervoulk_row_values_objective, fervoulk_shared_count};
use boundary::validate::{fervoulk_check, fervoulk_objective, fervoulk_residual};
use depot::{crossed, CONSTANTS, FILE, INACTIVE, NUMBERS, WORDS};
use lent::{compile_into, packed};

const POINT: [f64; 4] = [0.0, 1.0, 1.0, 0.25];
const LENT: usize = 64;

/// The bits of NaN number n: both signs, quiet and signalling, each with a payload of its own.
fn nan_bits(n: u64) -> u64 {
    let payload = (n + 1).wrapping_mul(0x9e37_79b9_7f4a_7c15) & ((1 << 51) - 1);
    (n % 2) << 63 | 0x7ff << 52 | (n / 2 % 2) << 51 | payload
}

fn nans(length: usize) -> Vec<f64> {
    (0..length as u64).map(|n| f64::from_bits(nan_bits(n))).collect()
}

/// The front is these numbers, and the rest as `nans` made it.
fn holds(list: &[f64], front: &[f64]) -> bool {
    let (written, rest) = list.split_at(front.len());
    written.iter().zip(front).all(|(a, b)| a.to_bits() == b.to_bits())
        && rest.iter().zip(front.len() as u64..).all(|(x, n)| x.to_bits() == nan_bits(n))
}

#[test]
fn nans_of_all_kinds() {
    let mut all: Vec<u64> = nans(LENT).iter().map(|x| x.to_bits()).collect();
    for kind in [0x7ff0, 0x7ff8, 0xfff0, 0xfff8] {
        assert_eq!(all.iter().filter(|&&bits| bits >> 48 & 0xfff8 == kind).count(), LENT / 4);
    }
    assert!(nans(LENT).iter().all(|x| x.is_nan()));
    all.sort();
    all.dedup();
    assert_eq!(all.len(), LENT);
}

/// The check by each of its functions, with these tolerances: the packed answer, and what the list then has in front.
fn checked_within(tolerances: &[f64], words: &[u32], numbers: &[f64], point: &[f64], solver: f64, length: usize, front: &[f64]) -> u64 {
    let mut outputs = nans(length);
    let answer = fervoulk_check(words, numbers, point, solver, tolerances, &mut outputs);
    assert!(holds(&outputs, front), "fervoulk_check");
    let mut outputs = nans(length);
    fervoulk_objective(words, numbers, point, solver, tolerances, &mut outputs);
    assert!(holds(&outputs, front), "fervoulk_objective");
    for i in 0..9 {
        let mut outputs = nans(length);
        fervoulk_residual(words, numbers, point, solver, tolerances, &mut outputs, i);
        assert!(holds(&outputs, front), "fervoulk_residual {i}");
    }
    answer
}

fn checked(words: &[u32], numbers: &[f64], point: &[f64], solver: f64, length: usize, front: &[f64]) -> u64 {
    checked_within(&[1e-6; 8], words, numbers, point, solver, length, front)
}

#[test]
fn outputs() {
    assert_eq!(checked(&WORDS, &NUMBERS, &POINT, 8.0, LENT, &[0.0, 0.0]), 0);
    assert_eq!(checked(&WORDS, &NUMBERS, &POINT, 8.0, 2, &[0.0, 0.0]), 0);
    assert_eq!(checked(&INACTIVE, &crossed(), &POINT, 8.0, LENT, &[0.0, 0.0]), 0);
    assert_eq!(checked(&[], &NUMBERS, &POINT, 8.0, LENT, &[]), packed(1, 0));
    assert_eq!(checked(&WORDS, &[], &POINT, 8.0, LENT, &[]), packed(3, 17));
    assert_eq!(checked(&WORDS, &crossed(), &POINT, 8.0, LENT, &[]), packed(7, 2));
    assert_eq!(checked(&WORDS, &NUMBERS, &POINT, 8.0, 1, &[]), packed(12, 1));
    assert_eq!(checked(&WORDS, &NUMBERS, &POINT[..3], 8.0, LENT, &[]), packed(13, 4));
    assert_eq!(checked(&WORDS, &NUMBERS, &[1025.0, 1.0, 1.0, 0.25], 8.0, LENT, &[]), packed(14, 0));
    assert_eq!(checked(&WORDS, &NUMBERS, &POINT, f64::INFINITY, LENT, &[]), packed(15, 2));
    assert_eq!(checked(&WORDS, &NUMBERS, &[0.0, 1.0, 1.5, 0.25], 10.75, LENT, &[]), packed(16, 1));
    assert_eq!(checked_within(&[0.5; 8], &WORDS, &NUMBERS, &[0.0, 1.0, 1.5, 0.25], 10.75, LENT, &[0.5, 0.0]), 0);
    assert_eq!(checked_within(&[1e-6; 9], &WORDS, &NUMBERS, &POINT, 8.0, LENT, &[]), packed(20, 0));
    assert_eq!(checked_within(&nans(8), &WORDS, &NUMBERS, &POINT, 8.0, LENT, &[]), packed(20, 1));
}

const GUARD: u32 = 0xfedc_ba98;

/// compile into lists of these lengths: the packed answer; whether all is as it was; whether the front is Depot M's model.
fn compiled(words: &[u32], numbers: &[f64], lengths: [usize; 7]) -> (u64, bool, bool) {
    let mut file = vec![GUARD; lengths[0]];
    let mut lists: Vec<Vec<f64>> = lengths[1..].iter().map(|&length| nans(length)).collect();
    let answer = compile_into(words, numbers, &mut file, &mut lists);
    let same = file.iter().all(|&word| word == GUARD) && lists.iter().all(|list| holds(list, &[]));
    let fronts: [&[f64]; 6] =
        [&CONSTANTS, &[-1e19, 0.9, 0.0, -1.0], &[1e19, 1.1, 2.0, 1.0], &[0.0, 1.0, 1.0, 0.25], &[0.0, 0.0, 0.0], &[0.0, 0.0, 0.0]];
    let model = file.starts_with(&FILE)
        && file[FILE.len()..].iter().all(|&word| word == GUARD)
        && lists.iter().zip(fronts).all(|(list, front)| list.len() >= front.len() && holds(list, front));
    (answer, same, model)
}

#[test]
fn lists_of_compile() {
    let exact = [29, 6, 4, 4, 4, 3, 3];
    assert_eq!(compiled(&WORDS, &NUMBERS, [LENT; 7]), (0, false, true));
    assert_eq!(compiled(&WORDS, &NUMBERS, exact), (0, false, true));
    assert_eq!(compiled(&[], &NUMBERS, [LENT; 7]), (packed(1, 0), true, false));
    assert_eq!(compiled(&WORDS, &[], [LENT; 7]), (packed(3, 17), true, false));
    assert_eq!(compiled(&WORDS, &crossed(), [LENT; 7]), (packed(7, 2), true, false));
    for list in 0..7 {
        let mut lengths = exact;
        lengths[list] -= 1;
        assert_eq!(compiled(&WORDS, &NUMBERS, lengths), (packed(12, list as u64 + 1), true, false));
        let mut lengths = [LENT; 7];
        lengths[list] = 0;
        assert_eq!(compiled(&WORDS, &NUMBERS, lengths), (packed(12, list as u64 + 1), true, false));
    }
}

/// Row values of Depot M's file, or of its first words, by both functions into lists of these lengths: the packed answer, the objective;
/// and the front of both lists, which is nothing where something is refused.
fn worked_out(words: &[u32], point: &[f64], lengths: [usize; 2], fronts: [&[f64]; 2]) -> (u64, f64) {
    let lent = || (nans(lengths[0]), nans(lengths[1]));
    let (mut shared, mut rows) = lent();
    let answer = fervoulk_row_values(words, &CONSTANTS, 4, point, &mut shared, &mut rows);
    assert!(holds(&shared, fronts[0]) && holds(&rows, fronts[1]), "fervoulk_row_values");
    let (mut shared, mut rows) = lent();
    let objective = fervoulk_row_values_objective(words, &CONSTANTS, 4, point, &mut shared, &mut rows);
    assert!(holds(&shared, fronts[0]) && holds(&rows, fronts[1]), "fervoulk_row_values_objective");
    (answer, objective)
}

#[test]
fn lists_of_row_values() {
    let fronts: [&[f64]; 2] = [&[4.0], &[0.5, 0.0, -0.0]];
    let point = [-0.0, 2.0, 1.5, 0.25];
    for lengths in [[LENT, LENT], [1, 3]] {
        assert_eq!(worked_out(&FILE, &point, lengths, fronts), (0, 6.75));
    }
    let refused = |words, point, lengths| {
        let (answer, objective) = worked_out(words, point, lengths, [&[], &[]]);
        assert_eq!(objective.to_bits(), 0);
        answer
    };
    assert_eq!(refused(&FILE[..28], &point, [LENT, LENT]), packed(17, 28));
    assert_eq!(refused(&FILE, &point, [0, 0]), packed(12, 1));
    assert_eq!(refused(&FILE, &point, [LENT, 2]), packed(12, 2));
    assert_eq!(refused(&FILE, &point[..3], [LENT, 2]), packed(12, 2));
    assert_eq!(refused(&FILE, &point[..3], [LENT, LENT]), packed(13, 4));
    assert_eq!(refused(&FILE, &[0.0, f64::NAN, 1.0, 0.25], [LENT, LENT]), packed(13, 1));
    // the square of vm; the objective, behind parts that are all right
    assert_eq!(refused(&FILE, &[0.0, 1e200, 1.0, 0.25], [LENT, LENT]), packed(19, 0));
    assert_eq!(refused(&FILE, &[0.0, 1.0, 1e200, 0.25], [LENT, LENT]), packed(19, 19));
}

#[test]
fn counts_of_a_file() {
    let counts =
        |words, constants, columns| (fervoulk_shared_count(words, constants, columns), fervoulk_row_count(words, constants, columns));
    assert_eq!(counts(&FILE, 6, 4), (1, 3));
    // 17
    assert_eq!(counts(&FILE[..28], 6, 4), (0, 0));
    assert_eq!(counts(&FILE, 5, 4), (0, 0));
    assert_eq!(counts(&FILE, 6, 3), (0, 0));
    assert_eq!(counts(&[], usize::MAX, usize::MAX), (0, 0));
    // 2, and one shared part fewer
    let words: Vec<u32> = (0..4353).flat_map(|i| [0xA0000000 | i, 0x10000000]).chain([0xC0000000, 0x10000000, 0xD0000000]).collect();
    assert_eq!(counts(&words, 0, 1), (0, 0));
    assert_eq!(counts(&[&words[..2 * 4352], &words[2 * 4353..]].concat(), 0, 1), (4352, 0));
}

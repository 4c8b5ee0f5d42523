//! Document 02's (a) through `row_values`: Depot M and a line between two buses, and files of another writer for each refusal.

#[allow(dead_code)]
mod depot;

use depot::{refusal, CONSTANTS, FILE};
use fervoulk::{compile, row_values, Kind, Model, Refusal, RowValues};

fn bits(list: &[f64]) -> Vec<u64> {
    list.iter().map(|x| x.to_bits()).collect()
}

/// By bits: a zero's sign counts.
fn holds(answer: Result<RowValues, Refusal>, shared: &[f64], rows: &[f64], objective: f64) {
    let values = answer.expect("nothing is refused");
    assert_eq!(bits(&values.shared), bits(shared));
    assert_eq!(bits(&values.rows), bits(rows));
    assert_eq!(values.objective.to_bits(), objective.to_bits());
}

/// A file of these words between the objective's beginning word and the end, with no columns.
fn objective(words: &[u32], constants: &[f64]) -> Result<RowValues, Refusal> {
    row_values(&[&[0xC0000000], words, &[0xD0000000]].concat(), constants, 0, &[])
}

// ---- files that compile wrote

#[test]
fn depot_m() {
    holds(row_values(&FILE, &CONSTANTS, 4, &[0.0, 1.0, 1.0, 0.25]), &[1.0], &[0.0, 0.0, 0.0], 4.0);
    // va's zero keeps its sign, and the objective constant is not in the objective
    holds(row_values(&FILE, &CONSTANTS, 4, &[-0.0, 2.0, 1.5, 0.25]), &[4.0], &[0.5, 0.0, -0.0], 6.75);
    // no column has a range of its own here
    holds(row_values(&FILE, &CONSTANTS, 4, &[1e6, 1.0, 1.0, 0.25]), &[1.0], &[0.0, 0.0, 1e6], 4.0);
}

/// Two buses and a branch between them: shared parts 0 and 1 are the squares of vm, 2 to 9 the branch's.
fn line() -> Model {
    let words = [0x10000000, 0x20000000, 0x20000000, 0x40001000, 0x50000000];
    let bus = [0.0, 0.0, 0.0, 0.0, 0.9, 1.1, 0.0, 1.0];
    let branch = [1.0, -10.0, 0.0, 0.0, 0.0, 0.0, 1.0, 0.0, 0.0, 0.0, 0.0];
    compile(&words, &[&bus[..], &bus, &branch].concat()).expect("the line is accepted")
}

fn begins(model: &Model, part: u32) -> u32 {
    model.words.iter().position(|&word| word == 0xA0000000 | part).expect("a shared part") as u32
}

#[test]
fn angles() {
    let model = line();
    let at = |from: f64, to: f64| row_values(&model.words, &model.constants, model.columns, &[from, to, 1.0, 1.0]);
    let values = at(0.0, 0.0).expect("nothing is refused");
    assert_eq!(values.shared, [1.0, 1.0, 0.0, 1.0, 1.0, 0.0, 0.0, 0.0, 0.0, 0.0]);
    assert_eq!((values.shared.len(), values.rows.len()), (model.shared, model.rows));
    // no difference of two angles that the check takes is refused, and some others are not
    assert_eq!(at(1024.0, -1024.0).map(|values| values.shared[2]), Ok(2048.0));
    assert_eq!(at(4096.0, 0.0).map(|values| values.shared[2]), Ok(4096.0));
    // too large a difference is refused at wr, which has its cosine; one that overflows at the difference itself
    assert_eq!(at(4096.0, -1.0), Err(refusal(Kind::Swing, begins(&model, 4))));
    assert_eq!(at(1e308, -1e308), Err(refusal(Kind::Value, begins(&model, 2))));
}

// ---- files of another writer

#[test]
fn order_of_operations() {
    // a sum runs from its first term: from 0 it would be +0
    holds(objective(&[0x90000002, 0x00000000, 0x00000001], &[-0.0, -0.0]), &[], &[], -0.0);
    // and from left to right: 1e16 + 1 + 1
    holds(objective(&[0x90000003, 0x00000000, 0x00000001, 0x00000002], &[1e16, 1.0, 1.0]), &[], &[], 1e16);
    holds(objective(&[0x40000000, 0x00000000, 0x00000001], &[1.0, 3.0]), &[], &[], -2.0);
    holds(objective(&[0x60000000, 0x00000000], &[-3.0]), &[], &[], 9.0);
    // the sign of a zero; and fdlibm's last bit, where glibc has ..C1
    holds(objective(&[0x80000000, 0x00000000], &[-0.0]), &[], &[], -0.0);
    holds(objective(&[0x70000000, 0x00000000], &[0.1]), &[], &[], f64::from_bits(0x3FEFD712F9A817C0));
}

#[test]
fn model_words() {
    assert_eq!(row_values(&[], &[], 0, &[]), Err(refusal(Kind::Model, 0)));
    assert_eq!(row_values(&FILE[..28], &CONSTANTS, 4, &[0.0; 4]), Err(refusal(Kind::Model, 28)));
    assert_eq!(row_values(&FILE, &CONSTANTS[..5], 4, &[0.0; 4]), Err(refusal(Kind::Model, 26)));
    assert_eq!(row_values(&FILE, &CONSTANTS, 3, &[0.0; 3]), Err(refusal(Kind::Model, 16)));
    // before a point of a wrong length
    assert_eq!(row_values(&FILE[..28], &CONSTANTS, 4, &[]), Err(refusal(Kind::Model, 28)));
}

/// So many parts that begin with this word's kind, each column 0; then an objective of column 0.
fn parts(kind: u32, count: u32) -> Vec<u32> {
    (0..count).flat_map(|i| [kind << 28 | i, 0x10000000]).chain([0xC0000000, 0x10000000, 0xD0000000]).collect()
}

#[test]
fn most_shared_parts() {
    let most = parts(10, 4352);
    holds(row_values(&most, &[], 1, &[2.5]), &[2.5; 4352], &[], 2.5);
    let mut more = parts(10, 5000);
    assert_eq!(row_values(&more, &[], 1, &[2.5]), Err(refusal(Kind::Size, 2 * 4352)));
    // before a point of a wrong length, and behind any wrong word of the file
    assert_eq!(row_values(&more, &[], 1, &[]), Err(refusal(Kind::Size, 2 * 4352)));
    more.pop();
    assert_eq!(row_values(&more, &[], 1, &[2.5]), Err(refusal(Kind::Model, 10_002)));
}

#[test]
fn rows_without_a_limit() {
    for count in [4351, 4352, 4353, 20_000] {
        holds(row_values(&parts(11, count), &[], 1, &[2.5]), &[], &vec![2.5; count as usize], 2.5);
    }
}

#[test]
fn points() {
    let two = [0xC0000000, 0x30000000, 0x10000000, 0x10000001, 0xD0000000];
    holds(row_values(&two, &[], 2, &[1.0, 2.0]), &[], &[], 3.0);
    assert_eq!(row_values(&two, &[], 2, &[1.0]), Err(refusal(Kind::Point, 2)));
    assert_eq!(row_values(&two, &[], 2, &[1.0, 2.0, 3.0]), Err(refusal(Kind::Point, 2)));
    assert_eq!(row_values(&two, &[], 2, &[1.0, f64::NAN]), Err(refusal(Kind::Point, 1)));
    // the length first, and a column that no part names too
    assert_eq!(row_values(&two, &[], 3, &[f64::NAN, 1.0]), Err(refusal(Kind::Point, 3)));
    assert_eq!(row_values(&two, &[], 3, &[1.0, 1.0, f64::INFINITY]), Err(refusal(Kind::Point, 2)));
    // the place is capped at the boundary
    assert_eq!(row_values(&two, &[], usize::MAX, &[1.0, 2.0]), Err(refusal(Kind::Point, u32::MAX)));
}

#[test]
fn swing_before_value() {
    let sine_and = |operator: u32, first: f64, argument: f64| {
        objective(&[operator, 0x00000000, 0x80000000, 0x00000001], &[first, argument]).map(|values| values.objective)
    };
    let beyond = f64::from_bits(4096f64.to_bits() + 1);
    for end in [4096.0, -4096.0] {
        assert!(sine_and(0x30000000, 0.0, end).is_ok());
    }
    for argument in [beyond, -beyond, f64::INFINITY, f64::NEG_INFINITY, f64::NAN] {
        assert_eq!(sine_and(0x30000000, 0.0, argument), Err(refusal(Kind::Swing, 0)));
        // right of an infinite operand, and under a product with 0
        assert_eq!(sine_and(0x30000000, f64::INFINITY, argument), Err(refusal(Kind::Swing, 0)));
        assert_eq!(sine_and(0x50000000, 0.0, argument), Err(refusal(Kind::Swing, 0)));
    }
    assert_eq!(sine_and(0x30000000, f64::INFINITY, 1.0), Err(refusal(Kind::Value, 0)));
    assert_eq!(objective(&[0x00000000], &[f64::NAN]), Err(refusal(Kind::Value, 0)));
}

#[test]
fn parts_in_file_order() {
    // shared part 0, which nothing names, is the square of column 0; row 0 is the sine of column 0; the objective is its square
    let words = [0xA0000000, 0x60000000, 0x10000000, 0xB0000000, 0x80000000, 0x10000000, 0xC0000000, 0x60000000, 0x10000000, 0xD0000000];
    let at = |x: f64| row_values(&words, &[], 1, &[x]);
    holds(at(0.0), &[0.0], &[0.0], 0.0);
    assert_eq!(at(5000.0), Err(refusal(Kind::Swing, 3)));
    // the first part decides: 19 here before 14 there
    assert_eq!(at(1e200), Err(refusal(Kind::Value, 0)));
    // without the shared part and with the row of column 0 itself, the objective
    let last = [0xB0000000, 0x10000000, 0xC0000000, 0x60000000, 0x10000000, 0xD0000000];
    assert_eq!(row_values(&last, &[], 1, &[1e200]), Err(refusal(Kind::Value, 2)));
}

//! The finder, and whether two models are the same.

use crate::boundary::nl as boundary;
use crate::Refusal;

/// The words of the expression of a row, from 0, of a model file with so many constants and columns: a part of `words`. Refused with 17
/// where the file does not pass reading, else with 18 where there is no such row.
///
/// ```
/// # use fervoulk::{compile, find_row};
/// # let words = [0x10000001, 0x20000001, 0x30001000, 0x50000000];
/// # let numbers = [1.0, 0.25, 0.0, 0.0, 0.9, 1.1, 0.0, 1.0, 0.0, 2.0, -1.0, 1.0, 2.0, 3.0, 4.0, 1.0, 0.25];
/// // Depot M has three rows; the last is its reference, column 0
/// let model = compile(&words, &numbers)?;
/// assert_eq!(find_row(&model.words, model.constants.len(), model.columns, 2)?, [0x10000000]);
/// assert_eq!(find_row(&model.words, model.constants.len(), model.columns, 3).unwrap_err().to_string(), "18 row 3");
/// # Ok::<(), fervoulk::Refusal>(())
/// ```
pub fn find_row(words: &[u32], constants: usize, columns: usize, row: usize) -> Result<&[u32], Refusal> {
    match Refusal::of(boundary::fervoulk_find_row(words, constants, columns, row)) {
        Some(refusal) => Err(refusal),
        None => {
            let start = boundary::fervoulk_row_start(words, constants, columns, row);
            let length = boundary::fervoulk_row_length(words, constants, columns, row);
            Ok(&words[start..start + length])
        }
    }
}

/// Whether two models have equal words, and constants equal as numbers: -0 is 0, and a NaN is equal to nothing.
///
/// ```
/// use fervoulk::same;
/// assert!(same(&[0x00000000], &[0.0], &[0x00000000], &[-0.0]));
/// assert!(!same(&[0x00000000], &[0.0], &[0x00000000], &[1.0]));
/// ```
pub fn same(words_a: &[u32], constants_a: &[f64], words_b: &[u32], constants_b: &[f64]) -> bool {
    boundary::fervoulk_same(words_a, constants_a, words_b, constants_b) != 0
}

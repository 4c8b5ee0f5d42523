//! The port through the C boundary, by the host's own declarations.

use fervoulk::boundary::compile;
pub use fervoulk::boundary::compile::fervoulk_objective_constant as objective_constant;
pub use fervoulk::boundary::row_values::{
    fervoulk_row_count as row_count, fervoulk_row_values as row_values, fervoulk_row_values_objective as row_values_objective,
    fervoulk_shared_count as shared_count,
};
pub use fervoulk::boundary::validate::{
    fervoulk_check as check, fervoulk_objective as objective, fervoulk_outputs as outputs, fervoulk_residual as residual,
    fervoulk_residuals as residuals,
};

/// The lists of f64 are in document 01's order, constants first.
pub fn compile(words: &[u32], numbers: &[f64], model: &mut [u32], lists: [&mut [f64]; 6]) -> u64 {
    let [constants, column_lower, column_upper, start, row_lower, row_upper] = lists;
    let lists = compile::Lists { words: model, constants, column_lower, column_upper, start, row_lower, row_upper };
    compile::fervoulk_compile(words, numbers, lists)
}

/// Words, constants, columns, rows, shared parts.
pub fn counts(words: &[u32], numbers: &[f64]) -> [usize; 5] {
    [
        compile::fervoulk_words(words, numbers),
        compile::fervoulk_constants(words, numbers),
        compile::fervoulk_columns(words, numbers),
        compile::fervoulk_rows(words, numbers),
        compile::fervoulk_shared(words, numbers),
    ]
}

//! Calls of the C boundary with lists that a test lends.

use crate::boundary::compile::{fervoulk_compile, Lists};

/// Number and place in one answer.
pub fn packed(number: u64, place: u64) -> u64 {
    number << 32 | place
}

/// compile into these lists, the six of numbers in refusal 12's order: the packed answer; the lists are then as it left them.
pub fn compile_into(words: &[u32], numbers: &[f64], file: &mut [u32], lists: &mut [Vec<f64>]) -> u64 {
    let [constants, column_lower, column_upper, start, row_lower, row_upper] = lists else { panic!("six lists") };
    fervoulk_compile(words, numbers, Lists { words: file, constants, column_lower, column_upper, start, row_lower, row_upper })
}

//! libcompile.a: from the network file to the model file.

mod c {
    extern "C" {
        pub fn fervoulk_compile(
            words: *const u32,
            words_length: usize,
            numbers: *const f64,
            numbers_length: usize,
            model_words: *mut u32,
            model_words_length: usize,
            constants: *mut f64,
            constants_length: usize,
            column_lower: *mut f64,
            column_lower_length: usize,
            column_upper: *mut f64,
            column_upper_length: usize,
            start: *mut f64,
            start_length: usize,
            row_lower: *mut f64,
            row_lower_length: usize,
            row_upper: *mut f64,
            row_upper_length: usize,
        ) -> u64;
        pub fn fervoulk_words(words: *const u32, words_length: usize, numbers: *const f64, numbers_length: usize) -> usize;
        pub fn fervoulk_constants(words: *const u32, words_length: usize, numbers: *const f64, numbers_length: usize) -> usize;
        pub fn fervoulk_columns(words: *const u32, words_length: usize, numbers: *const f64, numbers_length: usize) -> usize;
        pub fn fervoulk_rows(words: *const u32, words_length: usize, numbers: *const f64, numbers_length: usize) -> usize;
        pub fn fervoulk_shared(words: *const u32, words_length: usize, numbers: *const f64, numbers_length: usize) -> usize;
        pub fn fervoulk_objective_constant(words: *const u32, words_length: usize, numbers: *const f64, numbers_length: usize) -> f64;
    }
}

/// The seven lists that compile writes, in refusal 12's order.
pub struct Lists<'a> {
    pub words: &'a mut [u32],
    pub constants: &'a mut [f64],
    pub column_lower: &'a mut [f64],
    pub column_upper: &'a mut [f64],
    pub start: &'a mut [f64],
    pub row_lower: &'a mut [f64],
    pub row_upper: &'a mut [f64],
}

pub fn fervoulk_compile(words: &[u32], numbers: &[f64], lists: Lists<'_>) -> u64 {
    let Lists { words: model_words, constants, column_lower, column_upper, start, row_lower, row_upper } = lists;
    // SAFETY: each pair is a slice; the seven written ones are distinct `&mut` slices.
    unsafe {
        c::fervoulk_compile(
            words.as_ptr(),
            words.len(),
            numbers.as_ptr(),
            numbers.len(),
            model_words.as_mut_ptr(),
            model_words.len(),
            constants.as_mut_ptr(),
            constants.len(),
            column_lower.as_mut_ptr(),
            column_lower.len(),
            column_upper.as_mut_ptr(),
            column_upper.len(),
            start.as_mut_ptr(),
            start.len(),
            row_lower.as_mut_ptr(),
            row_lower.len(),
            row_upper.as_mut_ptr(),
            row_upper.len(),
        )
    }
}

pub fn fervoulk_words(words: &[u32], numbers: &[f64]) -> usize {
    // SAFETY: each pair is a slice.
    unsafe { c::fervoulk_words(words.as_ptr(), words.len(), numbers.as_ptr(), numbers.len()) }
}

pub fn fervoulk_constants(words: &[u32], numbers: &[f64]) -> usize {
    // SAFETY: each pair is a slice.
    unsafe { c::fervoulk_constants(words.as_ptr(), words.len(), numbers.as_ptr(), numbers.len()) }
}

pub fn fervoulk_columns(words: &[u32], numbers: &[f64]) -> usize {
    // SAFETY: each pair is a slice.
    unsafe { c::fervoulk_columns(words.as_ptr(), words.len(), numbers.as_ptr(), numbers.len()) }
}

pub fn fervoulk_rows(words: &[u32], numbers: &[f64]) -> usize {
    // SAFETY: each pair is a slice.
    unsafe { c::fervoulk_rows(words.as_ptr(), words.len(), numbers.as_ptr(), numbers.len()) }
}

pub fn fervoulk_shared(words: &[u32], numbers: &[f64]) -> usize {
    // SAFETY: each pair is a slice.
    unsafe { c::fervoulk_shared(words.as_ptr(), words.len(), numbers.as_ptr(), numbers.len()) }
}

pub fn fervoulk_objective_constant(words: &[u32], numbers: &[f64]) -> f64 {
    // SAFETY: each pair is a slice.
    unsafe { c::fervoulk_objective_constant(words.as_ptr(), words.len(), numbers.as_ptr(), numbers.len()) }
}

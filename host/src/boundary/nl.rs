//! libnl.a: one row of a model file, and whether two models are the same.

mod c {
    extern "C" {
        pub fn fervoulk_find_row(words: *const u32, words_length: usize, constants: usize, columns: usize, r: usize) -> u64;
        pub fn fervoulk_row_start(words: *const u32, words_length: usize, constants: usize, columns: usize, r: usize) -> usize;
        pub fn fervoulk_row_length(words: *const u32, words_length: usize, constants: usize, columns: usize, r: usize) -> usize;
        pub fn fervoulk_same(
            words_a: *const u32,
            words_a_length: usize,
            constants_a: *const f64,
            constants_a_length: usize,
            words_b: *const u32,
            words_b_length: usize,
            constants_b: *const f64,
            constants_b_length: usize,
        ) -> u32;
    }
}

pub fn fervoulk_find_row(words: &[u32], constants: usize, columns: usize, r: usize) -> u64 {
    // SAFETY: the pair is a slice.
    unsafe { c::fervoulk_find_row(words.as_ptr(), words.len(), constants, columns, r) }
}

pub fn fervoulk_row_start(words: &[u32], constants: usize, columns: usize, r: usize) -> usize {
    // SAFETY: the pair is a slice.
    unsafe { c::fervoulk_row_start(words.as_ptr(), words.len(), constants, columns, r) }
}

pub fn fervoulk_row_length(words: &[u32], constants: usize, columns: usize, r: usize) -> usize {
    // SAFETY: the pair is a slice.
    unsafe { c::fervoulk_row_length(words.as_ptr(), words.len(), constants, columns, r) }
}

pub fn fervoulk_same(words_a: &[u32], constants_a: &[f64], words_b: &[u32], constants_b: &[f64]) -> u32 {
    // SAFETY: each pair is a slice.
    unsafe {
        c::fervoulk_same(
            words_a.as_ptr(),
            words_a.len(),
            constants_a.as_ptr(),
            constants_a.len(),
            words_b.as_ptr(),
            words_b.len(),
            constants_b.as_ptr(),
            constants_b.len(),
        )
    }
}

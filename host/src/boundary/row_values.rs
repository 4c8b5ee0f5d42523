//! librow_values.a: a model file worked out at a point.

mod c {
    extern "C" {
        pub fn fervoulk_row_values(
            words: *const u32,
            words_length: usize,
            constants: *const f64,
            constants_length: usize,
            columns: usize,
            point: *const f64,
            point_length: usize,
            shared: *mut f64,
            shared_length: usize,
            rows: *mut f64,
            rows_length: usize,
        ) -> u64;
        pub fn fervoulk_row_values_objective(
            words: *const u32,
            words_length: usize,
            constants: *const f64,
            constants_length: usize,
            columns: usize,
            point: *const f64,
            point_length: usize,
            shared: *mut f64,
            shared_length: usize,
            rows: *mut f64,
            rows_length: usize,
        ) -> f64;
        pub fn fervoulk_shared_count(words: *const u32, words_length: usize, constants: usize, columns: usize) -> usize;
        pub fn fervoulk_row_count(words: *const u32, words_length: usize, constants: usize, columns: usize) -> usize;
    }
}

pub fn fervoulk_row_values(words: &[u32], constants: &[f64], columns: usize, point: &[f64], shared: &mut [f64], rows: &mut [f64]) -> u64 {
    // SAFETY: each pair is a slice; the two written ones are distinct `&mut` slices.
    unsafe {
        c::fervoulk_row_values(
            words.as_ptr(),
            words.len(),
            constants.as_ptr(),
            constants.len(),
            columns,
            point.as_ptr(),
            point.len(),
            shared.as_mut_ptr(),
            shared.len(),
            rows.as_mut_ptr(),
            rows.len(),
        )
    }
}

pub fn fervoulk_row_values_objective(
    words: &[u32],
    constants: &[f64],
    columns: usize,
    point: &[f64],
    shared: &mut [f64],
    rows: &mut [f64],
) -> f64 {
    // SAFETY: each pair is a slice; the two written ones are distinct `&mut` slices.
    unsafe {
        c::fervoulk_row_values_objective(
            words.as_ptr(),
            words.len(),
            constants.as_ptr(),
            constants.len(),
            columns,
            point.as_ptr(),
            point.len(),
            shared.as_mut_ptr(),
            shared.len(),
            rows.as_mut_ptr(),
            rows.len(),
        )
    }
}

pub fn fervoulk_shared_count(words: &[u32], constants: usize, columns: usize) -> usize {
    // SAFETY: the pair is a slice.
    unsafe { c::fervoulk_shared_count(words.as_ptr(), words.len(), constants, columns) }
}

pub fn fervoulk_row_count(words: &[u32], constants: usize, columns: usize) -> usize {
    // SAFETY: the pair is a slice.
    unsafe { c::fervoulk_row_count(words.as_ptr(), words.len(), constants, columns) }
}

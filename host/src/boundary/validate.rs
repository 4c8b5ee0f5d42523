//! libvalidate.a: whether a point is accepted.

mod c {
    extern "C" {
        pub fn fervoulk_outputs(words: *const u32, words_length: usize, numbers: *const f64, numbers_length: usize) -> usize;
        pub fn fervoulk_check(
            words: *const u32,
            words_length: usize,
            numbers: *const f64,
            numbers_length: usize,
            point: *const f64,
            point_length: usize,
            solver: f64,
            tolerances: *const f64,
            tolerances_length: usize,
            outputs: *mut f64,
            outputs_length: usize,
        ) -> u64;
        pub fn fervoulk_objective(
            words: *const u32,
            words_length: usize,
            numbers: *const f64,
            numbers_length: usize,
            point: *const f64,
            point_length: usize,
            solver: f64,
            tolerances: *const f64,
            tolerances_length: usize,
            outputs: *mut f64,
            outputs_length: usize,
        ) -> f64;
        pub fn fervoulk_residual(
            words: *const u32,
            words_length: usize,
            numbers: *const f64,
            numbers_length: usize,
            point: *const f64,
            point_length: usize,
            solver: f64,
            tolerances: *const f64,
            tolerances_length: usize,
            outputs: *mut f64,
            outputs_length: usize,
            i: usize,
        ) -> f64;
        pub fn fervoulk_residuals(
            words: *const u32,
            words_length: usize,
            numbers: *const f64,
            numbers_length: usize,
            point: *const f64,
            point_length: usize,
            solver: f64,
            report: *mut f64,
            report_length: usize,
        ) -> u64;
    }
}

pub fn fervoulk_outputs(words: &[u32], numbers: &[f64]) -> usize {
    // SAFETY: each pair is a slice.
    unsafe { c::fervoulk_outputs(words.as_ptr(), words.len(), numbers.as_ptr(), numbers.len()) }
}

pub fn fervoulk_check(words: &[u32], numbers: &[f64], point: &[f64], solver: f64, tolerances: &[f64], outputs: &mut [f64]) -> u64 {
    // SAFETY: each pair is a slice; the written one is a `&mut` slice.
    unsafe {
        c::fervoulk_check(
            words.as_ptr(),
            words.len(),
            numbers.as_ptr(),
            numbers.len(),
            point.as_ptr(),
            point.len(),
            solver,
            tolerances.as_ptr(),
            tolerances.len(),
            outputs.as_mut_ptr(),
            outputs.len(),
        )
    }
}

pub fn fervoulk_objective(words: &[u32], numbers: &[f64], point: &[f64], solver: f64, tolerances: &[f64], outputs: &mut [f64]) -> f64 {
    // SAFETY: each pair is a slice; the written one is a `&mut` slice.
    unsafe {
        c::fervoulk_objective(
            words.as_ptr(),
            words.len(),
            numbers.as_ptr(),
            numbers.len(),
            point.as_ptr(),
            point.len(),
            solver,
            tolerances.as_ptr(),
            tolerances.len(),
            outputs.as_mut_ptr(),
            outputs.len(),
        )
    }
}

pub fn fervoulk_residual(
    words: &[u32],
    numbers: &[f64],
    point: &[f64],
    solver: f64,
    tolerances: &[f64],
    outputs: &mut [f64],
    i: usize,
) -> f64 {
    // SAFETY: each pair is a slice; the written one is a `&mut` slice.
    unsafe {
        c::fervoulk_residual(
            words.as_ptr(),
            words.len(),
            numbers.as_ptr(),
            numbers.len(),
            point.as_ptr(),
            point.len(),
            solver,
            tolerances.as_ptr(),
            tolerances.len(),
            outputs.as_mut_ptr(),
            outputs.len(),
            i,
        )
    }
}

pub fn fervoulk_residuals(words: &[u32], numbers: &[f64], point: &[f64], solver: f64, report: &mut [f64]) -> u64 {
    // SAFETY: each pair is a slice; the written one is a `&mut` slice.
    unsafe {
        c::fervoulk_residuals(
            words.as_ptr(),
            words.len(),
            numbers.as_ptr(),
            numbers.len(),
            point.as_ptr(),
            point.len(),
            solver,
            report.as_mut_ptr(),
            report.len(),
        )
    }
}

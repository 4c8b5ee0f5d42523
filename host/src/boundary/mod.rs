//! The functions of include/fervoulk.h, each behind one on slices; hidden, for tests that lend lists of any length. All unsafe code of the
//! crate is here.
//!
//! A call is sound because a slice is what the header asks of a list: aligned, initialized and valid for its length (an empty one has a
//! pointer that nothing is read through), and a `&mut` slice overlaps no other. The functions are proved for any contents and lengths,
//! keep no pointer and do not unwind.

pub mod compile;
pub mod nl;
pub mod row_values;
pub mod validate;

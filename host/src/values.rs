//! Row values: a model file worked out at a point.

use crate::boundary::row_values as boundary;
use crate::Refusal;

/// The values of a model file's parts at a point, all of them finite.
///
/// ```
/// # use fervoulk::{compile, row_values};
/// # let words = [0x10000001, 0x20000001, 0x30001000, 0x50000000];
/// # let numbers = [1.0, 0.25, 0.0, 0.0, 0.9, 1.1, 0.0, 1.0, 0.0, 2.0, -1.0, 1.0, 2.0, 3.0, 4.0, 1.0, 0.25];
/// let model = compile(&words, &numbers)?;
/// // vm is 2 and pg is 1.5: half a unit too much is generated
/// let values = row_values(&model.words, &model.constants, model.columns, &[0.0, 2.0, 1.5, 0.25])?;
/// assert_eq!(values.shared, [4.0]);
/// assert_eq!(values.rows, [0.5, 0.0, 0.0]);
/// assert_eq!(values.objective + model.objective, 10.75);
/// # Ok::<(), fervoulk::Refusal>(())
/// ```
#[derive(Clone, Debug, PartialEq)]
pub struct RowValues {
    /// Each shared part's value.
    pub shared: Vec<f64>,
    /// Each row's value.
    pub rows: Vec<f64>,
    /// The objective's value, without the objective constant, which is no part of the file.
    pub objective: f64,
}

/// Works out every shared part, row and the objective of a model file, whoever wrote it, at a point, a value for each column. Refused with
/// the first of 17 (the file does not pass reading), 2 (more than 4,352 shared parts) and 13 (the point), then part by part in file order
/// 14 (an argument of a sine or cosine outside -4,096 to 4,096) and 19 (a value that is not finite).
///
/// The file is read for the lengths of both lists, then worked out twice: once for the lists, once for the objective.
///
/// ```
/// # use fervoulk::{compile, row_values};
/// # let words = [0x10000001, 0x20000001, 0x30001000, 0x50000000];
/// # let numbers = [1.0, 0.25, 0.0, 0.0, 0.9, 1.1, 0.0, 1.0, 0.0, 2.0, -1.0, 1.0, 2.0, 3.0, 4.0, 1.0, 0.25];
/// // Depot M's start holds its three rows, whose bounds are 0 and 0
/// let model = compile(&words, &numbers)?;
/// let values = row_values(&model.words, &model.constants, model.columns, &model.start)?;
/// assert_eq!(values.rows, [0.0, 0.0, 0.0]);
/// assert_eq!(values.objective + model.objective, 8.0);
/// // vm squared overflows: 19, at the word that begins shared part 0
/// let refusal = row_values(&model.words, &model.constants, model.columns, &[0.0, 1e200, 1.0, 0.25]).unwrap_err();
/// assert_eq!((refusal.number(), refusal.place()), (19, 0));
/// # Ok::<(), fervoulk::Refusal>(())
/// ```
pub fn row_values(words: &[u32], constants: &[f64], columns: usize, point: &[f64]) -> Result<RowValues, Refusal> {
    // The counts are 0 for a file that 17 or 2 refuses, and these come before the refusal of short lists.
    let mut shared = vec![0.0; boundary::fervoulk_shared_count(words, constants.len(), columns)];
    let mut rows = vec![0.0; boundary::fervoulk_row_count(words, constants.len(), columns)];
    match Refusal::of(boundary::fervoulk_row_values(words, constants, columns, point, &mut shared, &mut rows)) {
        Some(refusal) => Err(refusal),
        None => {
            let objective = boundary::fervoulk_row_values_objective(words, constants, columns, point, &mut shared, &mut rows);
            Ok(RowValues { shared, rows, objective })
        }
    }
}

//! Compile: from the network file to the model file.

use crate::boundary::compile as boundary;
use crate::Refusal;

/// What compile makes of a network that is not refused.
///
/// ```
/// # use fervoulk::compile;
/// # let words = [0x10000001, 0x20000001, 0x30001000, 0x50000000];
/// # let numbers = [1.0, 0.25, 0.0, 0.0, 0.9, 1.1, 0.0, 1.0, 0.0, 2.0, -1.0, 1.0, 2.0, 3.0, 4.0, 1.0, 0.25];
/// let model = compile(&words, &numbers).expect("Depot M is accepted");
/// assert_eq!((model.words.len(), model.constants.len(), model.columns, model.rows, model.shared), (29, 6, 4, 3, 1));
/// assert_eq!(model.objective, 4.0);
/// ```
#[derive(Clone, Debug, PartialEq)]
pub struct Model {
    /// The model file's words.
    pub words: Vec<u32>,
    /// The model file's constants, in order of their running numbers.
    pub constants: Vec<f64>,
    /// Each column's lower bound: va, vm, pg, qg, then one cost column for each curve under header 1.
    pub column_lower: Vec<f64>,
    pub column_upper: Vec<f64>,
    /// Where the solver starts, for each column.
    pub start: Vec<f64>,
    /// Each row's lower bound.
    pub row_lower: Vec<f64>,
    pub row_upper: Vec<f64>,
    pub columns: usize,
    pub rows: usize,
    /// How many shared parts there are.
    pub shared: usize,
    /// The objective constant, which stands beside the file and not in it.
    pub objective: f64,
}

/// Compiles a network file, refused with 1 to 11.
///
/// ```
/// use fervoulk::compile;
/// // Depot M, and its model file's first words: shared part 0 is the square of column 1
/// let words = [0x10000001, 0x20000001, 0x30001000, 0x50000000];
/// let numbers = [1.0, 0.25, 0.0, 0.0, 0.9, 1.1, 0.0, 1.0, 0.0, 2.0, -1.0, 1.0, 2.0, 3.0, 4.0, 1.0, 0.25];
/// let model = compile(&words, &numbers)?;
/// assert_eq!(model.words[..3], [0xA0000000, 0x60000000, 0x10000001]);
/// assert_eq!(model.start, [0.0, 1.0, 1.0, 0.25]);
/// assert_eq!(compile(&words, &numbers[1..]).unwrap_err().to_string(), "3 count 17");
/// # Ok::<(), fervoulk::Refusal>(())
/// ```
pub fn compile(words: &[u32], numbers: &[f64]) -> Result<Model, Refusal> {
    // The counts are 0 for a refused network, and its refusal comes before that of short lists.
    let columns = boundary::fervoulk_columns(words, numbers);
    let rows = boundary::fervoulk_rows(words, numbers);
    let mut model = Model {
        words: vec![0; boundary::fervoulk_words(words, numbers)],
        constants: vec![0.0; boundary::fervoulk_constants(words, numbers)],
        column_lower: vec![0.0; columns],
        column_upper: vec![0.0; columns],
        start: vec![0.0; columns],
        row_lower: vec![0.0; rows],
        row_upper: vec![0.0; rows],
        columns,
        rows,
        shared: boundary::fervoulk_shared(words, numbers),
        objective: boundary::fervoulk_objective_constant(words, numbers),
    };
    let lists = boundary::Lists {
        words: &mut model.words,
        constants: &mut model.constants,
        column_lower: &mut model.column_lower,
        column_upper: &mut model.column_upper,
        start: &mut model.start,
        row_lower: &mut model.row_lower,
        row_upper: &mut model.row_upper,
    };
    match Refusal::of(boundary::fervoulk_compile(words, numbers, lists)) {
        None => Ok(model),
        Some(refusal) => Err(refusal),
    }
}

//! The solver host's side of Fervoulk: compile, row values, check and the finder as safe functions over the C boundary
//! (include/fervoulk.h).
//!
//! docs/FORMAT.md says what the network file, the model file, row values, the refusals and the check are. The proofs are of the functions
//! behind the boundary; this crate only sizes lists, lends them, and takes answers apart.
//!
//! ```
//! use fervoulk::{check, compile, row_values, Tolerances};
//! // Depot M: one bus, one generator, one reference (examples/depot_m.txt)
//! let words = [0x10000001, 0x20000001, 0x30001000, 0x50000000];
//! let numbers = [1.0, 0.25, 0.0, 0.0, 0.9, 1.1, 0.0, 1.0, 0.0, 2.0, -1.0, 1.0, 2.0, 3.0, 4.0, 1.0, 0.25];
//! let model = compile(&words, &numbers)?;
//! // a solver would start here, and ask for the rows' values at each point; the start is a solution already, of objective 8
//! let values = row_values(&model.words, &model.constants, model.columns, &model.start)?;
//! let accepted = check(&words, &numbers, &model.start, values.objective + model.objective, &Tolerances::default())?;
//! assert_eq!(accepted.objective, 8.0);
//! # Ok::<(), Box<dyn std::error::Error>>(())
//! ```

#![deny(unsafe_code)]

#[allow(unsafe_code)]
#[doc(hidden)]
pub mod boundary;
mod check;
mod model;
mod refusal;
mod row;
mod values;

pub use check::{check, Accepted, Outputs, Refused, Residuals, Tolerances};
pub use model::{compile, Model};
pub use refusal::{Kind, Refusal};
pub use row::{find_row, same};
pub use values::{row_values, RowValues};

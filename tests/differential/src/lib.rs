//! What the differential runs share: the generators, the port's functions, guarded memory, and the comparison.

pub mod balance;
pub mod cases;
pub mod compare;
pub mod compiled;
pub mod guarded;
pub mod model_files;
pub mod networks;
pub mod ours;
pub mod random;
pub mod reader;
pub mod rules;
pub mod tolerances;
pub mod value_cases;
pub mod values;

//! The original text, as cut by `cut`, compiled without the standard library.
//!
//! Without it, `f64` has no `sin`, `cos`, `hypot` and `powi` of its own: the text's
//! calls find the trait `Elementary` below, which calls fdlibm. Everything that the
//! text takes from other crates is a stand-in (`standin.rs`).
#![no_std]

extern crate alloc;
// The text says `std::mem::take`; core has it.
extern crate core as std;

mod network;
pub mod standin;

pub use model::acopf::{compile, Model};
pub use network::network;
pub use standin::powerio_prob::AcOpfInstance;

use alloc::vec::Vec;

// With `--cfg platform`, for timing only, the platform's functions stand in the place of fdlibm's.
extern "C" {
    #[cfg_attr(platform, link_name = "sin")]
    fn fdlibm_sin(x: f64) -> f64;
    #[cfg_attr(platform, link_name = "cos")]
    fn fdlibm_cos(x: f64) -> f64;
    #[cfg_attr(platform, link_name = "hypot")]
    fn fdlibm_hypot(x: f64, y: f64) -> f64;
}

/// What the text calls on `f64` and core lacks.
pub(crate) trait Elementary {
    fn sin(self) -> f64;
    fn cos(self) -> f64;
    fn hypot(self, other: f64) -> f64;
    fn powi(self, n: i32) -> f64;
}

impl Elementary for f64 {
    fn sin(self) -> f64 {
        unsafe { fdlibm_sin(self) }
    }
    fn cos(self) -> f64 {
        unsafe { fdlibm_cos(self) }
    }
    fn hypot(self, other: f64) -> f64 {
        unsafe { fdlibm_hypot(self, other) }
    }
    fn powi(self, n: i32) -> f64 {
        assert!(n == 2, "the text has squares only");
        self * self
    }
}

/// For tests that work out expressions.
#[inline]
pub fn sin(x: f64) -> f64 {
    Elementary::sin(x)
}

#[inline]
pub fn cos(x: f64) -> f64 {
    Elementary::cos(x)
}

pub mod ratings {
    include!(concat!(env!("ORACLE_CUT"), "/ratings.rs"));
}

// No line of the text is ours, and what document 01 leaves out of it is not called.
#[allow(dead_code)]
mod model {
    use crate::standin::powerio_matrix::PiecewiseLinearCost;
    use alloc::vec::Vec;

    include!(concat!(env!("ORACLE_CUT"), "/mod.rs"));

    // What the text's first check calls: document 01 leaves it out, so it finds nothing.
    pub(super) use crate::standin::refused::*;

    pub(super) mod acopf {
        use crate::standin::pounce::{ApplicationReturnStatus, Arc};
        use crate::standin::pounce::{BinOp, Expr, NlProblem, NlProblemParts, NlTnlp, UnaryOp};
        use crate::standin::powerio::LoadVoltageModel;
        use crate::standin::powerio_matrix::{build_ac_opf_preparation, AcOpfAssemblyOptions, AcOpfPreparation, PreparedObjective, Units};
        use crate::standin::powerio_prob::AcOpfInstance;
        use crate::standin::sha2::Sha256;
        use crate::standin::{num_complex, powerio_matrix, serde_json};
        use crate::Elementary;
        use alloc::{boxed::Box, format, string::String, string::ToString, vec, vec::Vec};

        include!(concat!(env!("ORACLE_CUT"), "/acopf.rs"));

        /// A compiled model. It stands here because the text keeps its own private.
        pub struct Model(CanonicalAcOpfModel);

        pub fn compile(instance: &AcOpfInstance) -> Result<Model, String> {
            crate::standin::pounce::number_from_zero();
            compile_ac_opf_model(instance).map(Model)
        }

        impl Model {
            pub(crate) fn parts(&self) -> &NlProblemParts {
                &self.0.problem.parts
            }

            pub fn check(&self, x: &[f64], solver: f64) -> Result<crate::Checked, String> {
                let solved =
                    validate_primal(&self.0, x, solver, 0, ApplicationReturnStatus::SolveSucceeded, 0.0, 0.0, AcOpfRecovery::default())?;
                let r = solved.residuals;
                let outputs = [solved.p_injection, solved.q_injection, solved.p_from, solved.q_from, solved.p_to, solved.q_to];
                Ok(crate::Checked {
                    outputs: outputs.concat(),
                    objective: solved.objective,
                    residuals: [
                        r.active_balance,
                        r.reactive_balance,
                        r.variable_bounds,
                        r.reference_angles,
                        r.angle_limits,
                        r.thermal_limits,
                        r.piecewise_epigraph,
                        r.objective,
                    ],
                })
            }
        }
    }
}

/// What `validate_primal` answers, in document 01's order of outputs.
pub struct Checked {
    pub outputs: Vec<f64>,
    pub objective: f64,
    pub residuals: [f64; 8],
}

/// A model file and the lists beside it.
pub struct File {
    pub words: Vec<u32>,
    pub constants: Vec<f64>,
    pub lower: Vec<f64>,
    pub upper: Vec<f64>,
    pub start: Vec<f64>,
    pub row_lower: Vec<f64>,
    pub row_upper: Vec<f64>,
    pub objective: f64,
}

impl Model {
    pub fn columns(&self) -> usize {
        self.parts().x_l.len()
    }

    pub fn file(&self) -> File {
        let parts = self.parts();
        let (words, constants) = standin::pounce::model_file(parts);
        File {
            words,
            constants,
            lower: parts.x_l.clone(),
            upper: parts.x_u.clone(),
            start: parts.x0.clone(),
            row_lower: parts.g_l.clone(),
            row_upper: parts.g_u.clone(),
            objective: parts.obj_constant,
        }
    }
}

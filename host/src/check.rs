//! The check: whether a solver's point is accepted.

use std::fmt;

use crate::boundary::validate as boundary;
use crate::{Kind, Refusal};

/// What the check works out at a point, injections by bus and flows by branch.
///
/// ```
/// # use fervoulk::{check, Tolerances};
/// # let words = [0x10000001, 0x20000001, 0x30001000, 0x50000000];
/// # let numbers = [1.0, 0.25, 0.0, 0.0, 0.9, 1.1, 0.0, 1.0, 0.0, 2.0, -1.0, 1.0, 2.0, 3.0, 4.0, 1.0, 0.25];
/// let accepted = check(&words, &numbers, &[0.0, 1.0, 1.0, 0.25], 8.0, &Tolerances::default()).expect("Depot M's start is accepted");
/// assert_eq!(accepted.outputs.p_injection, [0.0]);
/// assert!(accepted.outputs.p_from.is_empty(), "Depot M has no branch");
/// ```
#[derive(Clone, Debug, PartialEq)]
pub struct Outputs {
    pub p_injection: Vec<f64>,
    pub q_injection: Vec<f64>,
    pub p_from: Vec<f64>,
    pub q_from: Vec<f64>,
    pub p_to: Vec<f64>,
    pub q_to: Vec<f64>,
}

/// The eight residuals. Refusal 16's place counts them from 1 in this order.
///
/// ```
/// # use fervoulk::{check, Tolerances};
/// # let words = [0x10000001, 0x20000001, 0x30001000, 0x50000000];
/// # let numbers = [1.0, 0.25, 0.0, 0.0, 0.9, 1.1, 0.0, 1.0, 0.0, 2.0, -1.0, 1.0, 2.0, 3.0, 4.0, 1.0, 0.25];
/// // half a unit too much is generated
/// let refused = check(&words, &numbers, &[0.0, 1.0, 1.5, 0.25], 10.75, &Tolerances::default()).expect_err("the balance is off");
/// assert_eq!(refused.residuals.expect("refusal 16").active_balance, 0.5);
/// ```
#[derive(Clone, Copy, Debug, PartialEq)]
pub struct Residuals {
    pub active_balance: f64,
    pub reactive_balance: f64,
    pub variable_bounds: f64,
    pub reference_angles: f64,
    pub angle_limits: f64,
    pub thermal_limits: f64,
    pub piecewise_epigraph: f64,
    /// The difference of the two objectives over max(1, absolute objective).
    pub objective: f64,
}

/// How far each residual may be off; one equal to its tolerance passes. A tolerance that is not finite or below 0 is refusal 20, whose
/// place counts them from 1 in this order. By default all eight are 1e-6, as in the Rust.
///
/// ```
/// use fervoulk::{check, Tolerances};
/// # let words = [0x10000001, 0x20000001, 0x30001000, 0x50000000];
/// # let numbers = [1.0, 0.25, 0.0, 0.0, 0.9, 1.1, 0.0, 1.0, 0.0, 2.0, -1.0, 1.0, 2.0, 3.0, 4.0, 1.0, 0.25];
/// let point = [0.0, 1.0, 1.0, 0.25];
/// // a carrier that asks less of the objective and more of the balances
/// let own = Tolerances { active_balance: 1e-8, reactive_balance: 1e-8, objective: 1e-4, ..Tolerances::default() };
/// assert!(check(&words, &numbers, &point, 8.0001, &own).is_ok());
/// assert_eq!(check(&words, &numbers, &point, 8.0001, &Tolerances::default()).unwrap_err().to_string(), "16 residual 8");
/// let wrong = Tolerances { thermal_limits: -1e-6, ..own };
/// assert_eq!(check(&words, &numbers, &point, 8.0001, &wrong).unwrap_err().to_string(), "20 tolerance 6");
/// ```
#[derive(Clone, Copy, Debug, PartialEq)]
pub struct Tolerances {
    pub active_balance: f64,
    pub reactive_balance: f64,
    pub variable_bounds: f64,
    pub reference_angles: f64,
    pub angle_limits: f64,
    pub thermal_limits: f64,
    pub piecewise_epigraph: f64,
    /// Of the difference of the two objectives over max(1, absolute objective).
    pub objective: f64,
}

impl Tolerances {
    /// The Rust's tolerance for every residual, PRIMAL_TOLERANCE.
    pub const PRIMAL: f64 = 1e-6;

    /// The list that is lent, in the residuals' order.
    fn list(&self) -> [f64; 8] {
        [
            self.active_balance,
            self.reactive_balance,
            self.variable_bounds,
            self.reference_angles,
            self.angle_limits,
            self.thermal_limits,
            self.piecewise_epigraph,
            self.objective,
        ]
    }
}

impl Default for Tolerances {
    fn default() -> Tolerances {
        Tolerances {
            active_balance: Tolerances::PRIMAL,
            reactive_balance: Tolerances::PRIMAL,
            variable_bounds: Tolerances::PRIMAL,
            reference_angles: Tolerances::PRIMAL,
            angle_limits: Tolerances::PRIMAL,
            thermal_limits: Tolerances::PRIMAL,
            piecewise_epigraph: Tolerances::PRIMAL,
            objective: Tolerances::PRIMAL,
        }
    }
}

/// What the check gives for an accepted point.
///
/// ```
/// # use fervoulk::{check, Tolerances};
/// # let words = [0x10000001, 0x20000001, 0x30001000, 0x50000000];
/// # let numbers = [1.0, 0.25, 0.0, 0.0, 0.9, 1.1, 0.0, 1.0, 0.0, 2.0, -1.0, 1.0, 2.0, 3.0, 4.0, 1.0, 0.25];
/// let accepted = check(&words, &numbers, &[0.0, 1.0, 1.0, 0.25], 8.0, &Tolerances::default()).expect("Depot M's start is accepted");
/// assert_eq!(accepted.objective, 8.0);
/// assert_eq!(accepted.residuals.objective, 0.0);
/// ```
#[derive(Clone, Debug, PartialEq)]
pub struct Accepted {
    pub outputs: Outputs,
    /// The check's own objective, worked out from the point.
    pub objective: f64,
    pub residuals: Residuals,
}

/// Why a point is not accepted. It is shown as its refusal.
///
/// ```
/// # use fervoulk::{check, Kind, Refusal, Tolerances};
/// # let words = [0x10000001, 0x20000001, 0x30001000, 0x50000000];
/// # let numbers = [1.0, 0.25, 0.0, 0.0, 0.9, 1.1, 0.0, 1.0, 0.0, 2.0, -1.0, 1.0, 2.0, 3.0, 4.0, 1.0, 0.25];
/// let refused = check(&words, &numbers, &[0.0, 1.0, 1.0], 8.0, &Tolerances::default()).expect_err("a number is missing");
/// assert_eq!(refused.refusal, Refusal::new(Kind::Point, 4));
/// assert_eq!(refused.residuals, None);
/// ```
#[derive(Clone, Copy, Debug, PartialEq)]
pub struct Refused {
    /// One of 1 to 16 and 20, 12 never among them.
    pub refusal: Refusal,
    /// There are residuals with refusal 16 alone.
    pub residuals: Option<Residuals>,
}

impl fmt::Display for Refused {
    fn fmt(&self, f: &mut fmt::Formatter<'_>) -> fmt::Result {
        self.refusal.fmt(f)
    }
}

impl std::error::Error for Refused {}

/// Checks a point, a value for each column, and the solver's objective for it, each residual against its own tolerance. Only `Ok` means
/// that the point may be used.
///
/// The check runs twice: once for the verdict and the outputs, once for the residuals and the objective.
///
/// ```
/// use fervoulk::{check, Tolerances};
/// // Depot M
/// let words = [0x10000001, 0x20000001, 0x30001000, 0x50000000];
/// let numbers = [1.0, 0.25, 0.0, 0.0, 0.9, 1.1, 0.0, 1.0, 0.0, 2.0, -1.0, 1.0, 2.0, 3.0, 4.0, 1.0, 0.25];
/// // its columns: va, vm, pg, qg
/// let point = [0.0, 1.0, 1.0, 0.25];
/// match check(&words, &numbers, &point, 8.0, &Tolerances::default()) {
///     Ok(accepted) => assert_eq!(accepted.objective, 8.0),
///     Err(refused) => panic!("refused: {refused}"),
/// }
/// let refused = check(&words, &numbers, &point, f64::INFINITY, &Tolerances::default()).unwrap_err();
/// assert_eq!(refused.to_string(), "15 derived 2");
/// ```
#[must_use = "only an accepted point may be used"]
pub fn check(words: &[u32], numbers: &[f64], point: &[f64], solver_objective: f64, tolerances: &Tolerances) -> Result<Accepted, Refused> {
    let mut outputs = vec![0.0; boundary::fervoulk_outputs(words, numbers)];
    match Refusal::of(boundary::fervoulk_check(words, numbers, point, solver_objective, &tolerances.list(), &mut outputs)) {
        None => {
            // The check has refused nothing, and so nothing is refused here.
            let (residuals, objective) = measured(words, numbers, point, solver_objective)?;
            Ok(Accepted { outputs: taken_apart(&outputs, buses(words)), objective, residuals })
        }
        Some(refusal) => {
            let residuals = match refusal.kind() {
                Some(Kind::Residual) => measured(words, numbers, point, solver_objective).ok().map(|(residuals, _)| residuals),
                _ => None,
            };
            Err(Refused { refusal, residuals })
        }
    }
}

// the residuals and the objective of a point that 1 to 15 do not refuse
fn measured(words: &[u32], numbers: &[f64], point: &[f64], solver_objective: f64) -> Result<(Residuals, f64), Refused> {
    let mut report = [0.0; 9];
    if let Some(refusal) = Refusal::of(boundary::fervoulk_residuals(words, numbers, point, solver_objective, &mut report)) {
        return Err(Refused { refusal, residuals: None });
    }
    let [active_balance, reactive_balance, variable_bounds, reference_angles, angle_limits, thermal_limits, epigraph, difference, own] =
        report;
    let residuals = Residuals {
        active_balance,
        reactive_balance,
        variable_bounds,
        reference_angles,
        angle_limits,
        thermal_limits,
        piecewise_epigraph: epigraph,
        objective: difference,
    };
    Ok((residuals, own))
}

// how many bus words there are
fn buses(words: &[u32]) -> usize {
    words.iter().filter(|&&word| word >> 28 == 2).count()
}

// the six lists that stand one after the other: two for n buses, four for the branches
fn taken_apart(outputs: &[f64], n: usize) -> Outputs {
    let m = (outputs.len() - 2 * n) / 4;
    let part = |start: usize, length: usize| outputs[start..start + length].to_vec();
    Outputs {
        p_injection: part(0, n),
        q_injection: part(n, n),
        p_from: part(2 * n, m),
        q_from: part(2 * n + m, m),
        p_to: part(2 * n + 2 * m, m),
        q_to: part(2 * n + 3 * m, m),
    }
}

#[cfg(test)]
mod tests {
    use super::*;

    #[test]
    fn tolerances_in_the_residuals_order() {
        let own = Tolerances {
            active_balance: 1.0,
            reactive_balance: 2.0,
            variable_bounds: 3.0,
            reference_angles: 4.0,
            angle_limits: 5.0,
            thermal_limits: 6.0,
            piecewise_epigraph: 7.0,
            objective: 8.0,
        };
        assert_eq!(own.list(), [1.0, 2.0, 3.0, 4.0, 5.0, 6.0, 7.0, 8.0]);
        assert_eq!(Tolerances::default().list(), [1e-6; 8]);
    }

    #[test]
    fn six_lists_one_after_the_other() {
        let numbers: Vec<f64> = (0..10).map(f64::from).collect();
        let outputs = taken_apart(&numbers, 1);
        assert_eq!(outputs.p_injection, [0.0]);
        assert_eq!(outputs.q_injection, [1.0]);
        assert_eq!(outputs.p_from, [2.0, 3.0]);
        assert_eq!(outputs.q_from, [4.0, 5.0]);
        assert_eq!(outputs.p_to, [6.0, 7.0]);
        assert_eq!(outputs.q_to, [8.0, 9.0]);
    }
}

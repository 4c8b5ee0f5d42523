//! Lists of tolerances (document 02, request (c)): of a carrier's own, at a residual and beside it, and wrong ones.

use crate::networks::NON_FINITE;
use crate::random::Random;
use crate::rules;
use oracle::{Refusal, TOLERANCE};

/// As the text has it.
pub const PRIMAL: [f64; 8] = [TOLERANCE; 8];

/// A list to lend, and what it is, for the table.
pub struct List {
    pub tolerances: Vec<f64>,
    pub what: String,
}

/// The answer with these tolerances, from the text's, which has 1e-6 for all: the network's refusals and 12 come before 20, and where
/// neither 20 nor 13 to 15 refuse, the residuals alone decide.
pub fn refusal(primal: Refusal, residuals: Option<&[f64; 8]>, tolerances: &[f64]) -> Refusal {
    if (1..=12).contains(&primal.0) {
        return primal;
    }
    match (rules::tolerance(tolerances), primal.0, residuals) {
        (Some(wrong), _, _) => wrong,
        (None, 0 | 16, Some(residuals)) => {
            let above = residuals.iter().zip(tolerances).position(|(residual, tolerance)| residual > tolerance);
            above.map_or((0, 0), |i| (16, i + 1))
        }
        _ => primal,
    }
}

/// One list of any right tolerances; where there are residuals, three that hold one of them alone to itself and to its neighbours; in one
/// of four cases a wrong list.
pub fn lists(random: &mut Random, residuals: Option<&[f64; 8]>) -> Vec<List> {
    let mut all = vec![List { tolerances: any(random, residuals), what: "any".to_owned() }];
    if let Some(residuals) = residuals {
        let i = random.below(8);
        let at = residuals[i];
        for (side, tolerance) in [("at", at), ("one double above", at.next_up()), ("one double below", at.next_down())] {
            let mut tolerances = vec![f64::MAX; 8];
            tolerances[i] = tolerance;
            all.push(List { tolerances, what: format!("{side} residual {}", i + 1) });
        }
    }
    if random.chance(250) {
        all.push(List { tolerances: wrong(random), what: "wrong".to_owned() });
    }
    all
}

fn any(random: &mut Random, residuals: Option<&[f64; 8]>) -> Vec<f64> {
    let kind = random.below(4);
    let one = |i: usize| match kind {
        0 => 10f64.powf(random.between(-12.0, 0.0)),
        1 => random.one_of(&[0.0, -0.0, 5e-324, 1e-8, 1e-6, 1e-4, 1.0, f64::MAX]),
        2 => residuals.map_or(TOLERANCE, |residuals| random.one_of(&[residuals[i].min(f64::MAX), f64::MAX])),
        _ => [1e-8, 1e-8, 1e-6, 1e-6, 1e-6, 1e-6, 1e-6, 1e-4][i],
    };
    (0..8).map(one).collect()
}

fn wrong(random: &mut Random) -> Vec<f64> {
    if random.chance(400) {
        let tolerance = random.one_of(&[TOLERANCE, f64::NAN, -1.0]);
        return vec![tolerance; random.one_of(&[0, 1, 7, 9, 16])];
    }
    let mut tolerances = PRIMAL.to_vec();
    for _ in 0..random.whole(1, 2) {
        let non_finite = random.one_of(&NON_FINITE);
        tolerances[random.below(8)] = random.one_of(&[non_finite, -1.0, -5e-324, -1e-6, -f64::MAX]);
    }
    tolerances
}

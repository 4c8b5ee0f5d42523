//! Document 01's Depot M through `check`, `find_row` and `same`: the P cases, and empty lists.

mod depot;

use depot::{crossed, refusal, CONSTANTS, FILE, INACTIVE, NUMBERS, WORDS};
use fervoulk::{find_row, same, Accepted, Kind, Outputs, Refused, Residuals, Tolerances};

const POINT: [f64; 4] = [0.0, 1.0, 1.0, 0.25];

const NONE: Residuals = Residuals {
    active_balance: 0.0,
    reactive_balance: 0.0,
    variable_bounds: 0.0,
    reference_angles: 0.0,
    angle_limits: 0.0,
    thermal_limits: 0.0,
    piecewise_epigraph: 0.0,
    objective: 0.0,
};

type Answer = Result<Accepted, Refused>;

fn refused(kind: Kind, place: u32) -> Answer {
    Err(Refused { refusal: refusal(kind, place), residuals: None })
}

fn accepted(residuals: Residuals) -> Answer {
    let outputs = Outputs { p_injection: vec![0.0], q_injection: vec![0.0], p_from: vec![], q_from: vec![], p_to: vec![], q_to: vec![] };
    Ok(Accepted { outputs, objective: 8.0, residuals })
}

// ---- check

/// With the Rust's tolerances.
fn check(words: &[u32], numbers: &[f64], point: &[f64], solver_objective: f64) -> Answer {
    fervoulk::check(words, numbers, point, solver_objective, &Tolerances::default())
}

/// Document 02 (c): each residual has its own tolerance, and one that is not finite or below 0 is refused after the network and before the
/// point.
#[test]
fn tolerances() {
    let strong = [0.0, 1.0, 1.5, 0.25];
    let within = |tolerances: &Tolerances| fervoulk::check(&WORDS, &NUMBERS, &strong, 10.75, tolerances);
    let primal = Tolerances::default();
    let residuals = Residuals { active_balance: 0.5, ..NONE };
    let at = within(&Tolerances { active_balance: 0.5, ..primal }).expect("a residual equal to its tolerance");
    assert_eq!((at.objective, at.residuals), (10.75, residuals));
    let below = Tolerances { active_balance: 0.5f64.next_down(), ..primal };
    assert_eq!(within(&below), Err(Refused { refusal: refusal(Kind::Residual, 1), residuals: Some(residuals) }));
    for wrong in [f64::NAN, f64::INFINITY, f64::NEG_INFINITY, -1.0, -f64::from_bits(1)] {
        let own = Tolerances { reference_angles: wrong, objective: f64::NAN, ..primal };
        assert_eq!(fervoulk::check(&WORDS, &NUMBERS, &[], f64::NAN, &own), refused(Kind::Tolerance, 4));
        assert_eq!(fervoulk::check(&WORDS, &crossed(), &[], f64::NAN, &own), refused(Kind::Bounds, 2));
    }
    let zeros = Tolerances { active_balance: -0.0, objective: -0.0, ..primal };
    assert_eq!(fervoulk::check(&WORDS, &NUMBERS, &POINT, 8.0, &zeros), accepted(NONE));
}

#[test]
fn points() {
    assert_eq!(check(&WORDS, &NUMBERS, &POINT, 8.0), accepted(NONE));
    let at = accepted(Residuals { reference_angles: 1e-6, ..NONE });
    assert_eq!(check(&WORDS, &NUMBERS, &[1e-6, 1.0, 1.0, 0.25], 8.0), at);
    let next = f64::from_bits(1e-6f64.to_bits() + 1);
    let above = Err(Refused { refusal: refusal(Kind::Residual, 4), residuals: Some(Residuals { reference_angles: next, ..NONE }) });
    assert_eq!(check(&WORDS, &NUMBERS, &[next, 1.0, 1.0, 0.25], 8.0), above);
    let strong = Err(Refused { refusal: refusal(Kind::Residual, 1), residuals: Some(Residuals { active_balance: 0.5, ..NONE }) });
    assert_eq!(check(&WORDS, &NUMBERS, &[0.0, 1.0, 1.5, 0.25], 10.75), strong);
}

#[test]
fn check_refuses() {
    assert_eq!(check(&WORDS, &NUMBERS, &[0.0, 1.0, 1.0], 8.0), refused(Kind::Point, 4));
    assert_eq!(check(&WORDS, &NUMBERS, &POINT, f64::INFINITY), refused(Kind::Derived, 2));
    assert_eq!(check(&WORDS, &crossed(), &POINT, 8.0), refused(Kind::Bounds, 2));
    assert_eq!(check(&INACTIVE, &crossed(), &POINT, 8.0), accepted(NONE));
}

#[test]
fn more_buses_than_the_limit() {
    let mut words = vec![0x10000000];
    words.resize(258, 0x20000000);
    assert_eq!(check(&words, &[], &[], 0.0), refused(Kind::Size, 257));
}

/// Document 02 (b): nine points a curve, in five bits of a generator's word.
#[test]
fn more_points_than_the_limit() {
    for header in [0x10000000, 0x10000001] {
        for points in 0..32 {
            let answer = match points {
                1 => refused(Kind::Words, 3),
                0..=9 => refused(Kind::Count, 26 + 2 * points),
                _ => refused(Kind::Size, 3),
            };
            let words = [header, 0x20000000, 0x30000000, 0x30000000 | points << 13];
            assert_eq!(check(&words, &[], &[], 0.0), answer, "{points} points");
        }
    }
}

/// Two buses, and between them a branch that only has shunts at its ends: each flow is what its own end draws.
#[test]
fn outputs_by_bus_and_branch() {
    let words = [0x10000000, 0x20000000, 0x20000000, 0x30000000, 0x30000001, 0x40001000, 0x50000000];
    let numbers = [
        [1.0, 0.25, 0.0, 0.0, 0.9, 1.1, 0.0, 1.0].as_slice(),
        &[0.5, 0.125, 0.0, 0.0, 0.9, 1.1, 0.0, 1.0],
        &[0.0, 2.0, -1.0, 1.0, 0.0, 0.0, 0.0, 1.0, 0.0],
        &[0.0, 2.0, -1.0, 1.0, 0.0, 0.0, 0.0, 1.0, 0.0],
        &[0.0, 0.0, 0.25, 0.5, 0.125, 1.0, 1.0, 0.0, 0.0, 0.0, 0.0],
    ]
    .concat();
    let point = [0.0, 0.0, 1.0, 1.0, 1.25, 0.625, -0.25, -0.875];
    let expected = Outputs {
        p_injection: vec![0.25, 0.125],
        q_injection: vec![-0.5, -1.0],
        p_from: vec![0.25],
        q_from: vec![-0.5],
        p_to: vec![0.125],
        q_to: vec![-1.0],
    };
    let accepted = Ok(Accepted { outputs: expected, objective: 0.0, residuals: NONE });
    assert_eq!(check(&words, &numbers, &point, 0.0), accepted);
}

#[test]
fn empty_lists_of_the_check() {
    assert_eq!(check(&[], &NUMBERS, &POINT, 8.0), refused(Kind::Words, 0));
    assert_eq!(check(&WORDS, &[], &POINT, 8.0), refused(Kind::Count, 17));
    assert_eq!(check(&WORDS, &NUMBERS, &[], 8.0), refused(Kind::Point, 4));
    assert_eq!(check(&[], &[], &[], 8.0), refused(Kind::Words, 0));
}

// ---- the finder

#[test]
fn rows() {
    let row = find_row(&FILE, 6, 4, 2).expect("row 2");
    assert_eq!(row, [0x10000000]);
    assert!(std::ptr::eq(row.as_ptr(), &FILE[18]), "a part of the caller's words");
    assert_eq!(find_row(&FILE, 6, 4, 0), Ok(&FILE[4..10]));
    assert_eq!(find_row(&FILE, 6, 4, 3), Err(refusal(Kind::Row, 3)));
    assert_eq!(find_row(&FILE[..28], 6, 4, 2), Err(refusal(Kind::Model, 28)));
    assert_eq!(find_row(&[], 6, 4, 0), Err(refusal(Kind::Model, 0)));
}

#[test]
fn sameness() {
    assert!(same(&FILE, &CONSTANTS, &FILE, &CONSTANTS));
    assert!(same(&FILE, &CONSTANTS, &FILE, &[-1.0, 0.0, -0.25, 0.0, 1.0, 3.0]));
    assert!(!same(&FILE, &CONSTANTS, &FILE, &[-1.0, 0.0, -0.25, 0.0, 1.0, 4.0]));
    assert!(!same(&FILE, &CONSTANTS, &FILE[..28], &CONSTANTS));
    assert!(!same(&FILE, &[f64::NAN], &FILE, &[f64::NAN]));
    assert!(same(&[], &[], &[], &[]));
    assert!(!same(&FILE, &[], &[], &[]));
    assert!(!same(&[], &CONSTANTS, &[], &[]));
}

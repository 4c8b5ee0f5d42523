//! Stand-ins for the crates that the text uses. Fields and functions are those that
//! the text names, no more; none of them computes with the network's numbers, except
//! `num_complex`.

use alloc::{string::String, vec::Vec};
use core::fmt;

/// A number that names a row: errors then tell the index.
#[derive(Clone, Copy, Debug)]
pub struct Identity(pub usize);

impl fmt::Display for Identity {
    fn fmt(&self, f: &mut fmt::Formatter<'_>) -> fmt::Result {
        self.0.fmt(f)
    }
}

pub mod powerio {
    use super::*;

    pub enum LoadVoltageModel {
        ConstantPower,
        Other,
    }

    pub struct Storage {
        pub in_service: bool,
        pub uid: Option<String>,
    }

    pub struct Load {
        pub in_service: bool,
        pub voltage_model: Option<LoadVoltageModel>,
        pub uid: Option<String>,
    }

    pub struct Generator {
        pub in_service: bool,
        pub voltage_regulation_on: bool,
        pub regulated_bus: Option<usize>,
        pub bus: usize,
        pub uid: Option<String>,
    }

    pub struct Branch {
        pub angmin: f64,
        pub angmax: f64,
        pub rate_a: f64,
    }

    /// The source network: empty. The prepared tables are handed in instead.
    #[derive(Default)]
    pub struct Network {
        storage: Vec<Storage>,
        loads: Vec<Load>,
        generators: Vec<Generator>,
        branches: Vec<Branch>,
    }

    impl Network {
        pub fn validate(&self) -> Result<(), &'static str> {
            Ok(())
        }
        pub fn is_normalized(&self) -> bool {
            false
        }
        pub fn storage(&self) -> &[Storage] {
            &self.storage
        }
        pub fn loads(&self) -> &[Load] {
            &self.loads
        }
        pub fn generators(&self) -> &[Generator] {
            &self.generators
        }
        pub fn branches(&self) -> &[Branch] {
            &self.branches
        }
    }
}

/// The checks on a source network, which document 01 leaves out.
pub mod refused {
    use super::*;
    use crate::standin::powerio::Network;

    pub enum HvdcLines {
        Reject,
    }

    pub fn validate_canonical_identity(_: &Network) -> Result<(), String> {
        Ok(())
    }
    pub fn reject_unfiltered_normalized_elements(_: &Network) -> Result<(), String> {
        Ok(())
    }
    pub fn reject_active_svcs(_: &Network) -> Result<(), String> {
        Ok(())
    }
    pub fn reject_unsupported_active_elements(_: &Network, _: HvdcLines) -> Result<(), String> {
        Ok(())
    }
}

pub mod powerio_matrix {
    use super::*;
    use crate::standin::powerio_prob::AcOpfInstance;

    #[derive(Clone, Copy, Debug, PartialEq, Eq)]
    pub enum Units {
        PerUnit,
    }

    #[derive(Clone, Copy, Debug, PartialEq, Eq)]
    pub enum PreparedObjective {
        NetworkGeneratorCost,
        Other,
    }

    #[derive(Clone, Debug)]
    pub struct PiecewiseLinearCost {
        pub power: Vec<f64>,
        pub value: Vec<f64>,
    }

    /// No source rows, so that the text's checks on them are not met.
    #[derive(Clone, Copy, Debug)]
    pub enum AnalysisBranchSource {
        Branch { row: usize },
        Other,
    }

    #[derive(Clone, Debug, Default)]
    pub struct Buses {
        pub p_d: Vec<f64>,
        pub q_d: Vec<f64>,
        pub g_s: Vec<f64>,
        pub b_s: Vec<f64>,
        pub vm_min: Vec<f64>,
        pub vm_max: Vec<f64>,
        pub initial_va: Vec<f64>,
        pub initial_vm: Vec<f64>,
        pub voltage_bound_active: Vec<bool>,
    }

    #[derive(Clone, Debug, Default)]
    pub struct Generators {
        pub bus_of_gen: Vec<usize>,
        pub capability_active: Vec<bool>,
        pub pmin: Vec<f64>,
        pub pmax: Vec<f64>,
        pub qmin: Vec<f64>,
        pub qmax: Vec<f64>,
        pub q: Vec<f64>,
        pub c: Vec<f64>,
        pub c0: Vec<f64>,
        pub pg: Vec<f64>,
        pub qg: Vec<f64>,
        pub piecewise_linear: Vec<Option<PiecewiseLinearCost>>,
        pub identities: Vec<Identity>,
    }

    #[derive(Clone, Debug, Default)]
    pub struct Branches {
        pub from_bus: Vec<usize>,
        pub to_bus: Vec<usize>,
        pub g: Vec<f64>,
        pub b: Vec<f64>,
        pub g_fr: Vec<f64>,
        pub b_fr: Vec<f64>,
        pub g_to: Vec<f64>,
        pub b_to: Vec<f64>,
        pub tap: Vec<f64>,
        pub shift: Vec<f64>,
        pub angle_min: Vec<f64>,
        pub angle_max: Vec<f64>,
        pub s_max: Vec<f64>,
        pub angle_bound_active: Vec<bool>,
        pub thermal_limit_active: Vec<bool>,
        pub identities: Vec<Identity>,
        pub analysis_sources: Vec<AnalysisBranchSource>,
    }

    #[derive(Clone, Debug)]
    pub struct AcOpfPreparation {
        pub n_buses: usize,
        pub bus_ids: Vec<Identity>,
        pub reference_buses: Vec<usize>,
        pub objective: PreparedObjective,
        pub buses: Buses,
        pub generators: Generators,
        pub branches: Branches,
    }

    impl AcOpfPreparation {
        pub fn n_generators(&self) -> usize {
            self.generators.bus_of_gen.len()
        }
        pub fn n_branches(&self) -> usize {
            self.branches.from_bus.len()
        }
        pub fn calc_vm_setpoints(&self) -> Vec<f64> {
            unreachable!("the instance has an initial point")
        }
    }

    #[derive(Default)]
    pub struct AcOpfAssemblyOptions;

    impl AcOpfAssemblyOptions {
        pub fn with_units(self, _: Units) -> Self {
            self
        }
        pub fn with_skip_zero_impedance(self, _: bool) -> Self {
            self
        }
        pub fn with_synthesize_unrated_limits(self, _: bool) -> Self {
            self
        }
        pub fn with_correct_angle_difference_bounds(self, _: bool) -> Self {
            self
        }
    }

    pub struct Code {
        pub code: &'static str,
    }

    #[derive(Debug)]
    pub struct PreparationError;

    impl PreparationError {
        pub fn code(&self) -> Code {
            Code { code: "" }
        }
    }

    impl fmt::Display for PreparationError {
        fn fmt(&self, f: &mut fmt::Formatter<'_>) -> fmt::Result {
            f.write_str("preparation")
        }
    }

    /// The tables handed in, as they are.
    pub fn build_ac_opf_preparation(instance: &AcOpfInstance, _: &AcOpfAssemblyOptions) -> Result<AcOpfPreparation, PreparationError> {
        Ok(instance.tables.clone())
    }
}

pub mod powerio_prob {
    use super::powerio::Network;
    use super::powerio_matrix::AcOpfPreparation;
    use super::Identity;

    pub struct Selector;

    impl Selector {
        pub fn selects(&self, _: &Identity) -> bool {
            false
        }
    }

    pub struct Constraints {
        pub thermal_limits: Selector,
    }

    pub struct AcOpfInstance {
        pub(crate) tables: AcOpfPreparation,
        network: Network,
        constraints: Constraints,
    }

    impl AcOpfInstance {
        pub(crate) fn new(tables: AcOpfPreparation) -> Self {
            Self { tables, network: Network::default(), constraints: Constraints { thermal_limits: Selector } }
        }
        pub fn network(&self) -> &Network {
            &self.network
        }
        pub fn constraints(&self) -> &Constraints {
            &self.constraints
        }
        /// Document 01's starts are the initial point's.
        pub fn initial_point(&self) -> Option<()> {
            Some(())
        }
    }
}

pub mod pounce {
    use super::*;
    use alloc::{boxed::Box, collections::BTreeMap};
    use core::sync::atomic::{AtomicUsize, Ordering};

    static CREATED: AtomicUsize = AtomicUsize::new(0);

    pub fn number_from_zero() {
        CREATED.store(0, Ordering::Relaxed);
    }

    /// A shared pointer that knows how many were made before it: the number of a
    /// shared part.
    #[derive(Debug)]
    pub struct Arc<T> {
        number: usize,
        value: alloc::sync::Arc<T>,
    }

    impl<T> Arc<T> {
        pub fn new(value: T) -> Self {
            Self { number: CREATED.fetch_add(1, Ordering::Relaxed), value: alloc::sync::Arc::new(value) }
        }
    }

    impl<T> Clone for Arc<T> {
        fn clone(&self) -> Self {
            Self { number: self.number, value: self.value.clone() }
        }
    }

    #[derive(Clone, Copy, Debug)]
    pub enum BinOp {
        Add,
        Sub,
        Mul,
        Pow,
    }

    #[derive(Clone, Copy, Debug)]
    pub enum UnaryOp {
        Cos,
        Sin,
    }

    #[derive(Clone, Debug)]
    pub enum Expr {
        Const(f64),
        Var(usize),
        Binary(BinOp, Box<Expr>, Box<Expr>),
        Unary(UnaryOp, Box<Expr>),
        Sum(Vec<Expr>),
        Cse(Arc<Expr>),
    }

    #[derive(Clone, Debug)]
    pub struct NlProblemParts {
        pub minimize: bool,
        pub objective: Expr,
        pub obj_constant: f64,
        pub constraints: Vec<Expr>,
        pub x_l: Vec<f64>,
        pub x_u: Vec<f64>,
        pub x0: Vec<f64>,
        pub g_l: Vec<f64>,
        pub g_u: Vec<f64>,
        pub var_names: Vec<String>,
        pub con_names: Vec<String>,
    }

    #[derive(Clone, Debug)]
    pub struct NlProblem {
        pub n: usize,
        pub x_l: Vec<f64>,
        pub x_u: Vec<f64>,
        pub parts: NlProblemParts,
    }

    impl NlProblem {
        /// The parts as they are: document 01 leaves the original out.
        pub fn from_expressions(parts: NlProblemParts) -> Result<Self, String> {
            Ok(Self { n: parts.x_l.len(), x_l: parts.x_l.clone(), x_u: parts.x_u.clone(), parts })
        }
    }

    pub struct NlTnlp;

    impl NlTnlp {
        pub fn try_new(_: NlProblem) -> Result<Self, String> {
            Ok(Self)
        }
    }

    #[derive(Clone, Copy, Debug)]
    pub enum ApplicationReturnStatus {
        SolveSucceeded,
    }

    /// Document 01's model file of these parts.
    pub fn model_file(parts: &NlProblemParts) -> (Vec<u32>, Vec<f64>) {
        let mut shared = BTreeMap::new();
        for row in &parts.constraints {
            collect(row, &mut shared);
        }
        collect(&parts.objective, &mut shared);
        // Each part made is used, so that the numbers found have no gap.
        assert!(shared.keys().copied().eq(0..CREATED.load(Ordering::Relaxed)));

        let mut file = Writer::default();
        for (number, part) in &shared {
            file.word(10, *number);
            file.expression(part);
        }
        for (number, row) in parts.constraints.iter().enumerate() {
            file.word(11, number);
            file.expression(row);
        }
        file.word(12, 0);
        file.expression(&parts.objective);
        file.word(13, 0);
        (file.words, file.constants)
    }

    fn collect<'a>(expression: &'a Expr, shared: &mut BTreeMap<usize, &'a Expr>) {
        match expression {
            Expr::Const(_) | Expr::Var(_) => {}
            Expr::Binary(_, a, b) => {
                collect(a, shared);
                collect(b, shared);
            }
            Expr::Unary(_, a) => collect(a, shared),
            Expr::Sum(terms) => terms.iter().for_each(|term| collect(term, shared)),
            Expr::Cse(part) => {
                if shared.insert(part.number, &part.value).is_none() {
                    collect(&part.value, shared);
                }
            }
        }
    }

    #[derive(Default)]
    struct Writer {
        words: Vec<u32>,
        constants: Vec<f64>,
    }

    impl Writer {
        fn word(&mut self, kind: u32, load: usize) {
            assert!(load < 1 << 28);
            self.words.push(kind << 28 | load as u32);
        }

        fn expression(&mut self, expression: &Expr) {
            match expression {
                Expr::Const(value) => {
                    self.word(0, self.constants.len());
                    self.constants.push(*value);
                }
                Expr::Var(column) => self.word(1, *column),
                Expr::Cse(part) => self.word(2, part.number),
                Expr::Binary(BinOp::Add, a, b) => self.two(3, a, b),
                Expr::Binary(BinOp::Sub, a, b) => self.two(4, a, b),
                Expr::Binary(BinOp::Mul, a, b) => self.two(5, a, b),
                Expr::Binary(BinOp::Pow, a, power) => {
                    // The power's 2 is no constant of the file.
                    assert!(matches!(**power, Expr::Const(value) if value == 2.0));
                    self.one(6, a);
                }
                Expr::Unary(UnaryOp::Cos, a) => self.one(7, a),
                Expr::Unary(UnaryOp::Sin, a) => self.one(8, a),
                Expr::Sum(terms) => {
                    self.word(9, terms.len());
                    terms.iter().for_each(|term| self.expression(term));
                }
            }
        }

        fn one(&mut self, kind: u32, a: &Expr) {
            self.word(kind, 0);
            self.expression(a);
        }

        fn two(&mut self, kind: u32, a: &Expr, b: &Expr) {
            self.word(kind, 0);
            self.expression(a);
            self.expression(b);
        }
    }
}

/// Fingerprints are left out by document 01: no bytes, no digest.
pub mod serde_json {
    use super::*;

    pub fn to_vec<T>(_: &T) -> Result<Vec<u8>, fmt::Error> {
        Ok(Vec::new())
    }
}

pub mod sha2 {
    pub struct Sha256;

    impl Sha256 {
        pub fn new() -> Self {
            Self
        }
        pub fn update(&mut self, _: impl AsRef<[u8]>) {}
        pub fn finalize(self) -> [u8; 0] {
            []
        }
    }
}

/// Document 01's operators, spelled out. num-complex 0.4.0 (Debian's
/// librust-num-complex-dev) has the same operations in the same order.
pub mod num_complex {
    use crate::Elementary;
    use core::ops::{Add, Div, Mul, Sub};

    #[derive(Clone, Copy)]
    pub struct Complex64 {
        pub re: f64,
        pub im: f64,
    }

    impl Complex64 {
        pub fn new(re: f64, im: f64) -> Self {
            Self { re, im }
        }
        pub fn from_polar(r: f64, t: f64) -> Self {
            Self::new(r * t.cos(), r * t.sin())
        }
        pub fn conj(&self) -> Self {
            Self::new(self.re, -self.im)
        }
        pub fn norm_sqr(&self) -> f64 {
            self.re * self.re + self.im * self.im
        }
    }

    impl Add for Complex64 {
        type Output = Self;
        fn add(self, w: Self) -> Self {
            Self::new(self.re + w.re, self.im + w.im)
        }
    }

    impl Sub for Complex64 {
        type Output = Self;
        fn sub(self, w: Self) -> Self {
            Self::new(self.re - w.re, self.im - w.im)
        }
    }

    impl Mul for Complex64 {
        type Output = Self;
        fn mul(self, w: Self) -> Self {
            Self::new(self.re * w.re - self.im * w.im, self.re * w.im + self.im * w.re)
        }
    }

    impl Div for Complex64 {
        type Output = Self;
        fn div(self, w: Self) -> Self {
            let n = w.norm_sqr();
            Self::new((self.re * w.re + self.im * w.im) / n, (self.im * w.re - self.re * w.im) / n)
        }
    }

    impl Div<f64> for Complex64 {
        type Output = Self;
        fn div(self, d: f64) -> Self {
            Self::new(self.re / d, self.im / d)
        }
    }
}

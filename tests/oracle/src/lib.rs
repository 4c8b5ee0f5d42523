//! What document 01 says of a network and of a point, worked out from the original text's answers.
//!
//! 7 to 10 come from the name in the text's error; 11 from the constants, objective constant and starts that it built (the text itself
//! goes on); 13, 15 and 16 from its error, the place from the point, from its outputs or from its residuals; 14, which the text does
//! not have, from the point. 1 to 6 and 12 are not here: the text has none of them.

pub const TOLERANCE: f64 = 1.0e-6;
pub const SWING: f64 = 1024.0;

/// A refusal's number and place.
pub type Refusal = (u32, usize);

pub enum Network {
    /// The words or the length of the numbers are not a network file's.
    Form,
    /// The text's error.
    Error {
        message: String,
        refusal: Refusal,
    },
    Compiled(Compiled),
}

pub struct Compiled {
    model: oracle_text::Model,
    lifted: oracle_lifted::Model,
    pub file: oracle_text::File,
    /// The first non-finite constant, objective constant or start, in this order.
    pub factor: Option<usize>,
    pub buses: usize,
    pub branches: usize,
}

pub fn network(words: &[u32], numbers: &[f64]) -> Network {
    let (Some(instance), Some(lifted)) = (oracle_text::network(words, numbers), oracle_lifted::network(words, numbers)) else {
        return Network::Form;
    };
    let count = |kind| words.iter().filter(|&&word| word >> 28 == kind).count();
    let (n, k, m) = (count(2), count(3), count(4));
    let model = match oracle_text::compile(&instance) {
        Ok(model) => model,
        Err(message) => {
            let refusal = refused_network(&message, n, k);
            return Network::Error { message, refusal };
        }
    };
    let file = model.file();
    let factors = file.constants.iter().chain([&file.objective]);
    let factor = factors.chain(&file.start).position(|v| !v.is_finite());
    let lifted = oracle_lifted::compile(&lifted).expect("compiled above");
    Network::Compiled(Compiled { model, lifted, file, factor, buses: n, branches: m })
}

pub struct Point {
    /// The text's error, without the decimals of a failed validation.
    pub error: Option<String>,
    /// Of a point refused with 15 or 16, from the lifted copy; none with 13.
    pub answer: Option<Answer>,
    pub refusal: Option<Refusal>,
}

pub struct Answer {
    pub outputs: Vec<f64>,
    pub objective: f64,
    pub residuals: [f64; 8],
}

impl Compiled {
    pub fn columns(&self) -> usize {
        self.model.columns()
    }

    /// Outputs, objective and residuals, whatever they are; nothing where the point has a wrong length or is not finite.
    pub fn outcome(&self, x: &[f64], solver: f64) -> Option<Answer> {
        self.lifted.check(x, solver).ok().map(|lifted| Answer {
            outputs: lifted.outputs,
            objective: lifted.objective,
            residuals: lifted.residuals,
        })
    }

    pub fn point(&self, x: &[f64], solver: f64) -> Point {
        let n = self.buses;
        let message = match self.model.check(x, solver) {
            Ok(checked) => {
                return Point {
                    error: None,
                    answer: Some(Answer { outputs: checked.outputs, objective: checked.objective, residuals: checked.residuals }),
                    refusal: swing(x, n).map(|column| (14, column)),
                }
            }
            Err(message) => message,
        };
        // The error tells residuals in decimals; those of the copy have the bits.
        let kind = message.split(" (max").next().unwrap_or(&message).to_owned();
        let Some(lifted) = self.outcome(x, solver) else {
            assert!(message.contains("wrong-length"));
            let place = if x.len() == self.columns() { x.iter().position(|v| !v.is_finite()).expect("a column") } else { self.columns() };
            return Point { error: Some(kind), answer: None, refusal: Some((13, place)) };
        };
        let refusal = if let Some(column) = swing(x, n) {
            (14, column)
        } else if message.contains("non-finite independently") {
            assert_eq!(lifted.outputs.len(), 2 * n + 4 * self.branches);
            let values = lifted.outputs.iter().chain([&solver, &lifted.objective]);
            let place = values.into_iter().position(|v| !v.is_finite());
            (15, place.expect("a non-finite value"))
        } else {
            assert!(message.contains("validation failed"));
            let above = lifted.residuals.iter().position(|&r| r > TOLERANCE);
            (16, above.expect("a residual above its tolerance") + 1)
        };
        Point { error: Some(kind), answer: Some(lifted), refusal: Some(refusal) }
    }
}

fn swing(x: &[f64], n: usize) -> Option<usize> {
    x[..n].iter().position(|va| !(-SWING..=SWING).contains(va))
}

/// The harness names buses, generators and branches by their index.
fn refused_network(message: &str, n: usize, k: usize) -> Refusal {
    let (kind, rest) = message.split_once('[').expect("a name");
    let (index, rest) = rest.split_once(']').expect("an index");
    let index: usize = index.parse().expect("an index");
    match (kind, rest.contains("overflows when squared")) {
        ("vm", false) => (7, n + index),
        ("pg", false) => (7, 2 * n + index),
        ("qg", false) => (7, 2 * n + k + index),
        ("angle_difference", false) => (8, index),
        ("thermal_limit", false) => (9, index),
        ("thermal_limit", true) => (10, index),
        _ => panic!("unknown error: {message}"),
    }
}

//! Row values at a point, read from documents 01 and 02: the values of a model file's shared parts, rows and objective, or the refusal.
//!
//! The file is read by reader.rs, and an expression is worked out from its last word to its first with a list of values: there an operator
//! finds its operands at the list's end, the first one last. The port reads and works out by recursion, from the first word on.

use crate::reader::{self, split, Part, Reading};
use oracle::Refusal;

/// "more than 4,352 shared parts are refused as size"
pub const MOST_SHARED: usize = 4352;

/// "outside -4,096 to 4,096"
const WIDEST: f64 = 4096.0;

/// A refusal has no values, and an objective of 0.
#[derive(Default)]
pub struct Values {
    pub refusal: Refusal,
    pub objective: f64,
    pub shared: Vec<f64>,
    pub rows: Vec<f64>,
}

/// "A file is read under 17, then more than 4,352 shared parts are refused as size (place: the first beginning word too many)"
pub fn parts(words: &[u32], constants: usize, columns: usize) -> Result<Reading, Refusal> {
    let reading = reader::read(words, constants, columns).map_err(|place| (17, place))?;
    match reading.shared.get(MOST_SHARED) {
        Some(part) => Err((2, part.begins())),
        None => Ok(reading),
    }
}

/// `lent` has the lengths of the lists for shared values and for row values.
pub fn row_values(words: &[u32], constants: &[f64], columns: usize, point: &[f64], lent: [usize; 2]) -> Values {
    let reading = match parts(words, constants.len(), columns) {
        Ok(reading) => reading,
        Err(refusal) => return Values { refusal, ..Values::default() },
    };
    let refusal = short(&reading, lent).or_else(|| wrong_point(columns, point));
    let file = File { words, constants, point };
    match refusal.map_or_else(|| file.values(&reading), Err) {
        Ok(values) => values,
        Err(refusal) => Values { refusal, ..Values::default() },
    }
}

/// "Shared values and row values go to two lent lists, counted in that order for 12"
fn short(reading: &Reading, lent: [usize; 2]) -> Option<Refusal> {
    let needed = [reading.shared.len(), reading.rows.len()];
    (0..2).find(|&list| lent[list] < needed[list]).map(|list| (12, list + 1))
}

/// "wrong length (place: columns), else first non-finite column"
fn wrong_point(columns: usize, point: &[f64]) -> Option<Refusal> {
    if point.len() != columns {
        return Some((13, columns));
    }
    point.iter().position(|x| !x.is_finite()).map(|column| (13, column))
}

struct File<'a> {
    words: &'a [u32],
    constants: &'a [f64],
    point: &'a [f64],
}

impl File<'_> {
    /// "14 and 19 come in file order, 14 first within one part, with its beginning word as the place"
    fn values(&self, reading: &Reading) -> Result<Values, Refusal> {
        let (mut shared, mut rows) = (Vec::new(), Vec::new());
        for part in &reading.shared {
            let value = self.value(part, &shared)?;
            shared.push(value);
        }
        for part in &reading.rows {
            rows.push(self.value(part, &shared)?);
        }
        let objective = self.value(&reading.objective, &shared)?;
        Ok(Values { refusal: (0, 0), objective, shared, rows })
    }

    fn value(&self, part: &Part, shared: &[f64]) -> Result<f64, Refusal> {
        let mut values: Vec<f64> = Vec::new();
        let mut inside = true;
        for &word in self.words[part.start..part.start + part.length].iter().rev() {
            let (kind, load) = split(word);
            let mut next = || values.pop().expect("an operand");
            let value = match kind {
                0 => self.constants[load],
                1 => self.point[load],
                2 => shared[load],
                3 => next() + next(),
                4 => next() - next(),
                5 => next() * next(),
                // "a square is the operand times itself"
                6 => {
                    let operand = next();
                    operand * operand
                }
                7 | 8 => {
                    let argument = next();
                    // "a sine or cosine argument that is non-finite or outside"
                    inside &= argument.is_finite() && (-WIDEST..=WIDEST).contains(&argument);
                    if kind == 7 {
                        oracle_text::cos(argument)
                    } else {
                        oracle_text::sin(argument)
                    }
                }
                // "A sum runs left to right from its first term"
                9 => {
                    let first = next();
                    (1..load).fold(first, |sum, _| sum + next())
                }
                _ => unreachable!("reading lets no other kind stand here"),
            };
            values.push(value);
        }
        let value = values.pop().expect("a value");
        match (inside, value.is_finite()) {
            (false, _) => Err((14, part.begins())),
            (true, false) => Err((19, part.begins())),
            (true, true) => Ok(value),
        }
    }
}

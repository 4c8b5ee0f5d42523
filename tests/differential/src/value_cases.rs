//! Cases of row values: a model file that compile wrote, or another, with a point and the lengths of two lists; some spoilt.

use crate::model_files::{self, any_words, damage, File};
use crate::networks::{self, Manner, FINITE, NON_FINITE};
use crate::ours;
use crate::random::Random;
use crate::values::{self, Values, MOST_SHARED};
use oracle::Refusal;
use std::collections::BTreeSet;

/// The most rows that compile writes: two balances a bus, a reference, an angle and two thermal rows a branch, eight segments a curve.
pub const COMPILED_ROWS: usize = 2 * 256 + 256 + 3 * 512 + 8 * 256;

/// Where an argument of sine and cosine is at an end of its range, or next to it; differences of two of these too.
const ANGLES: [f64; 8] = [4096.0, -4096.0, 4096.000000000001, -4096.000000000001, 4095.9999999999995, 2048.0, -2048.0, -2048.0000000000005];

/// Chooses a constant.
type Constant = fn(&mut Random) -> f64;

pub struct Case {
    /// Compile wrote it, or another.
    pub compiled: bool,
    pub file: File,
    pub point: Vec<f64>,
    /// Lengths of the lists for shared values and row values.
    pub lent: [usize; 2],
}

impl Case {
    pub fn expected(&self) -> Values {
        let File { words, constants, columns } = &self.file;
        values::row_values(words, constants, *columns, &self.point, self.lent)
    }

    /// The answer with its kind of place.
    fn answer(&self, (number, place): Refusal) -> String {
        let words = &self.file.words;
        let part = || match words[place] >> 28 {
            10 => "shared part",
            11 => "row",
            _ => "objective",
        };
        match number {
            0 => "all values".to_owned(),
            12 => format!("12, list {place}"),
            13 if self.point.len() == self.file.columns => "13, a column".to_owned(),
            13 => "13, the length".to_owned(),
            14 | 19 => format!("{number}, {}", part()),
            17 if place == words.len() => "17, the words run out".to_owned(),
            17 if words[place] == 0xd000_0000 => "17, the end word".to_owned(),
            17 => "17, another word".to_owned(),
            _ => number.to_string(),
        }
    }

    /// What the case shows.
    pub fn features(&self, expected: &Values) -> Vec<String> {
        let (words, number) = (&self.file.words, expected.refusal.0);
        let mut features = vec![self.answer(expected.refusal)];
        if number == 17 && words.iter().filter(|&word| word >> 28 == 10).count() > MOST_SHARED {
            features.push("17, more than 4,352 shared parts".to_owned());
        }
        if number == 0 {
            let kinds: BTreeSet<u32> = words.iter().map(|word| word >> 28).filter(|kind| *kind < 10).collect();
            features.extend(kinds.iter().map(|kind| format!("all values, with kind {kind}")));
            let (shared, rows) = (expected.shared.len(), expected.rows.len());
            let mut when = |fact: bool, name: &str| {
                if fact {
                    features.push(format!("all values, {name}"));
                }
            };
            when(shared == MOST_SHARED, "4,352 shared parts");
            when(rows > COMPILED_ROWS, "more than 4,352 rows");
            when(self.lent[0] > shared || self.lent[1] > rows, "a list longer than needed");
            when(expected.shared.iter().chain(&expected.rows).any(|x| x.to_bits() == 1 << 63), "one of them -0");
        }
        features
    }
}

/// The case of this number.
pub fn case(seed: u64, number: u64) -> Case {
    let mut seeds = Random::new(seed ^ number.wrapping_mul(0xd134_2543_de82_ef95));
    let random = &mut Random::new(seeds.bits());
    let own = if random.chance(500) { compiled(random) } else { None };
    let compiled = own.is_some();
    let (mut file, mut point) = own.unwrap_or_else(|| foreign(random));
    if random.chance(300) {
        extremes(random, &mut point);
    }
    if random.chance(150) {
        for _ in 0..random.one_of(&[1, 1, 1, 2, 4]) {
            spoil(random, &mut file, &mut point);
        }
    }
    let lent = lengths(random, &file);
    Case { compiled, file, point, lent }
}

/// compile's file of a network, with a point; nothing where the network is refused.
fn compiled(random: &mut Random) -> Option<(File, Vec<f64>)> {
    let manner = Manner {
        special: random.one_of(&[0, 0, 0, 5, 50]),
        non_finite: 0,
        curves: random.one_of(&[0, 300, 1000]),
        active: random.one_of(&[0, 500, 1000]),
        points: random.one_of(&[2, 4, 9]),
    };
    let (sizes, costs) = (networks::sizes(random), random.chance(650));
    let net = networks::net(random, sizes, costs, manner);
    let (words, numbers) = (net.words(), net.numbers());
    let counts = ours::counts(&words, &numbers);
    if counts[0] == 0 {
        return None;
    }
    let list = |count| vec![0.0; count];
    let mut file = File { words: vec![0; counts[0]], constants: list(counts[1]), columns: counts[2] };
    let mut rest = [counts[2], counts[2], counts[2], counts[3], counts[3]].map(list);
    let [lower, upper, start, row_lower, row_upper] = rest.each_mut().map(|list| &mut list[..]);
    let lists = [&mut file.constants[..], lower, upper, start, row_lower, row_upper];
    assert_eq!(ours::compile(&words, &numbers, &mut file.words, lists), 0);
    let wide = random.chance(200);
    let point = networks::point(random, &net, wide);
    Some((file, point))
}

/// A file of another writer, with a point.
fn foreign(random: &mut Random) -> (File, Vec<f64>) {
    let columns = random.one_of(&[0, 1, 2, 4, 9]);
    let few = [random.one_of(&[0, 1, 2, 5]), random.one_of(&[0, 1, 2, 3, 6])];
    let constant: Constant = match random.below(6) {
        0 => any_constant,
        1 | 2 => rare_constant,
        _ => usual,
    };
    let file = match random.below(4000) {
        0..=100 => any_words(random),
        // An answer of all values is wanted here: no constant is large.
        101..=130 => {
            let shared = random.one_of(&[few[0], MOST_SHARED - 1, MOST_SHARED, MOST_SHARED, MOST_SHARED + 1, MOST_SHARED + 50]);
            let rows = random.one_of(&[few[1], COMPILED_ROWS - 1, COMPILED_ROWS, COMPILED_ROWS + 1, 9000]);
            let constant = random.one_of::<Constant>(&[unit, unit, usual, large_at_times]);
            model_files::written(random, columns, [shared, rows], constant)
        }
        _ => model_files::written(random, columns, few, constant),
    };
    let point = (0..file.columns).map(|_| usual(random)).collect();
    (file, point)
}

fn unit(random: &mut Random) -> f64 {
    random.between(-1.0, 1.0)
}

fn usual(random: &mut Random) -> f64 {
    match random.below(20) {
        0 => random.one_of(&[0.0, -0.0]),
        1 => random.one_of(&[5e-324, -5e-324, 1e-310]),
        _ => random.between(-3.0, 3.0),
    }
}

/// In a file of thousands of constants some are large or not finite.
fn large_at_times(random: &mut Random) -> f64 {
    match random.below(20_000) {
        0 => random.one_of(&NON_FINITE),
        1 => random.one_of(&FINITE),
        _ => usual(random),
    }
}

fn rare_constant(random: &mut Random) -> f64 {
    match random.below(20) {
        0 => random.one_of(&NON_FINITE),
        1..=3 => random.one_of(&FINITE),
        4..=6 => random.one_of(&ANGLES),
        _ => usual(random),
    }
}

fn any_constant(random: &mut Random) -> f64 {
    match random.below(3) {
        0 => random.one_of(&FINITE),
        1 => f64::from_bits(random.bits()),
        _ => rare_constant(random),
    }
}

/// Puts large numbers and the ends of angles into a point.
fn extremes(random: &mut Random, point: &mut [f64]) {
    for _ in 0..random.whole(1, 3) {
        if !point.is_empty() {
            let column = random.below(point.len());
            point[column] = match random.below(3) {
                0 => random.one_of(&FINITE),
                _ => random.one_of(&ANGLES),
            };
        }
    }
}

/// Makes words, constants, columns or point wrong, mostly.
fn spoil(random: &mut Random, file: &mut File, point: &mut Vec<f64>) {
    let constant = random.below(file.constants.len().max(1));
    let column = random.below(point.len().max(1));
    match random.below(16) {
        0..=5 => {
            damage(random, file);
            if file.columns < 64 && random.chance(500) {
                point.resize(file.columns, 0.5);
            }
        }
        6 => file.constants.push(0.5),
        7 if !file.constants.is_empty() => file.constants[constant] = f64::from_bits(random.bits()),
        8 | 9 if !file.constants.is_empty() => file.constants[constant] = random.one_of(&NON_FINITE),
        10 if !file.constants.is_empty() => file.constants[constant] = random.one_of(&FINITE),
        11 => {
            point.pop();
        }
        12 => point.push(random.one_of(&[0.0, f64::NAN])),
        13 => point.clear(),
        _ if !point.is_empty() => point[column] = random.one_of(&NON_FINITE),
        _ => {}
    }
}

/// As many numbers as needed, some more, or in some cases too few.
fn lengths(random: &mut Random, file: &File) -> [usize; 2] {
    let needed = match values::parts(&file.words, file.constants.len(), file.columns) {
        Ok(parts) => [parts.shared.len(), parts.rows.len()],
        Err(_) => [random.below(9), random.below(9)],
    };
    needed.map(|needed| match random.below(40) {
        0 => needed.saturating_sub(1),
        1 => random.below(needed + 1),
        2..=20 => needed + random.whole(1, 5),
        _ => needed,
    })
}

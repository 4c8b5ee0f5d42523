//! The original text over fdlibm and over the platform's sine, cosine and hypotenuse: how often they differ, and the smallest case of
//! each difference.
//!
//! platform N [SEED]

use differential::cases::{self, Case};
use differential::random;
use std::collections::BTreeMap;

fn bits(values: &[f64]) -> Vec<u64> {
    let one = |value: &f64| if value.is_nan() { f64::NAN } else { *value };
    values.iter().map(|value| one(value).to_bits()).collect()
}

/// What differs.
fn differences(case: &Case) -> Vec<&'static str> {
    let mut found = Vec::new();
    let (Some(a), Some(b)) = (oracle_text::network(&case.words, &case.numbers), oracle_platform::network(&case.words, &case.numbers))
    else {
        return found;
    };
    let (Ok(a), Ok(b)) = (oracle_text::compile(&a), oracle_platform::compile(&b)) else {
        return found;
    };
    found.push("models");
    if bits(&a.file().constants) != bits(&b.file().constants) {
        found.push("models with another constant");
    }
    match (a.check(&case.x, case.solver), b.check(&case.x, case.solver)) {
        (Ok(a), Ok(b)) => {
            found.push("points accepted");
            if bits(&a.outputs) != bits(&b.outputs) {
                found.push("points accepted with another output");
            }
            if bits(&a.residuals) != bits(&b.residuals) {
                found.push("points accepted with another residual");
            }
        }
        (Ok(_), Err(_)) => found.push("points accepted over fdlibm only"),
        (Err(_), Ok(_)) => found.push("points accepted over the platform's only"),
        _ => {}
    }
    found
}

fn main() {
    let (count, seed) = random::count_and_seed("platform N [SEED]");
    let mut tally: BTreeMap<&'static str, (u64, usize, u64)> = BTreeMap::new();
    for number in 0..count {
        let case = cases::case(seed, number);
        for difference in differences(&case) {
            let size = case.numbers.len();
            let entry = tally.entry(difference).or_insert((0, size, number));
            entry.0 += 1;
            if size < entry.1 {
                (entry.1, entry.2) = (size, number);
            }
        }
    }
    println!("{count} cases under seed {seed}, fdlibm's functions against the platform's");
    for (difference, (times, _, smallest)) in &tally {
        println!("- {difference}: {times} (smallest: case {smallest})");
    }
}

//! Model files of any writer, right and damaged: the finder and `same` against an independent reading of document 01.
//!
//! files N [SEED]

use differential::model_files::{self, any_words, damage, File};
use differential::random::{self, Random};
use differential::{cases, reader};
use fervoulk::boundary::nl;
use oracle::Network;
use std::collections::BTreeMap;

const VALUES: [f64; 10] = [0.0, -0.0, 1.0, -1.0, 0.5, 5e-324, f64::NAN, f64::INFINITY, f64::NEG_INFINITY, 1e308];

fn constant(random: &mut Random) -> f64 {
    if random.chance(500) {
        random.one_of(&VALUES)
    } else {
        f64::from_bits(random.bits())
    }
}

fn written(random: &mut Random) -> File {
    let columns = random.one_of(&[0, 1, 2, 4, 9]);
    let parts = [random.one_of(&[0, 1, 2, 5]), random.one_of(&[0, 1, 2, 3, 6])];
    model_files::written(random, columns, parts, constant)
}

/// The file that the original text's model has.
fn compiled(random: &mut Random) -> Option<File> {
    let case = cases::case(random.bits(), 0);
    if case.words.len() > 40 {
        return None;
    }
    match oracle::network(&case.words, &case.numbers) {
        Network::Compiled(compiled) => {
            Some(File { columns: compiled.columns(), words: compiled.file.words, constants: compiled.file.constants })
        }
        _ => None,
    }
}

fn file(random: &mut Random) -> File {
    let mut file = match random.below(20) {
        0 => any_words(random),
        1 | 2 => compiled(random).unwrap_or_else(|| written(random)),
        _ => written(random),
    };
    if random.chance(500) {
        for _ in 0..random.one_of(&[1, 1, 1, 2, 4]) {
            damage(random, &mut file);
        }
    }
    file
}

/// Number, place, start, length.
fn expected(file: &File, constants: usize, r: usize) -> (u64, usize, usize, usize) {
    match reader::read(&file.words, constants, file.columns) {
        Err(place) => (17, place, 0, 0),
        Ok(reading) => match reading.rows.get(r) {
            None => (18, reading.rows.len(), 0, 0),
            Some(part) => (0, 0, part.start, part.length),
        },
    }
}

fn found(file: &File, constants: usize, r: usize) -> (u64, usize, usize, usize) {
    let fault = nl::fervoulk_find_row(&file.words, constants, file.columns, r);
    let start = nl::fervoulk_row_start(&file.words, constants, file.columns, r);
    let part = nl::fervoulk_row_length(&file.words, constants, file.columns, r);
    (fault >> 32, (fault & 0xffff_ffff) as usize, start, part)
}

/// "Two models are the same exactly when words are equal and constants equal as numbers."
fn same_as_read(a: &File, b: &File) -> u32 {
    let numbers = a.constants.iter().zip(&b.constants).all(|(x, y)| x == y);
    (a.words == b.words && a.constants.len() == b.constants.len() && numbers) as u32
}

fn same(a: &File, b: &File) -> u32 {
    nl::fervoulk_same(&a.words, &a.constants, &b.words, &b.constants)
}

fn twin(random: &mut Random, a: &File) -> File {
    let mut b = a.clone();
    match random.below(6) {
        0 => {}
        1 => damage(random, &mut b),
        2 => b.constants.push(0.0),
        _ => {
            for constant in &mut b.constants {
                if *constant == 0.0 && random.chance(500) {
                    *constant = -*constant;
                }
                if random.chance(30) {
                    *constant = random.one_of(&VALUES);
                }
            }
        }
    }
    b
}

fn main() {
    let (count, seed) = random::count_and_seed("files N [SEED]");
    let mut random = Random::new(seed);
    let random = &mut random;
    let mut tally: BTreeMap<String, u64> = BTreeMap::new();
    let mut different = 0u64;
    for _ in 0..count {
        let file = file(random);
        let constants = match random.below(20) {
            0 => file.constants.len() + 1,
            1 => file.constants.len().saturating_sub(1),
            2 => random.one_of(&[0, usize::MAX, 1 << 28]),
            _ => file.constants.len(),
        };
        let r = match random.below(12) {
            0 => random.one_of(&[usize::MAX, 1 << 32, 1 << 28]),
            _ => random.below(5),
        };
        let (expected, found) = (expected(&file, constants, r), found(&file, constants, r));
        let name = match expected.0 {
            0 => "finder: the row's part".to_owned(),
            17 if expected.1 == file.words.len() => "finder: 17, the words run out".to_owned(),
            number => format!("finder: {number}"),
        };
        *tally.entry(name).or_default() += 1;
        let twin = twin(random, &file);
        let sameness = (same_as_read(&file, &twin), same(&file, &twin));
        *tally.entry(format!("same: {}", sameness.0)).or_default() += 1;
        if expected != found || sameness.0 != sameness.1 {
            different += 1;
            if different <= 10 {
                println!("DIFFERENT: finder {found:?} and not {expected:?}, same {} and not {}", sameness.1, sameness.0);
                println!("{constants} constants, {} columns, row {r}, words {:08x?}", file.columns, file.words);
                println!("constants {:x?} and {:x?}", file.constants, twin.constants);
            }
        }
    }
    println!("{count} files under seed {seed}; {different} with a difference");
    for (answer, count) in &tally {
        println!("- {answer}: {count}");
    }
    if different > 0 {
        std::process::exit(1);
    }
}

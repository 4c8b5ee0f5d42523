//! Chooses answers of the original text for coverage and writes them for crates/oracle_answers.
//!
//! store FILE [SEED]
//!
//! A feature is the answer with its kind of place, a size, a flag, a kind of tap or shift, a special number. Of many small cases those
//! are taken that show many pairs of features that fewer than two taken before them show, then those that show fewer, the smallest
//! first.
//!
//! A record, in 64-bit little-endian cells, floats by their bits: 0 its length in cells, 1 kind.
//! Kind 0, the check: 2 words, 3 numbers, 4 columns of the point, 5 length of the output list lent, 6 number, 7 place, 8 solver's
//! objective, 9 objective, 10 to 17 residuals, 18 tolerances, then the words, one a cell, the numbers, the point, the tolerances, and the
//! output list after the call. A third of the candidates has the text's tolerances; with others 16 is by the text's residuals, and 20 by
//! the paper.
//! Kind 1, compile: 2 words, 3 numbers, 4 number, 5 place, 6 to 10 the counts of words, constants, columns, rows and shared parts, 11
//! objective constant, then the words, one a cell, the numbers, and the fronts of the seven lists, of which the model words stand two
//! a cell.
//! Number lists are lent full of 5. No record lies across a multiple of 65,536 bytes: zeros fill the rest.

use differential::cases::{self, Case};
use differential::random::{self, Random};
use differential::rules;
use differential::tolerances::{self, List, PRIMAL};
use oracle::{Answer, Network, Refusal};
use oracle_text::File;
use std::collections::BTreeSet;

const CANDIDATES: u64 = 150_000;
/// So many answers of the check, of the check with other tolerances than the text's, and of compile.
const MOST: [usize; 3] = [330, 100, 170];
/// So many answers should show a pair of features.
const TIMES: u8 = 2;
const PRIMAL_LIST: &str = "primal";
const CHUNK: usize = 65_536 / 8;
const LENT: f64 = 5.0;
/// The room that the program has for words, numbers, a point and outputs, as much for tolerances; and for model words, constants, columns
/// and rows.
const ROOM: [usize; 4] = [32, 256, 256, 256];
const MODEL_ROOM: [usize; 4] = [1024, 256, 64, 128];

struct Stored {
    case: Case,
    tolerances: Vec<f64>,
    lent: usize,
    refusal: Refusal,
    answer: Option<Answer>,
    /// Where compile refuses nothing.
    file: Option<File>,
    /// None where the tolerances are not the text's.
    features: BTreeSet<String>,
    /// The list and the answer, where they are not.
    own: BTreeSet<String>,
    /// Those that compile sees.
    network: BTreeSet<String>,
}

fn stored(case: Case, number: u64) -> Option<Stored> {
    if rules::first_six(&case.words, &case.numbers).is_some() {
        return None;
    }
    let count = |kind| case.words.iter().filter(|&&word| word >> 28 == kind).count();
    let (n, k, m) = (count(2), count(3), count(4));
    let (refusal, answer, needed, file) = match oracle::network(&case.words, &case.numbers) {
        Network::Form => return None,
        Network::Error { refusal, .. } => (refusal, None, 0, None),
        Network::Compiled(compiled) => match compiled.factor {
            Some(place) => ((11, place), None, compiled.file.constants.len(), None),
            None => {
                let point = compiled.point(&case.x, case.solver);
                (point.refusal.unwrap_or((0, 0)), point.answer, compiled.columns(), Some(compiled.file))
            }
        },
    };
    let residuals = answer.as_ref().filter(|_| [0, 16].contains(&refusal.0)).map(|answer| &answer.residuals);
    let List { tolerances, what } = list(number, residuals);
    let refusal = tolerances::refusal(refusal, residuals, &tolerances);
    let lent = 2 * n + 4 * m + [0, 3][(number % 2) as usize];
    let lengths = [case.words.len(), case.numbers.len(), case.x.len(), lent];
    if lengths.iter().zip(ROOM).any(|(&length, room)| length > room) {
        return None;
    }
    let place = match refusal {
        (0, _) => "accepted".to_owned(),
        (7, place) => format!("7 {}", ["vm", "pg", "qg"][(place >= 2 * n) as usize + (place >= 2 * n + k) as usize]),
        (11, place) => format!("11 {}", ["constant", "objective", "start"][(place >= needed) as usize + (place > needed) as usize]),
        (13, _) => format!("13 {}", if case.x.len() == needed { "column" } else { "length" }),
        (15, place) if place < 2 * n => format!("15 injection {}", place / n),
        (15, place) if place < 2 * n + 4 * m => format!("15 flow {}", (place - 2 * n) / m),
        (15, place) => format!("15 objective {}", place - 2 * n - 4 * m),
        (16, place) => format!("16 {place}"),
        (20, place) => format!("20 {place}"),
        (number, _) => number.to_string(),
    };
    let own = features(&case, [n, k, m]);
    // Pairs of features 'accepted, ..' are pairs of features of an accepted point, or network.
    let with = |name: &str| -> BTreeSet<String> { own.iter().map(|own| format!("{name}, {own}")).collect() };
    let mut features = own.clone();
    if refusal.0 == 0 {
        features.extend(with("accepted"));
    }
    features.insert(place.clone());
    let mut network = own.clone();
    if file.is_some() {
        network.extend(with("compiled"));
    }
    network.insert(if file.is_some() { "compiled".to_owned() } else { place.clone() });
    if let Some(answer) = &answer {
        for (i, residual) in answer.residuals.iter().enumerate() {
            if (residual - oracle::TOLERANCE).abs() < 1e-12 {
                features.insert(format!("residual {} at its tolerance", i + 1));
            }
        }
    }
    let mut own = BTreeSet::new();
    if what != PRIMAL_LIST {
        own = BTreeSet::from([format!("tolerances {what}"), place]);
        features.clear();
    }
    Some(Stored { case, tolerances, lent, refusal, answer, file, features, own, network })
}

/// The text's tolerances for every third case, else any of the lists that a case has.
fn list(number: u64, residuals: Option<&[f64; 8]>) -> List {
    if number % 3 == 0 {
        return List { tolerances: PRIMAL.to_vec(), what: PRIMAL_LIST.to_owned() };
    }
    let mut random = Random::new(number);
    let mut lists = tolerances::lists(&mut random, residuals);
    lists.swap_remove(random.below(lists.len()))
}

fn features(case: &Case, [n, k, m]: [usize; 3]) -> BTreeSet<String> {
    let mut features = BTreeSet::new();
    let mut has = |name: String| {
        features.insert(name);
    };
    let class = |count: usize| ["none", "one", "two"].get(count).copied().unwrap_or("more");
    has(format!("header {}", case.words[0] & 1));
    has(format!("buses {}", class(n)));
    has(format!("generators {}", class(k)));
    has(format!("branches {}", class(m)));
    has(format!("references {}", class(case.words.len() - 1 - n - k - m)));
    let mut at = 8 * n;
    for &word in &case.words {
        match word >> 28 {
            2 if word & 1 == 1 => has("bus bounded".to_owned()),
            3 => {
                let points = (word >> 13 & 31) as usize;
                has(format!("curve {}", points.min(4)));
                if points == 9 {
                    has("curve 9".to_owned());
                }
                has(format!("generator bounded {}", word >> 12 & 1));
                at += 9 + 2 * points;
            }
            4 => {
                let row = &case.numbers[at..at + 11];
                has(format!("angled {}", word >> 24 & 1));
                has(format!("limited {} {}", word >> 25 & 1, if row[10] > 0.0 { "above 0" } else { "not above 0" }));
                if word & 0xfff == word >> 12 & 0xfff {
                    has("equal ends".to_owned());
                }
                has(format!(
                    "tap {}",
                    if row[6] == 1.0 {
                        "1"
                    } else if row[6] < 0.0 {
                        "below 0"
                    } else {
                        "other"
                    }
                ));
                has(format!(
                    "shift {}",
                    match row[7] {
                        0.0 => "0",
                        x if x.abs() == 1024.0 => "at its end",
                        x if x.abs() > 4.0 => "wide",
                        _ => "other",
                    }
                ));
                at += 11;
            }
            _ => {}
        }
    }
    for value in &case.numbers {
        let size = value.abs();
        let name = if size == 0.0 && value.is_sign_negative() {
            "minus 0"
        } else if value.is_nan() {
            "not a number"
        } else if size.is_infinite() {
            "infinite"
        } else if size >= 1e150 {
            "huge"
        } else if size.is_subnormal() {
            "subnormal"
        } else {
            continue;
        };
        has(format!("a number is {name}"));
    }
    features
}

fn record(stored: &Stored) -> Vec<u64> {
    let Stored { case, tolerances, lent, refusal, answer, .. } = stored;
    let mut objective = 0.0;
    let mut residuals = [0.0; 8];
    let mut outputs = vec![LENT; *lent];
    if let Some(answer) = answer {
        if refusal.0 == 0 {
            objective = answer.objective;
            outputs[..answer.outputs.len()].copy_from_slice(&answer.outputs);
        }
        if [0, 16].contains(&refusal.0) {
            // +0 is preferred to -0 (document 01).
            residuals = answer.residuals.map(|residual| residual + 0.0);
        }
    }
    let mut cells = vec![0, 0];
    cells.extend([case.words.len(), case.numbers.len(), case.x.len(), *lent].map(|length| length as u64));
    cells.extend([refusal.0 as u64, refusal.1 as u64, case.solver.to_bits(), objective.to_bits()]);
    cells.extend(residuals.map(f64::to_bits));
    cells.push(tolerances.len() as u64);
    cells.extend(case.words.iter().map(|&word| word as u64));
    cells.extend(case.numbers.iter().chain(&case.x).chain(tolerances).chain(&outputs).map(|value| value.to_bits()));
    cells[0] = cells.len() as u64;
    cells
}

/// compile's record of a network that is accepted or refused with 7 to 11.
fn compiled_record(stored: &Stored) -> Vec<u64> {
    let Stored { case, file, refusal, .. } = stored;
    let of_kind = |kind| case.words.iter().filter(|&&word| word >> 28 == kind).count();
    let shared = of_kind(2) + 8 * of_kind(4);
    let none = File {
        words: Vec::new(),
        constants: Vec::new(),
        lower: Vec::new(),
        upper: Vec::new(),
        start: Vec::new(),
        row_lower: Vec::new(),
        row_upper: Vec::new(),
        objective: 0.0,
    };
    let (refusal, shared, file) = match file {
        Some(file) => ((0, 0), shared, file),
        None => (*refusal, 0, &none),
    };
    let lengths = [file.words.len(), file.constants.len(), file.lower.len(), file.row_lower.len(), shared];
    let mut cells = vec![0, 1, case.words.len() as u64, case.numbers.len() as u64, refusal.0 as u64, refusal.1 as u64];
    cells.extend(lengths.map(|length| length as u64));
    cells.push(file.objective.to_bits());
    cells.extend(case.words.iter().map(|&word| word as u64));
    cells.extend(case.numbers.iter().map(|value| value.to_bits()));
    let pair = |pair: &[u32]| pair[0] as u64 | (pair.get(1).copied().unwrap_or(0) as u64) << 32;
    cells.extend(file.words.chunks(2).map(pair));
    // +0 is preferred to -0 in an epigraph's start (document 01).
    let first = 2 * of_kind(2) + 2 * of_kind(3);
    let start = file.start.iter().enumerate().map(|(i, value)| if i < first { *value } else { value + 0.0 });
    let start: Vec<f64> = start.collect();
    for list in [&file.constants, &file.lower, &file.upper, &start, &file.row_lower, &file.row_upper] {
        cells.extend(list.iter().map(|value| value.to_bits()));
    }
    cells[0] = cells.len() as u64;
    cells
}

/// The answers taken, by their places in the list; a case without features is none.
fn choose(what: &str, all: &[&BTreeSet<String>], most: usize) -> Vec<usize> {
    let names: BTreeSet<&String> = all.iter().flat_map(|features| features.iter()).collect();
    let names: Vec<&String> = names.into_iter().collect();
    let number = |name: &String| names.binary_search(&name).expect("a name");
    let numbered = all.iter().map(|features| features.iter().map(number).collect());
    let numbered: Vec<Vec<usize>> = numbered.collect();
    let mut shown = vec![0u8; names.len() * names.len()];
    let mut chosen: Vec<usize> = Vec::new();
    for least in [60, 40, 25, 15, 10, 7, 5, 4, 3, 2, 1] {
        for (i, features) in numbered.iter().enumerate() {
            let from = |j: usize| features[j..].iter().map(move |b| (features[j], *b));
            let pairs: Vec<_> = (0..features.len()).flat_map(from).collect();
            let new = pairs.iter().filter(|(a, b)| shown[a * names.len() + b] < TIMES).count();
            if new >= least && chosen.len() < most && !chosen.contains(&i) {
                for (a, b) in pairs {
                    let times = &mut shown[a * names.len() + b];
                    *times = times.saturating_add(1);
                }
                chosen.push(i);
            }
        }
    }
    chosen.sort();
    println!("{} answers of {what}, of them with", chosen.len());
    for (feature, name) in names.iter().enumerate().filter(|(_, name)| !name.contains(',')) {
        println!("- {name}: {}", chosen.iter().filter(|&&i| numbered[i].contains(&feature)).count());
    }
    chosen
}

fn main() {
    let mut words = std::env::args().skip(1);
    let path = words.next().expect("store FILE [SEED]");
    let seed = random::seed(words.next());
    let mut all: Vec<Stored> = (0..CANDIDATES).filter_map(|number| stored(cases::case(seed, number), number)).collect();
    all.sort_by_key(|stored| (stored.case.numbers.len(), stored.case.x.len()));
    let features: Vec<&BTreeSet<String>> = all.iter().map(|stored| &stored.features).collect();
    let checks = choose("the check", &features, MOST[0]);
    let features: Vec<&BTreeSet<String>> = all.iter().map(|stored| &stored.own).collect();
    let own = choose("the check with other tolerances", &features, MOST[1]);
    let none = BTreeSet::new();
    let fits = |file: &File| {
        let lengths = [file.words.len(), file.constants.len(), file.lower.len(), file.row_lower.len()];
        lengths.iter().zip(MODEL_ROOM).all(|(&length, room)| length <= room)
    };
    // A refusal of the point is none to compile, whose record then has the file.
    let network = |stored: &'_ Stored| stored.file.as_ref().map_or(true, fits);
    let networks = all.iter().map(|stored| if network(stored) { &stored.network } else { &none });
    let networks: Vec<&BTreeSet<String>> = networks.collect();
    let models = choose("compile", &networks, MOST[2]);
    let records = checks.iter().chain(&own).map(|&i| record(&all[i])).chain(models.iter().map(|&i| compiled_record(&all[i])));
    let mut cells: Vec<u64> = Vec::new();
    for record in records {
        let left = CHUNK - cells.len() % CHUNK;
        if record.len() > left {
            cells.resize(cells.len() + left, 0);
        }
        cells.extend(record);
    }
    let bytes: Vec<u8> = cells.iter().flat_map(|cell| cell.to_le_bytes()).collect();
    std::fs::write(&path, &bytes).expect("the file");
    println!("{} bytes", bytes.len());
}

//! compile on both sides: number and place, seven lists by bits, counts, objective constant.

use crate::cases::Case;
use crate::compare::{packed, Lent, Tally};
use crate::ours;
use oracle::Refusal;
use oracle_text::File;

/// The seven lists of an accepted network, as cells: words are lent as 32-bit cells, the rest as numbers.
struct Lists {
    words: LentWords,
    numbers: Vec<Lent>,
}

const GUARD: u32 = 0xe5a5_0000;
const GUARDS: usize = 4;

struct LentWords {
    cells: Vec<u32>,
    length: usize,
}

impl LentWords {
    fn new(length: usize) -> Self {
        let cells = (0..length + 2 * GUARDS).map(|i| GUARD ^ i as u32).collect();
        Self { cells, length }
    }

    fn list(&mut self) -> &mut [u32] {
        &mut self.cells[GUARDS..GUARDS + self.length]
    }

    fn holds(&self, front: &[u32]) -> bool {
        let end = GUARDS + front.len();
        let kept = |i: usize| self.cells[i] == GUARD ^ i as u32;
        end <= GUARDS + self.length && self.cells[GUARDS..end] == *front && (0..GUARDS).all(kept) && (end..self.cells.len()).all(kept)
    }
}

fn lend(lengths: [usize; 7]) -> Lists {
    Lists { words: LentWords::new(lengths[0]), numbers: lengths[1..].iter().map(|&length| Lent::new(length)).collect() }
}

fn run(case: &Case, lists: &mut Lists) -> u64 {
    let [a, b, c, d, e, f] = &mut lists.numbers[..] else { unreachable!() };
    let numbers = [a.list(), b.list(), c.list(), d.list(), e.list(), f.list()];
    ours::compile(&case.words, &case.numbers, lists.words.list(), numbers)
}

fn untouched(lists: &Lists) -> bool {
    lists.words.holds(&[]) && lists.numbers.iter().all(|list| list.holds(&[]))
}

fn said(got: u64) -> String {
    format!("{} {}", got >> 32, got & 0xffff_ffff)
}

pub fn compare(
    case: &Case,
    refusal: Option<Refusal>,
    file: Option<&File>,
    shared: usize,
    number: u64,
    tally: &mut Tally,
    differences: &mut Vec<String>,
) {
    *tally.compile.entry(refusal.map_or(0, |refusal| refusal.0)).or_default() += 1;
    let counts = ours::counts(&case.words, &case.numbers);
    let objective = ours::objective_constant(&case.words, &case.numbers);
    let (None, Some(file)) = (refusal, file) else {
        let refusal = refusal.expect("a file where nothing is refused");
        if counts != [0; 5] || objective.to_bits() != 0 {
            differences.push("compile, refused: counts or objective constant not 0".to_owned());
        }
        let some = 1 + (number % 97) as usize;
        for lengths in [[0; 7], [some; 7], [some * 40; 7]] {
            let mut lists = lend(lengths);
            let got = run(case, &mut lists);
            if got != packed(refusal) {
                differences.push(format!("compile: {} and not {} {}", said(got), refusal.0, refusal.1));
            }
            if !untouched(&lists) {
                differences.push(format!("compile, refusal {}: a list", refusal.0));
            }
        }
        return;
    };
    accepted(case, file, number, tally, differences);
    let expected = [file.words.len(), file.constants.len(), file.lower.len(), file.row_lower.len(), shared];
    if counts != expected {
        differences.push(format!("counts: {counts:?} and not {expected:?}"));
    }
    if objective.to_bits() != file.objective.to_bits() {
        differences.push(format!("objective constant: {objective:e} and not {:e}", file.objective));
    }
}

fn accepted(case: &Case, file: &File, number: u64, tally: &mut Tally, differences: &mut Vec<String>) {
    let (columns, rows) = (file.lower.len(), file.row_lower.len());
    assert_eq!((file.upper.len(), file.start.len(), file.row_upper.len()), (columns, columns, rows));
    let needed = [file.words.len(), file.constants.len(), columns, columns, columns, rows, rows];
    for lengths in [needed, needed.map(|length| length + 3)] {
        let mut lists = lend(lengths);
        let got = run(case, &mut lists);
        if got != 0 {
            differences.push(format!("compile: {} and not 0 0", said(got)));
            return;
        }
        if !lists.words.holds(&file.words) {
            differences.push("compile: words".to_owned());
        }
        let mut start = file.start.clone();
        zeros(&mut start, lists.numbers[3].list(), tally);
        let expected = [&file.constants, &file.lower, &file.upper, &start, &file.row_lower, &file.row_upper];
        let names = ["constants", "column lower", "column upper", "start", "row lower", "row upper"];
        for (i, list) in lists.numbers.iter().enumerate() {
            if !list.holds(expected[i]) {
                differences.push(format!("compile: {}", names[i]));
            }
        }
    }
    // Each list short by one, some with a later one short too.
    let first = (number % 7) as usize;
    let lists_short = if needed[0] < 4000 { 0..7 } else { first..first + 1 };
    for short in lists_short {
        let mut lengths = needed;
        lengths[short] -= 1;
        if number % 2 == 0 && short < 6 {
            lengths[short + 1] = 0;
        }
        let mut lists = lend(lengths);
        let got = run(case, &mut lists);
        tally.short += 1;
        if got != packed((12, short + 1)) {
            differences.push(format!("compile, list {} short: {}", short + 1, said(got)));
        }
        if !untouched(&lists) {
            differences.push(format!("compile, list {} short: a list", short + 1));
        }
    }
}

/// An epigraph's start that is -0 in the Rust and +0 here is left to `f64::max`.
fn zeros(start: &mut [f64], ours: &[f64], tally: &mut Tally) {
    for (expected, got) in start.iter_mut().zip(ours) {
        if *expected == 0.0 && expected.is_sign_negative() && got.to_bits() == 0 {
            *tally.zeros.entry("starts that are -0 in the Rust and +0 here").or_default() += 1;
            *expected = 0.0;
        }
    }
}

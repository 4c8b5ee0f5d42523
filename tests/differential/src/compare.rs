//! One case on both sides.

use crate::cases::Case;
use crate::random::Random;
use crate::tolerances::{self, PRIMAL};
use crate::{ours, rules};
use oracle::{Answer, Compiled, Network, Refusal, TOLERANCE};
use std::collections::BTreeMap;
use std::panic::{catch_unwind, AssertUnwindSafe};

/// What was met, for the table.
#[derive(Default)]
pub struct Tally {
    pub different: u64,
    check: BTreeMap<u32, u64>,
    pub compile: BTreeMap<u32, u64>,
    /// Calls of compile with a list too short.
    pub short: u64,
    /// Places by kind.
    places: BTreeMap<String, u64>,
    accepted: BTreeMap<&'static str, u64>,
    /// What the text said where the port refused with a number that the text does not have.
    text: BTreeMap<(u32, &'static str), u64>,
    pub zeros: BTreeMap<&'static str, u64>,
    /// Calls of the check with an output list too short.
    short_check: u64,
    /// Points with tolerances that are not the text's, by the list and the answer.
    own: BTreeMap<String, u64>,
}

/// The bits of NaN number i: both signs, quiet and signalling, each with a payload of its own.
pub fn nan(i: usize) -> u64 {
    let n = i as u64;
    let payload = (n + 1).wrapping_mul(0x9e37_79b9_7f4a_7c15) & ((1 << 51) - 1);
    (n % 2) << 63 | 0x7ff << 52 | (n / 2 % 2) << 51 | payload
}

/// A list between guards, full of NaNs. Each has its own pattern, so that a moved one is seen, and one written as another NaN.
pub struct Lent {
    cells: Vec<u64>,
    length: usize,
}

const GUARDS: usize = 4;

impl Lent {
    pub fn new(length: usize) -> Self {
        let cells = (0..length + 2 * GUARDS).map(nan).collect();
        Self { cells, length }
    }

    pub fn list(&mut self) -> &mut [f64] {
        let list = &mut self.cells[GUARDS..GUARDS + self.length];
        // Same size and alignment; any bits are a double.
        unsafe { std::slice::from_raw_parts_mut(list.as_mut_ptr().cast(), list.len()) }
    }

    /// Whether the front is these numbers and all the rest, with the guards, as it was.
    pub fn holds(&self, front: &[f64]) -> bool {
        let end = GUARDS + front.len();
        let front_right =
            end <= GUARDS + self.length && self.cells[GUARDS..end].iter().zip(front).all(|(cell, value)| *cell == value.to_bits());
        let kept = |i: usize| self.cells[i] == nan(i);
        front_right && (0..GUARDS).all(kept) && (end..self.cells.len()).all(kept)
    }
}

pub fn packed((number, place): Refusal) -> u64 {
    (number as u64) << 32 | (place as u64).min(0xffff_ffff)
}

/// What the text made of the network.
enum Text {
    Form,
    Error(Refusal),
    Compiled(Compiled),
    Panic,
}

fn text_of(case: &Case) -> Text {
    let run = AssertUnwindSafe(|| oracle::network(&case.words, &case.numbers));
    match catch_unwind(run) {
        Err(_) => Text::Panic,
        Ok(Network::Form) => Text::Form,
        Ok(Network::Error { refusal, .. }) => Text::Error(refusal),
        Ok(Network::Compiled(compiled)) => Text::Compiled(compiled),
    }
}

pub fn case(case: &Case, number: u64, tally: &mut Tally) -> Vec<String> {
    let mut differences = Vec::new();
    let text = text_of(case);
    let early = rules::first_six(&case.words, &case.numbers);
    let refusal = match (early, &text) {
        (Some(refusal), _) => {
            *tally.text.entry((refusal.0, network_kind(&text))).or_default() += 1;
            Some(refusal)
        }
        (None, Text::Form | Text::Panic) => {
            differences.push("the text refuses the form, or panics, where 1 to 6 do not".to_owned());
            return differences;
        }
        (None, Text::Error(refusal)) => Some(*refusal),
        (None, Text::Compiled(compiled)) => {
            let refusal = compiled.factor.map(|place| (11, place));
            if let Some((_, place)) = refusal {
                *tally.text.entry((11, network_kind(&text))).or_default() += 1;
                let constants = compiled.file.constants.len();
                let kind =
                    ["11: constant", "11: objective constant", "11: start"][(place >= constants) as usize + (place > constants) as usize];
                *tally.places.entry(kind.to_owned()).or_default() += 1;
            }
            refusal
        }
    };
    let kept = (case.words.clone(), bits(&case.numbers), bits(&case.x));
    match (&refusal, &text) {
        (None, Text::Compiled(compiled)) => check_accepted(case, compiled, number, tally, &mut differences),
        (Some(refusal), _) => check_refused(case, *refusal, number, tally, &mut differences),
        _ => unreachable!("a network without a refusal is compiled"),
    }
    let (file, shared) = match &text {
        Text::Compiled(compiled) => (Some(&compiled.file), compiled.buses + 8 * compiled.branches),
        _ => (None, 0),
    };
    crate::compiled::compare(case, refusal, file, shared, number, tally, &mut differences);
    if kept != (case.words.clone(), bits(&case.numbers), bits(&case.x)) {
        differences.push("a list lent for reading has changed".to_owned());
    }
    differences
}

fn of_kind(case: &Case, kind: u32) -> usize {
    case.words.iter().filter(|&&word| word >> 28 == kind).count()
}

fn buses(case: &Case) -> usize {
    of_kind(case, 2)
}

fn generators(case: &Case) -> usize {
    of_kind(case, 3)
}

fn bits(values: &[f64]) -> Vec<u64> {
    values.iter().map(|value| value.to_bits()).collect()
}

fn network_kind(text: &Text) -> &'static str {
    match text {
        Text::Form => "cannot be handed over",
        Text::Error((7, _)) => "error, as 7",
        Text::Error((8, _)) => "error, as 8",
        Text::Error((9, _)) => "error, as 9",
        Text::Error(_) => "error, as 10",
        Text::Compiled(_) => "compiled",
        Text::Panic => "panics",
    }
}

/// The check of a network that is refused: the output list stays as it was, at any length.
fn check_refused(case: &Case, refusal: Refusal, number: u64, tally: &mut Tally, differences: &mut Vec<String>) {
    *tally.check.entry(refusal.0).or_default() += 1;
    if refusal.0 == 7 {
        let (n, k) = (buses(case), generators(case));
        let kind = ["7: vm", "7: pg", "7: qg"][(refusal.1 >= 2 * n) as usize + (refusal.1 >= 2 * n + k) as usize];
        *tally.places.entry(kind.to_owned()).or_default() += 1;
    }
    let needed = 2 * buses(case) + 4 * of_kind(case, 4);
    for length in [0, needed, needed + 3] {
        one_check(case, &PRIMAL, length, refusal, None, tally, differences);
    }
    own_tolerances(case, number, needed, refusal, None, tally, differences);
    for length in [0, 9] {
        one_report(case, length, refusal, None, differences);
    }
    if ours::outputs(&case.words, &case.numbers) != 0 {
        differences.push("outputs, refused: not 0".to_owned());
    }
}

fn check_accepted(case: &Case, compiled: &Compiled, number: u64, tally: &mut Tally, differences: &mut Vec<String>) {
    let needed = 2 * compiled.buses + 4 * compiled.branches;
    let answered = compiled.point(&case.x, case.solver);
    let refusal = answered.refusal.unwrap_or((0, 0));
    *tally.check.entry(refusal.0).or_default() += 1;
    let (n, m) = (compiled.buses, compiled.branches);
    let kind = match refusal {
        (13, _) => Some(if case.x.len() == compiled.columns() { "13: column" } else { "13: length" }.to_owned()),
        (15, place) if place < 2 * n => Some("15: injection".to_owned()),
        (15, place) if place < 2 * n + 4 * m => Some("15: flow".to_owned()),
        (15, place) => Some(["15: solver's objective", "15: own objective"][place - 2 * n - 4 * m].to_owned()),
        (16, place) => Some(format!("16: residual {place}")),
        _ => None,
    };
    if let Some(kind) = kind {
        *tally.places.entry(kind).or_default() += 1;
    }
    if let (Some(answer), 0 | 16) = (&answered.answer, refusal.0) {
        for (i, residual) in answer.residuals.iter().enumerate() {
            if (residual - TOLERANCE).abs() <= 1e-15 {
                let side = if *residual > TOLERANCE { "above" } else { "not above" };
                let kind = format!("residual {} within 1e-15 of its tolerance, {side}", i + 1);
                *tally.places.entry(kind).or_default() += 1;
            }
        }
        rated(case, answer, n, m, tally);
    }
    if refusal.0 == 14 {
        let kind = if answered.error.is_none() { "accepted" } else { "refused for another reason" };
        *tally.text.entry((14, kind)).or_default() += 1;
    }
    if refusal.0 == 0 {
        let size = match (n, generators(case), m) {
            (256, 256, 512) => "256/256/512",
            (n, k, m) if n == 256 || k == 256 || m == 512 => "one list at its limit",
            (n, _, _) if n > 6 => "7 to 255 buses",
            _ => "1 to 6 buses",
        };
        *tally.accepted.entry(size).or_default() += 1;
    }
    let answer = answered.answer.as_ref();
    one_check(case, &PRIMAL, needed, refusal, answer, tally, differences);
    one_check(case, &PRIMAL, needed + 3, refusal, answer, tally, differences);
    // Every branch and bus has outputs: there is always one to leave out.
    one_check(case, &PRIMAL, needed - 1, (12, 1), None, tally, differences);
    if number % 64 == 0 {
        one_check(case, &PRIMAL, 0, (12, 1), None, tally, differences);
    }
    own_tolerances(case, number, needed, refusal, answer, tally, differences);
    one_report(case, 9, refusal, answer, differences);
    one_report(case, 12, refusal, answer, differences);
    one_report(case, 8, (12, 1), None, differences);
    let outputs = ours::outputs(&case.words, &case.numbers);
    if outputs != needed {
        differences.push(format!("outputs: {outputs} and not {needed}"));
    }
}

/// Counts the ends of branches whose flow is within 2^-38 of an active rating.
fn rated(case: &Case, answer: &Answer, n: usize, m: usize, tally: &mut Tally) {
    let first = case.numbers.len() - 11 * m;
    let branches = case.words.iter().filter(|&&word| word >> 28 == 4);
    for (b, word) in branches.enumerate() {
        let s_max = case.numbers[first + 11 * b + 10];
        for end in [0, 2] {
            let flow = |part: usize| answer.outputs[2 * n + part * m + b];
            let over = flow(end).hypot(flow(end + 1)) - s_max;
            if word >> 25 & 1 == 1 && s_max > 0.0 && over.abs() <= s_max * 0.5f64.powi(38) {
                let side = if over > 0.0 { "above" } else { "not above" };
                let kind = format!("flow within 2^-38 of its rating, {side}");
                *tally.places.entry(kind).or_default() += 1;
            }
        }
    }
}

/// The check with tolerances that are not the text's: the first list by all functions, the others by the check alone.
fn own_tolerances(
    case: &Case,
    number: u64,
    needed: usize,
    primal: Refusal,
    answer: Option<&Answer>,
    tally: &mut Tally,
    differences: &mut Vec<String>,
) {
    let mut random = Random::new(number ^ case.solver.to_bits());
    let residuals = answer.filter(|_| [0, 16].contains(&primal.0)).map(|answer| &answer.residuals);
    for (i, list) in tolerances::lists(&mut random, residuals).into_iter().enumerate() {
        let kept = bits(&list.tolerances);
        let refusal = tolerances::refusal(primal, residuals, &list.tolerances);
        if i == 0 {
            one_check(case, &list.tolerances, needed, refusal, answer, tally, differences);
        } else {
            verdict(case, &list.tolerances, needed, refusal, answer, differences);
        }
        if !(1..=12).contains(&primal.0) {
            // 12 comes before 20.
            verdict(case, &list.tolerances, needed - 1, (12, 1), None, differences);
            let number = if refusal.0 == 0 { "accepted".to_owned() } else { refusal.0.to_string() };
            *tally.own.entry(format!("{}: {number}", list.what)).or_default() += 1;
            if let (20, place) = refusal {
                *tally.places.entry(format!("20: place {place}")).or_default() += 1;
            }
        }
        if bits(&list.tolerances) != kept {
            differences.push("the tolerances have changed".to_owned());
        }
    }
}

fn front(refusal: Refusal, answer: Option<&Answer>) -> &[f64] {
    match answer {
        Some(answer) if refusal.0 == 0 => &answer.outputs,
        _ => &[],
    }
}

/// The check itself, with these tolerances and an output list of this length. Answers whether number and place are right.
fn verdict(
    case: &Case,
    tolerances: &[f64],
    length: usize,
    refusal: Refusal,
    answer: Option<&Answer>,
    differences: &mut Vec<String>,
) -> bool {
    let mut lent = Lent::new(length);
    let got = ours::check(&case.words, &case.numbers, &case.x, case.solver, tolerances, lent.list());
    if got != packed(refusal) {
        let (number, place) = (got >> 32, got & 0xffff_ffff);
        let with = format!("tolerances {tolerances:?}, {length} outputs lent");
        differences.push(format!("check, {with}: {number} {place} and not {} {}", refusal.0, refusal.1));
        return false;
    }
    if !lent.holds(front(refusal, answer)) {
        differences.push(format!("check, {length} outputs lent, refusal {}: the list", refusal.0));
    }
    true
}

/// The check with these tolerances and an output list of this length, by all its functions.
fn one_check(
    case: &Case,
    tolerances: &[f64],
    length: usize,
    refusal: Refusal,
    answer: Option<&Answer>,
    tally: &mut Tally,
    differences: &mut Vec<String>,
) {
    let (words, numbers, x, solver) = (&case.words, &case.numbers, &case.x, case.solver);
    let front = front(refusal, answer);
    if refusal.0 == 12 {
        tally.short_check += 1;
    }
    if !verdict(case, tolerances, length, refusal, answer, differences) {
        return;
    }
    let objective = match answer {
        Some(answer) if refusal.0 == 0 => answer.objective,
        _ => 0.0,
    };
    let mut lent = Lent::new(length);
    let got = ours::objective(words, numbers, x, solver, tolerances, lent.list());
    if got.to_bits() != objective.to_bits() {
        differences.push(format!("objective: {got:e} and not {objective:e}"));
    }
    if !lent.holds(front) {
        differences.push("objective: the list".to_owned());
    }
    for i in 0..9 {
        let residual = match answer {
            Some(answer) if i < 8 && [0, 16].contains(&refusal.0) => answer.residuals[i],
            _ => 0.0,
        };
        let mut lent = Lent::new(length);
        let got = ours::residual(words, numbers, x, solver, tolerances, lent.list(), i);
        if got == 0.0 && residual == 0.0 && got.is_sign_positive() {
            if residual.is_sign_negative() {
                *tally.zeros.entry("residuals that are -0 in the Rust").or_default() += 1;
            }
        } else if got.to_bits() != residual.to_bits() {
            differences.push(format!("residual {i}: {got:e} and not {residual:e}"));
        }
        if !lent.holds(front) {
            differences.push(format!("residual {i}: the list"));
        }
    }
}

/// The residuals and the objective by one run, with a list of this length: no residual refuses it.
fn one_report(case: &Case, length: usize, refusal: Refusal, answer: Option<&Answer>, differences: &mut Vec<String>) {
    let refusal = if refusal.0 == 16 { (0, 0) } else { refusal };
    let mut lent = Lent::new(length);
    let got = ours::residuals(&case.words, &case.numbers, &case.x, case.solver, lent.list());
    if got != packed(refusal) {
        differences.push(format!("residuals: {} {} and not {} {}", got >> 32, got & 0xffff_ffff, refusal.0, refusal.1));
        return;
    }
    let mut front = Vec::new();
    if let (Some(answer), 0) = (answer, refusal.0) {
        front.extend(answer.residuals);
        // A zero's sign is left to `f64::max`; the getters have counted it.
        for (expected, got) in front.iter_mut().zip(lent.list()) {
            if *expected == 0.0 && got.to_bits() == 0 {
                *expected = 0.0;
            }
        }
        front.push(answer.objective);
    }
    if !lent.holds(&front) {
        differences.push(format!("residuals, {length} numbers lent, refusal {}: the list", refusal.0));
    }
}

impl Tally {
    pub fn print(&self, count: u64, seed: u64) {
        println!("{count} cases under seed {seed}; {} with a difference that is not explained\n", self.different);
        println!("| answer | check | compile |\n|---|---|---|");
        for number in 0..=16 {
            let of = |table: &BTreeMap<u32, u64>| match table.get(&number) {
                Some(count) => count.to_string(),
                None => "-".to_owned(),
            };
            if number == 12 {
                println!("| 12, the accepted networks with a list lent too short | {} | {} |", self.short_check, self.short);
                continue;
            }
            let name = if number == 0 { "accepted".to_owned() } else { number.to_string() };
            println!("| {name} | {} | {} |", of(&self.check), of(&self.compile));
        }
        println!("\nby place:");
        for (kind, count) in &self.places {
            println!("- {kind}: {count}");
        }
        println!("\nwith tolerances that are not the Rust's, by the list and the answer:");
        for (kind, count) in &self.own {
            println!("- {kind}: {count}");
        }
        println!("\naccepted points by size:");
        for (size, count) in &self.accepted {
            println!("- {size}: {count}");
        }
        println!("\nwhat the Rust said where it has no such refusal:");
        for ((number, kind), count) in &self.text {
            println!("- {number}: {kind}: {count}");
        }
        println!("\nzeros whose sign `f64::max` leaves open:");
        for (kind, count) in &self.zeros {
            println!("- {kind}: {count}");
        }
    }
}

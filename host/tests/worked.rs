//! The worked cases of document 02 that ask for a network's refusal, compile's answer or the check's: worked/cases.txt, which
//! tests/worked/cases.py writes and explains.

#[allow(dead_code)]
#[path = "../src/boundary/mod.rs"]
mod boundary;
mod lent;

use boundary::compile::{
    fervoulk_columns, fervoulk_constants, fervoulk_objective_constant, fervoulk_rows, fervoulk_shared, fervoulk_words,
};
use boundary::validate::{fervoulk_check, fervoulk_objective, fervoulk_outputs, fervoulk_residual, fervoulk_residuals};
// brings the archives in
use fervoulk as _;
use lent::{compile_into, packed};
use std::collections::HashMap;

struct Case<'a> {
    name: &'a str,
    call: &'a str,
    fields: HashMap<&'a str, &'a str>,
}

fn cases() -> Vec<Case<'static>> {
    let blocks = include_str!("worked/cases.txt").split("case ").skip(1);
    let case = |block: &'static str| {
        let (head, rest) = block.split_once('\n').expect("a head line");
        let (name, call) = head.split_once(' ').expect("name and call");
        Case { name, call, fields: rest.lines().map(|line| line.split_once(' ').unwrap_or((line, ""))).collect() }
    };
    blocks.map(case).collect()
}

impl Case<'_> {
    fn patterns(&self, field: &str) -> Option<Vec<u64>> {
        let list = self.fields.get(field)?;
        Some(list.split(' ').filter(|item| !item.is_empty()).map(|item| u64::from_str_radix(item, 16).expect("a pattern")).collect())
    }

    fn decimals(&self, field: &str) -> Option<Vec<usize>> {
        Some(self.fields.get(field)?.split(' ').map(|item| item.parse().expect("a number")).collect())
    }

    fn numbers(&self, field: &str) -> Vec<f64> {
        self.patterns(field).expect("numbers").into_iter().map(f64::from_bits).collect()
    }

    fn tables(&self) -> (Vec<u32>, Vec<f64>) {
        let words = self.patterns("given_words").expect("words");
        (words.iter().map(|&word| word as u32).collect(), self.numbers("given_numbers"))
    }

    /// Number and place as the C boundary packs them; of a case that names no place it is 0, as where nothing is refused.
    fn packed(&self) -> u64 {
        let one = |field| self.decimals(field).map_or(0, |list| list[0] as u64);
        assert!(self.fields.contains_key("number"), "{}", self.name);
        packed(one("number"), one("place"))
    }
}

/// Words, constants, columns, rows and shared parts, by the getters.
fn counts(words: &[u32], numbers: &[f64]) -> [usize; 5] {
    let getters = [fervoulk_words, fervoulk_constants, fervoulk_columns, fervoulk_rows, fervoulk_shared];
    getters.map(|getter| getter(words, numbers))
}

/// compile into lists of these lengths: the packed answer, the words and the other six lists.
fn compiled(words: &[u32], numbers: &[f64], lengths: &[usize]) -> (u64, Vec<u32>, Vec<Vec<f64>>) {
    let mut file = vec![0; lengths[0]];
    let mut lists: Vec<Vec<f64>> = lengths[1..].iter().map(|&length| vec![0.0; length]).collect();
    (compile_into(words, numbers, &mut file, &mut lists), file, lists)
}

/// Every function that a network is handed to refuses it as the case says, and none refuses it for its network where the case does not.
fn network(case: &Case) {
    let (words, numbers) = case.tables();
    let [w, c, n, r, _] = counts(&words, &numbers);
    assert_eq!(compiled(&words, &numbers, &[w, c, n, n, n, r, r]).0, case.packed(), "{}", case.name);
    let refused = case.packed() != 0;
    assert_eq!(w == 0, refused, "{}", case.name);
    assert_eq!(fervoulk_outputs(&words, &numbers) == 0, refused, "{}", case.name);
    // With no point, 13 follows where the network is not refused.
    let point = if refused { case.packed() } else { packed(13, n as u64) };
    let mut outputs = vec![0.0; fervoulk_outputs(&words, &numbers)];
    assert_eq!(fervoulk_check(&words, &numbers, &[], 0.0, &[1e-6; 8], &mut outputs), point, "{}", case.name);
    assert_eq!(fervoulk_residuals(&words, &numbers, &[], 0.0, &mut [0.0; 9]), point, "{}", case.name);
}

/// The fields that the case names, by bits; the lists are the fronts that the counts name.
fn compile(case: &Case) {
    let (words, numbers) = case.tables();
    let (answer, file, lists) = compiled(&words, &numbers, &case.decimals("given_lengths").expect("lengths"));
    assert_eq!(answer, case.packed(), "{}", case.name);
    let all = counts(&words, &numbers);
    if let Some(expected) = case.decimals("counts") {
        assert_eq!(all[..], expected, "{}", case.name);
    }
    if let Some(expected) = case.patterns("constant") {
        assert_eq!(fervoulk_objective_constant(&words, &numbers).to_bits(), expected[0], "{}", case.name);
    }
    if let Some(expected) = case.patterns("words") {
        let front: Vec<u64> = file[..all[0]].iter().map(|&word| word.into()).collect();
        assert_eq!(front, expected, "{}", case.name);
    }
    let names = ["constants", "column_lower", "column_upper", "start", "row_lower", "row_upper"];
    for ((name, list), count) in names.iter().zip(&lists).zip([all[1], all[2], all[2], all[2], all[3], all[3]]) {
        if let Some(expected) = case.patterns(name) {
            let front: Vec<u64> = list[..count].iter().map(|x| x.to_bits()).collect();
            assert_eq!(front, expected, "{} {name}", case.name);
        }
    }
}

/// The fields that the case names, by bits; after a refusal the whole list is as it was, else what is behind the outputs.
fn check(case: &Case) {
    const HELD: f64 = -7.5;
    let (words, numbers) = case.tables();
    let (point, tolerances) = (case.numbers("given_point"), case.numbers("given_tolerances"));
    let solver = case.numbers("given_solver")[0];
    let before = vec![HELD; case.decimals("given_output_length").expect("a length")[0]];
    let mut outputs = before.clone();
    assert_eq!(fervoulk_check(&words, &numbers, &point, solver, &tolerances, &mut outputs), case.packed(), "{}", case.name);
    let written = case.patterns("outputs").unwrap_or_default();
    if case.packed() != 0 || case.fields.contains_key("outputs") {
        let front: Vec<u64> = outputs[..written.len()].iter().map(|x| x.to_bits()).collect();
        assert_eq!(front, written, "{}", case.name);
        assert_eq!(outputs[written.len()..], before[written.len()..], "{}", case.name);
    }
    if let Some(expected) = case.patterns("objective") {
        let objective = fervoulk_objective(&words, &numbers, &point, solver, &tolerances, &mut outputs);
        assert_eq!(objective.to_bits(), expected[0], "{}", case.name);
    }
    if let Some(expected) = case.patterns("residuals") {
        let residual = |i| fervoulk_residual(&words, &numbers, &point, solver, &tolerances, &mut outputs, i).to_bits();
        assert_eq!((0..8).map(residual).collect::<Vec<u64>>(), expected, "{}", case.name);
    }
}

#[test]
fn worked_cases() {
    let cases = cases();
    assert!(!cases.is_empty());
    for case in &cases {
        match case.call {
            "network" => network(case),
            "compile" => compile(case),
            "check" => check(case),
            other => panic!("{}: a case of {other}", case.name),
        }
    }
}

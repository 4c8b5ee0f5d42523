//! Reads cases, prints them with the original text's answers.
//!
//! A case is the lines `case NAME`, `words ...` (32 bits each), `numbers ...` (the 64
//! bits of each) and any number of `point SOLVER ...`, all numbers in hexadecimal.
//! Lines of an earlier answer are passed over, so that a stored file can be run again.
//!
//! `refusal NUMBER PLACE` is document 01's (lib.rs).

use oracle::Network;
use std::fmt::Write as _;
use std::io::{BufWriter, Read, Write};

fn main() {
    let mut input = String::new();
    std::io::stdin().read_to_string(&mut input).expect("standard input");
    let mut out = BufWriter::new(std::io::stdout().lock());
    let mut case: Option<Case> = None;
    for line in input.lines() {
        let (key, rest) = line.split_once(' ').unwrap_or((line, ""));
        match key {
            "case" => {
                answer(case.take(), &mut out);
                case = Some(Case { name: rest.to_owned(), ..Case::default() });
            }
            "words" => {
                let words = rest.split_whitespace();
                let words = words.map(|w| u32::from_str_radix(w, 16).expect("a word"));
                case.as_mut().expect("a case").words = words.collect();
            }
            "numbers" => case.as_mut().expect("a case").numbers = numbers(rest),
            "point" => case.as_mut().expect("a case").points.push(numbers(rest)),
            _ => {}
        }
    }
    answer(case.take(), &mut out);
}

#[derive(Default)]
struct Case {
    name: String,
    words: Vec<u32>,
    numbers: Vec<f64>,
    /// The solver's objective, then the point.
    points: Vec<Vec<f64>>,
}

fn numbers(text: &str) -> Vec<f64> {
    text.split_whitespace().map(|bits| f64::from_bits(u64::from_str_radix(bits, 16).expect("64 bits"))).collect()
}

/// A case's numbers, as they were read.
fn same(key: &str, values: &[f64]) -> String {
    let mut line = key.to_owned();
    for value in values {
        write!(line, " {:016x}", value.to_bits()).unwrap();
    }
    line
}

/// Numbers of an answer. There is one NaN: its bits are the machine's choice.
fn bits(key: &str, values: &[f64]) -> String {
    let one = |&value: &f64| if value.is_nan() { f64::NAN } else { value };
    same(key, &values.iter().map(one).collect::<Vec<_>>())
}

fn words(key: &str, values: &[u32]) -> String {
    let mut line = key.to_owned();
    for value in values {
        write!(line, " {value:08x}").unwrap();
    }
    line
}

fn answer(case: Option<Case>, out: &mut impl Write) {
    let Some(case) = case else { return };
    let mut say = |line: String| writeln!(out, "{line}").expect("standard output");
    say(format!("case {}", case.name));
    say(words("words", &case.words));
    say(same("numbers", &case.numbers));
    let compiled = match oracle::network(&case.words, &case.numbers) {
        Network::Form => return say("form".to_owned()),
        Network::Error { message, refusal } => {
            say(format!("error {message}"));
            return say(format!("refusal {} {}", refusal.0, refusal.1));
        }
        Network::Compiled(compiled) => compiled,
    };
    let file = &compiled.file;
    say("compiled".to_owned());
    say(words("model", &file.words));
    say(bits("constants", &file.constants));
    say(bits("lower", &file.lower));
    say(bits("upper", &file.upper));
    say(bits("start", &file.start));
    say(bits("rowlower", &file.row_lower));
    say(bits("rowupper", &file.row_upper));
    say(bits("objective", &[file.objective]));
    if let Some(place) = compiled.factor {
        say(format!("refusal 11 {place}"));
    }
    for point in &case.points {
        say(same("point", point));
        let (&solver, x) = point.split_first().expect("a solver objective");
        let answered = compiled.point(x, solver);
        say(match answered.error {
            None => "accepted".to_owned(),
            Some(kind) => format!("error {kind}"),
        });
        if let Some(answer) = answered.answer {
            say(bits("outputs", &answer.outputs));
            say(bits("own", &[answer.objective]));
            say(bits("residuals", &answer.residuals));
        }
        if let Some((number, place)) = answered.refusal {
            say(format!("refusal {number} {place}"));
        }
    }
}

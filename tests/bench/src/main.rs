//! The original Rust beside the port, same inputs, one run; for row values a plain interpreter (plain.rs) beside the port.
//!
//! Each function is timed in batches, the batches of all functions taken in turn; the figure is the least batch divided by its calls,
//! and in brackets the middle one. Lists are lent once for a network and not cleared between calls. The Rust's models and answers are
//! dropped outside the time.

mod plain;

use differential::networks::{self, Manner, Net, Sizes};
use differential::random::Random;
use differential::tolerances::PRIMAL;
use differential::{balance, ours, reader};
use std::hint::black_box;
use std::time::Instant;

const BATCHES: usize = 401;
/// Nanoseconds that one batch should take.
const BATCH: f64 = 2.5e5;

/// One function under test: `run` calls it so many times and answers the nanoseconds.
struct Timed<'a> {
    run: Box<dyn FnMut(usize) -> f64 + 'a>,
    calls: usize,
    batches: Vec<f64>,
}

impl<'a> Timed<'a> {
    /// A function whose results are dropped after the clock is stopped.
    fn new<T>(mut call: impl FnMut() -> T + 'a) -> Self {
        let run = Box::new(move |calls| {
            let mut results = Vec::with_capacity(calls);
            let start = Instant::now();
            for _ in 0..calls {
                results.push(black_box(call()));
            }
            start.elapsed().as_nanos() as f64
        });
        Self { run, calls: 1, batches: Vec::new() }
    }

    fn warm(&mut self) {
        let one = (0..9).map(|_| (self.run)(1)).fold(f64::MAX, f64::min);
        self.calls = ((BATCH / one) as usize).clamp(1, 20_000);
    }
}

/// Least and middle time of each, in microseconds.
fn measure(timed: &mut [Timed]) -> Vec<[f64; 2]> {
    timed.iter_mut().for_each(Timed::warm);
    for _ in 0..BATCHES {
        for t in timed.iter_mut() {
            let time = (t.run)(t.calls) / t.calls as f64;
            t.batches.push(time / 1000.0);
        }
    }
    let each = |t: &mut Timed| {
        t.batches.sort_by(f64::total_cmp);
        [t.batches[0], t.batches[BATCHES / 2]]
    };
    timed.iter_mut().map(each).collect()
}

fn case(sizes: Sizes, curves: bool) -> (Net, Vec<f64>, f64) {
    let mut random = Random::new(1998);
    let manner = Manner { special: 0, non_finite: 0, curves: if curves { 1000 } else { 0 }, active: 1000, points: 9 };
    let mut net = networks::net(&mut random, sizes, true, manner);
    for generator in &mut net.generators {
        // As many points in every curve.
        while curves && generator.curve.len() < 9 {
            let [power, value] = generator.curve[generator.curve.len() - 1];
            generator.curve.push([power + 0.5, value + 10.0]);
        }
    }
    for branch in &mut net.branches {
        branch.numbers[6] = random.between(0.9, 1.1);
        branch.numbers[7] = random.between(-0.3, 0.3);
        branch.numbers[10] = random.between(100.0, 200.0);
    }
    for bus in &mut net.buses {
        bus.numbers[4..6].copy_from_slice(&[0.9, 1.1]);
    }
    let x = networks::point(&mut random, &net, false);
    let own = balance::balance(&mut net, &x).expect("a network");
    (net, x, own)
}

fn main() {
    println!("microseconds a call: least of {BATCHES} batches [middle batch]; lists lent once, not cleared\n");
    for sizes in [Sizes(1, 1, 0, 1), Sizes(118, 54, 186, 1), Sizes(256, 256, 512, 1)] {
        for curves in [false, true] {
            let (net, x, own) = case(sizes, curves);
            whole(&net, &x, own, sizes, curves);
            exceeded(&net, &x, own);
            parts(&net, &x, own);
            compile_parts(&net);
            row_values(&net, &x);
            println!();
        }
    }
    growth();
}

fn say(name: &str, time: [f64; 2]) {
    println!("  {name:<44} {:>9.2} [{:.2}]", time[0], time[1]);
}

fn whole(net: &Net, x: &[f64], own: f64, sizes: Sizes, curves: bool) {
    let (words, numbers) = (net.words(), net.numbers());
    let (n, m) = (net.buses.len(), net.branches.len());
    let mut outputs = vec![0.0; 2 * n + 4 * m];
    let fdlibm = oracle_text::network(&words, &numbers).expect("a network");
    let platform = oracle_platform::network(&words, &numbers).expect("a network");
    let fdlibm_model = oracle_text::compile(&fdlibm).expect("a model");
    let platform_model = oracle_platform::compile(&platform).expect("a model");
    assert!(fdlibm_model.check(x, own).is_ok());
    assert_eq!(ours::check(&words, &numbers, x, own, &PRIMAL, &mut outputs), 0);
    let mut lists = lent(&words, &numbers);
    assert_eq!(compile_into(&words, &numbers, &mut lists), 0);
    let mut timed = vec![
        Timed::new(|| oracle_text::compile(&fdlibm)),
        Timed::new(|| fdlibm_model.check(x, own)),
        Timed::new(|| oracle_platform::compile(&platform)),
        Timed::new(|| platform_model.check(x, own)),
        Timed::new(|| ours::check(&words, &numbers, x, own, &PRIMAL, &mut outputs)),
        Timed::new(|| compile_into(&words, &numbers, &mut lists)),
    ];
    let times = measure(&mut timed);
    let Sizes(buses, generators, branches, _) = sizes;
    let with = if curves { "curves of 9 points" } else { "no curves" };
    println!("{buses}/{generators}/{branches}, {with}");
    say("Rust, fdlibm: compile", times[0]);
    say("Rust, fdlibm: validate_primal", times[1]);
    say("Rust, the platform's sine: compile", times[2]);
    say("Rust, the platform's sine: validate_primal", times[3]);
    say("port: check", times[4]);
    let both = |a: usize| times[a][0] + times[a + 1][0];
    let ratio = |name: &str, over: f64, ours: f64, aim: f64| {
        let met = if over / ours >= aim { "met" } else { "not met" };
        if aim > 0.0 {
            println!("  {name:<44} {:>9.2}  aim {aim:.2}: {met}", over / ours);
        } else {
            println!("  {name:<44} {:>9.2}", over / ours);
        }
    };
    ratio("Rust compile + validate_primal over check", both(0), times[4][0], 8.0);
    ratio("the same, the platform's sine", both(2), times[4][0], 8.0);
    ratio("Rust validate_primal over check", times[1][0], times[4][0], 0.0);
    let large = buses > 1;
    ratio("the same, the platform's sine", times[3][0], times[4][0], if large { 4.0 / 3.0 } else { 0.0 });
    say("port: compile", times[5]);
    let aim = if large { 16.0 } else { 0.0 };
    ratio("Rust compile over compile", times[0][0], times[5][0], aim);
    ratio("the same, the platform's sine", times[2][0], times[5][0], aim);
}

/// The check where every branch is above its rating, so that no hypotenuse can be left out: refused with 16.
fn exceeded(net: &Net, x: &[f64], own: f64) {
    if net.branches.is_empty() {
        return;
    }
    let mut tight = net.clone();
    tight.branches.iter_mut().for_each(|branch| branch.numbers[10] = 1e-9);
    let (words, numbers) = (tight.words(), tight.numbers());
    let mut outputs = vec![0.0; 2 * net.buses.len() + 4 * net.branches.len()];
    let platform = oracle_platform::network(&words, &numbers).expect("a network");
    let model = oracle_platform::compile(&platform).expect("a model");
    assert!(model.check(x, own).is_err());
    assert_eq!(ours::check(&words, &numbers, x, own, &PRIMAL, &mut outputs), 16 << 32 | 6);
    let mut timed = vec![Timed::new(|| model.check(x, own)), Timed::new(|| ours::check(&words, &numbers, x, own, &PRIMAL, &mut outputs))];
    let times = measure(&mut timed);
    println!("  every rating exceeded (16):");
    say("Rust, the platform's sine: validate_primal", times[0]);
    say("port: check", times[1]);
}

/// compile's seven lists, in refusal 12's order.
struct Lists {
    words: Vec<u32>,
    /// constants, column lower, upper, start, row lower, upper.
    numbers: [Vec<f64>; 6],
}

fn lent(words: &[u32], numbers: &[f64]) -> Lists {
    let [words, constants, columns, rows, _] = ours::counts(words, numbers);
    let list = |count| vec![0.0; count];
    Lists { words: vec![0; words], numbers: [constants, columns, columns, columns, rows, rows].map(list) }
}

fn compile_into(words: &[u32], numbers: &[f64], lists: &mut Lists) -> u64 {
    let numbers_lent = lists.numbers.each_mut().map(|list| &mut list[..]);
    ours::compile(words, numbers, &mut lists.words, numbers_lent)
}

/// The check's time by part, as differences between calls that are refused later and later.
fn parts(net: &Net, x: &[f64], own: f64) {
    let (words, numbers) = (net.words(), net.numbers());
    let (n, m) = (net.buses.len(), net.branches.len());
    let needed = 2 * n + 4 * m;
    let number = |refusal: u64| refusal >> 32;
    let last = last_wrong(net);
    let mut far = x.to_vec();
    far[n - 1] = 1025.0;
    let mut without = net.clone();
    without.branches.iter_mut().for_each(|branch| branch.limited = false);
    let unlimited = without.words();
    let mut lists = vec![vec![0.0; needed]; 5];
    let [a, b, c, d, e] = &mut lists[..] else { unreachable!() };
    assert!([7, 10].contains(&number(ours::check(&words, &last, x, own, &PRIMAL, a))));
    assert_eq!(number(ours::check(&words, &numbers, x, own, &PRIMAL, &mut b[1..])), 12);
    assert_eq!(number(ours::check(&words, &numbers, &far, own, &PRIMAL, c)), 14);
    assert_eq!(number(ours::check(&words, &numbers, x, f64::INFINITY, &PRIMAL, d)), 15);
    assert_eq!(number(ours::check(&unlimited, &numbers, x, own, &PRIMAL, e)), 0);
    let mut f = vec![0.0; needed];
    let mut timed = vec![
        Timed::new(|| ours::check(&words, &last, x, own, &PRIMAL, a)),
        Timed::new(|| ours::check(&words, &numbers, x, own, &PRIMAL, &mut b[1..])),
        Timed::new(|| ours::check(&words, &numbers, &far, own, &PRIMAL, c)),
        Timed::new(|| ours::check(&words, &numbers, x, f64::INFINITY, &PRIMAL, d)),
        Timed::new(|| ours::check(&unlimited, &numbers, x, own, &PRIMAL, e)),
        Timed::new(|| ours::check(&words, &numbers, x, own, &PRIMAL, &mut f)),
    ];
    let times = measure(&mut timed);
    let at = |i: usize| times[i][0];
    println!("  the check by part, by the refusal that ends it:");
    let part = |name: &str, time: f64| println!("    {name:<42} {time:>9.2} {:>4.0} %", 100.0 * time / at(5));
    part("network: refusals 1 to 10", at(0));
    part("constants: refusal 11", at(1) - at(0));
    part("point: refusals 12 to 14, and 20", at(2) - at(1));
    part("flows, injections, objective: 15", at(3) - at(2));
    part("residuals without hypotenuses, outputs", at(4) - at(3));
    part("hypotenuses", at(5) - at(4));
    part("the whole check", at(5));
}

/// compile's time by part: refused at the last thing that 1 to 10 look at, refused with 12, and accepted.
fn compile_parts(net: &Net) {
    let (words, numbers) = (net.words(), net.numbers());
    let last = last_wrong(net);
    let (mut a, mut b, mut c) = (lent(&words, &numbers), lent(&words, &numbers), lent(&words, &numbers));
    b.numbers[5].pop();
    let number = |refusal: u64| refusal >> 32;
    assert!([7, 10].contains(&number(compile_into(&words, &last, &mut a))));
    assert_eq!(number(compile_into(&words, &numbers, &mut b)), 12);
    assert_eq!(number(compile_into(&words, &numbers, &mut c)), 0);
    let mut timed = vec![
        Timed::new(|| compile_into(&words, &last, &mut a)),
        Timed::new(|| compile_into(&words, &numbers, &mut b)),
        Timed::new(|| compile_into(&words, &numbers, &mut c)),
    ];
    let times = measure(&mut timed);
    let at = |i: usize| times[i][0];
    println!("  compile by part:");
    let part = |name: &str, time: f64| println!("    {name:<42} {time:>9.2} {:>4.0} %", 100.0 * time / at(2));
    part("network: refusals 1 to 10", at(0));
    part("constants and counts: refusals 11 and 12", at(1) - at(0));
    part("the seven lists", at(2) - at(1));
    part("the whole compile", at(2));
}

/// Row values of compile's own file: the port beside the plain interpreter, and the port where 19 refuses the last row that has a constant.
fn row_values(net: &Net, x: &[f64]) {
    let (words, numbers) = (net.words(), net.numbers());
    let [_, _, columns, rows, shared] = ours::counts(&words, &numbers);
    let mut lists = lent(&words, &numbers);
    assert_eq!(compile_into(&words, &numbers, &mut lists), 0);
    let (words, constants) = (lists.words, &lists.numbers[0]);
    let infinite = last_infinite(&words, constants, columns);
    let [mut s, mut t, mut u] = [(); 3].map(|()| (vec![0.0; shared], vec![0.0; rows]));
    let objective = plain::values(&words, constants, x, &mut s.0, &mut s.1);
    assert_eq!(ours::row_values(&words, constants, columns, x, &mut t.0, &mut t.1), 0);
    assert_eq!(ours::row_values_objective(&words, constants, columns, x, &mut t.0, &mut t.1).to_bits(), objective.to_bits());
    assert_eq!(s, t);
    assert_eq!(ours::row_values(&words, &infinite, columns, x, &mut u.0, &mut u.1) >> 32, 19);
    let mut timed = vec![
        Timed::new(|| plain::values(black_box(&words), constants, x, &mut s.0, &mut s.1)),
        Timed::new(|| ours::row_values(black_box(&words), constants, columns, x, &mut t.0, &mut t.1)),
        Timed::new(|| ours::row_values(black_box(&words), &infinite, columns, x, &mut u.0, &mut u.1)),
    ];
    let times = measure(&mut timed);
    println!("  row values, {} words, {shared} shared parts, {rows} rows:", words.len());
    say("plain interpreter, fdlibm", times[0]);
    say("port: row_values", times[1]);
    say("port: row_values, the last row refused (19)", times[2]);
    let large = net.buses.len() > 1;
    let most = |name: &str, of: usize, aim: f64| {
        let ratio = times[of][0] / times[0][0];
        let met = if ratio <= aim { "met" } else { "not met" };
        if large {
            println!("  {name:<44} {ratio:>9.2}  aim at most {aim:.2}: {met}");
        } else {
            println!("  {name:<44} {ratio:>9.2}");
        }
    };
    most("row_values over the interpreter", 1, 1.5);
    most("the same, refused", 2, 5.0);
}

/// The constants with an infinite one in the last row that has any.
fn last_infinite(words: &[u32], constants: &[f64], columns: usize) -> Vec<f64> {
    let reading = reader::read(words, constants.len(), columns).ok().expect("a file that passes reading");
    let of = |part: &reader::Part| words[part.start..part.start + part.length].iter().find(|&word| word >> 28 == 0);
    let load = reading.rows.iter().rev().find_map(of).expect("a constant");
    let mut infinite = constants.to_vec();
    infinite[*load as usize] = f64::INFINITY;
    infinite
}

/// How the cost grows with the network, and with each list alone.
fn growth() {
    println!("growth, no curves");
    println!("  {:<16} {:>14} {:>12} {:>12} {:>12}", "", "Rust: compile", "validate", "port: check", "compile");
    let all = [
        Sizes(32, 32, 64, 1),
        Sizes(64, 64, 128, 1),
        Sizes(128, 128, 256, 1),
        Sizes(256, 256, 512, 1),
        Sizes(256, 0, 0, 1),
        Sizes(1, 256, 0, 1),
        Sizes(1, 0, 512, 1),
        Sizes(256, 256, 0, 1),
        Sizes(256, 0, 512, 1),
    ];
    for sizes in all {
        let (net, x, own) = case(sizes, false);
        let (words, numbers) = (net.words(), net.numbers());
        let mut outputs = vec![0.0; 2 * net.buses.len() + 4 * net.branches.len()];
        let tables = oracle_text::network(&words, &numbers).expect("a network");
        let model = oracle_text::compile(&tables).expect("a model");
        let mut lists = lent(&words, &numbers);
        let mut timed = vec![
            Timed::new(|| oracle_text::compile(&tables)),
            Timed::new(|| model.check(&x, own)),
            Timed::new(|| ours::check(&words, &numbers, &x, own, &PRIMAL, &mut outputs)),
            Timed::new(|| compile_into(&words, &numbers, &mut lists)),
        ];
        let times = measure(&mut timed);
        let Sizes(n, k, m, _) = sizes;
        let least: Vec<f64> = times.iter().map(|time| time[0]).collect();
        println!("  {:<16} {:>14.2} {:>12.2} {:>12.2} {:>12.2}", format!("{n}/{k}/{m}"), least[0], least[1], least[2], least[3]);
    }
}

/// The numbers with the last thing wrong that 1 to 10 look at: the last branch's s_max, or with no branch the last generator's qmin.
fn last_wrong(net: &Net) -> Vec<f64> {
    let mut last = net.clone();
    match last.branches.last_mut() {
        Some(branch) => branch.numbers[10] = 1e200,
        None => last.generators.last_mut().expect("a generator").numbers[2] = f64::NAN,
    }
    last.numbers()
}

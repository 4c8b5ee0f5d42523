//! Cases: a network file with a point, right or damaged.

use crate::balance::balance;
use crate::networks::{self, Manner, Net, FINITE, NON_FINITE};
use crate::random::Random;

pub struct Case {
    pub words: Vec<u32>,
    pub numbers: Vec<f64>,
    pub x: Vec<f64>,
    pub solver: f64,
}

/// The case of this number.
pub fn case(seed: u64, number: u64) -> Case {
    let mut seeds = Random::new(seed ^ number.wrapping_mul(0xd134_2543_de82_ef95));
    let mut random = Random::new(seeds.bits());
    let random = &mut random;
    let special = random.one_of(&[0, 0, 0, 5, 30, 200]);
    let manner = Manner {
        special,
        non_finite: random.one_of(&[0, 0, 0, 0, 10, 100]),
        curves: random.one_of(&[0, 300, 700, 1000]),
        active: random.one_of(&[0, 500, 800, 1000]),
        points: random.one_of(&[2, 3, 4, 6, 9, 9]),
    };
    let sizes = networks::sizes(random);
    let costs = random.chance(650);
    let mut net = networks::net(random, sizes, costs, manner);
    if special == 0 && random.chance(800) {
        tame(random, &mut net);
    }
    if random.chance(4) && !net.generators.is_empty() {
        let (points, g) = (random.one_of(&[10, 10, 16, 17, 31]), random.below(net.generators.len()));
        net.generators[g].curve = (0..points).map(|i| [i as f64, i as f64]).collect();
    }
    if random.chance(8) {
        overflow(random, &mut net);
    }
    if random.chance(4) && !net.generators.is_empty() {
        // At a start of -0 the segments give -0, then +0.
        let generator = &mut net.generators[0];
        generator.curve = vec![[0.0, -0.0], [1.0, 2.0], [2.0, 4.0]];
        generator.numbers[..2].copy_from_slice(&[-1.0, 1.0]);
        generator.numbers[7] = -0.0;
    }
    let wide = random.chance(100);
    let mut x = networks::point(random, &net, wide);
    let (x, solver) = match random.below(20) {
        0..=8 => {
            let own = balance(&mut net, &x).unwrap_or(0.0);
            (x, own)
        }
        9..=16 => near(random, &mut net, x),
        17 => {
            // Anything, mostly finite.
            let own = balance(&mut net, &x).unwrap_or(0.0);
            for _ in 0..random.whole(1, 3) {
                if !x.is_empty() {
                    let column = random.below(x.len());
                    x[column] = random.one_of(&FINITE);
                }
            }
            (x, own)
        }
        18 => (x.iter().map(|_| random.between(-2.0, 2.0)).collect(), random.between(-2.0, 2.0)),
        _ => {
            let own = balance(&mut net, &x).unwrap_or(0.0);
            wrong_point(random, &mut x, own)
        }
    };
    let mut case = Case { words: net.words(), numbers: net.numbers(), x, solver };
    if random.chance(150) {
        for _ in 0..random.one_of(&[1, 1, 1, 2, 3]) {
            damage(random, &mut case);
        }
    }
    case
}

/// Taps, ratings and bounds that a point can keep.
fn tame(random: &mut Random, net: &mut Net) {
    for branch in &mut net.branches {
        if branch.numbers[6].abs() < 0.1 || branch.numbers[6].abs() > 10.0 {
            branch.numbers[6] = random.between(0.9, 1.1);
        }
        if !branch.numbers[10].is_finite() {
            branch.limited = false;
        }
        if !branch.numbers[8].is_finite() || !branch.numbers[9].is_finite() {
            branch.angled = false;
        }
    }
    for bus in &mut net.buses {
        if !bus.numbers[4].is_finite() || !bus.numbers[5].is_finite() {
            bus.bounded = false;
        }
    }
    for generator in &mut net.generators {
        if generator.numbers[..4].iter().any(|v| !v.is_finite()) {
            generator.bounded = false;
        }
    }
}

/// An objective constant or an epigraph's start that is not finite, where the generators allow it.
fn overflow(random: &mut Random, net: &mut Net) {
    net.costs = true;
    let start = random.chance(500);
    for generator in &mut net.generators {
        if start {
            generator.bounded = false;
            generator.numbers[7] = 1e19;
            generator.curve = vec![[0.0, 0.0], [1.0, 1e300]];
        } else {
            generator.curve.clear();
            generator.numbers[6] = 1e308;
        }
    }
}

/// A double, or one of its neighbours.
fn beside(random: &mut Random, value: f64) -> f64 {
    match random.below(5) {
        0 => value.next_up(),
        1 => value.next_down(),
        2 => value.next_up().next_up(),
        _ => value,
    }
}

/// A point that balances but for one place, which is at a bound or a tolerance, or next to it.
fn near(random: &mut Random, net: &mut Net, mut x: Vec<f64>) -> (Vec<f64>, f64) {
    let (n, k) = (net.buses.len(), net.generators.len());
    if n == 0 {
        return (x, 0.0);
    }
    let off = random.one_of(&[1e-6, 1e-6, 0.0]);
    let sign = random.one_of(&[1.0, -1.0]);
    let epigraphs = net.epigraphs();
    match random.below(9) {
        0 => {
            // A bound of vm, pg or qg.
            let column = n + random.below(n + 2 * k);
            let numbers = if column < 2 * n {
                net.buses[column - n].bounded = true;
                [net.buses[column - n].numbers[4], net.buses[column - n].numbers[5]]
            } else {
                let part = (column - 2 * n) / k * 2;
                let generator = &mut net.generators[(column - 2 * n) % k];
                generator.bounded = true;
                [generator.numbers[part], generator.numbers[part + 1]]
            };
            let bound = if sign < 0.0 { numbers[0] } else { numbers[1] };
            x[column] = beside(random, bound + sign * off);
            for (g, epigraph) in epigraphs.iter().enumerate() {
                if let Some(epigraph) = *epigraph {
                    x[epigraph] = networks::curve_value(&net.generators[g].curve, x[2 * n + g]);
                }
            }
        }
        1 => {
            let bus = random.below(n);
            net.references.truncate(255);
            net.references.push(bus);
            x[bus] = beside(random, sign * off);
        }
        2 => {
            // Swing.
            let bus = random.below(n);
            net.references.retain(|&reference| reference != bus);
            x[bus] = beside(random, sign * 1024.0);
        }
        3 => {
            if let Some(branch) = pick(random, &mut net.branches) {
                let angle = x[branch.from] - x[branch.to];
                branch.angled = true;
                branch.numbers[8] = -3000.0;
                branch.numbers[9] = 3000.0;
                if sign < 0.0 {
                    branch.numbers[8] = beside(random, angle + off);
                } else {
                    branch.numbers[9] = beside(random, angle - off);
                }
            }
        }
        4 => {
            let shift = beside(random, sign * 1024.0);
            if let Some(branch) = pick(random, &mut net.branches) {
                branch.numbers[7] = shift;
            }
        }
        5 => {
            // A rating: from the flows.
            let own = balance(net, &x).unwrap_or(0.0);
            rate(random, net, &x, off);
            return (x, own);
        }
        6 => {
            let own = balance(net, &x).unwrap_or(0.0);
            let columns: Vec<usize> = epigraphs.into_iter().flatten().collect();
            if !columns.is_empty() {
                let column = random.one_of(&columns);
                x[column] = beside(random, x[column] - off);
            }
            return (x, own);
        }
        7 => {
            let own = balance(net, &x).unwrap_or(0.0);
            let solver = beside(random, own + sign * off * own.abs().max(1.0));
            return (x, solver);
        }
        _ => {
            let own = balance(net, &x).unwrap_or(0.0);
            let bus = random.below(n);
            let part = random.below(2);
            let demand = &mut net.buses[bus].numbers[part];
            *demand = beside(random, *demand + sign * off);
            return (x, own);
        }
    }
    let own = balance(net, &x).unwrap_or(0.0);
    (x, own)
}

fn pick<'a, T>(random: &mut Random, list: &'a mut [T]) -> Option<&'a mut T> {
    if list.is_empty() {
        return None;
    }
    let i = random.below(list.len());
    list.get_mut(i)
}

/// Sets one branch's s_max to its larger flow less the tolerance, or next to it; or to within 2^-38 of one end's flow, on either side.
/// At 2^-41 above a flow the check's quick test (crate thermal) passes from one answer to the other.
fn rate(random: &mut Random, net: &mut Net, x: &[f64], off: f64) {
    use oracle::Network;
    let Network::Compiled(compiled) = oracle::network(&net.words(), &net.numbers()) else {
        return;
    };
    let Some(answer) = compiled.outcome(x, 0.0) else {
        return;
    };
    let (n, m) = (net.buses.len(), net.branches.len());
    if m == 0 {
        return;
    }
    let b = random.below(m);
    let flow = |part: usize| answer.outputs[2 * n + part * m + b];
    let ends = [flow(0).hypot(flow(1)), flow(2).hypot(flow(3))];
    let rating = if random.chance(500) {
        ends[0].max(ends[1]) - off
    } else {
        let widest = 0.5f64.powi(38);
        let apart = random.between(-widest, widest);
        random.one_of(&ends) * (1.0 + random.one_of(&[0.0, 0.125 * widest, apart, apart]))
    };
    net.branches[b].limited = true;
    net.branches[b].numbers[10] = beside(random, rating);
}

/// A point of a wrong length, not finite, or with a solver's objective that is not finite.
fn wrong_point(random: &mut Random, x: &mut Vec<f64>, own: f64) -> (Vec<f64>, f64) {
    let mut solver = own;
    match random.below(6) {
        0 => {
            x.pop();
        }
        1 => x.push(random.one_of(&[0.0, f64::NAN])),
        2 => x.clear(),
        3 => solver = random.one_of(&NON_FINITE),
        _ => {
            for _ in 0..random.whole(1, 2) {
                if !x.is_empty() {
                    let column = random.below(x.len());
                    x[column] = random.one_of(&NON_FINITE);
                }
            }
        }
    }
    (std::mem::take(x), solver)
}

fn damage(random: &mut Random, case: &mut Case) {
    let (words, numbers) = (&mut case.words, &mut case.numbers);
    let word = random.below(words.len().max(1));
    let number = random.below(numbers.len().max(1));
    match random.below(12) {
        0 | 1 if !words.is_empty() => words[word] ^= 1 << random.below(32),
        2 if !words.is_empty() => words[word] ^= 1 << random.below(28),
        3 if !words.is_empty() => {
            words.remove(word);
        }
        4 => words.insert(word, random.bits() as u32),
        5 if !words.is_empty() => {
            let other = random.below(words.len());
            words.swap(word, other);
        }
        6 => words.truncate(word),
        7 if !numbers.is_empty() => {
            numbers.remove(number);
        }
        8 => numbers.push(random.one_of(&FINITE)),
        9 if !numbers.is_empty() => numbers[number] = random.one_of(&NON_FINITE),
        10 if !numbers.is_empty() => numbers[number] = random.one_of(&FINITE),
        _ if !numbers.is_empty() => numbers[number] = f64::from_bits(numbers[number].to_bits() ^ 1 << random.below(64)),
        _ => {}
    }
}

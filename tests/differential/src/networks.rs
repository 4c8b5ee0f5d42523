//! Networks and points under a seed.

use crate::random::Random;

/// Zeros, subnormals and numbers whose sums, squares or products overflow.
pub const FINITE: [f64; 26] = [
    0.0,
    -0.0,
    5e-324,
    -5e-324,
    1e-310,
    -1e-310,
    2.2250738585072014e-308,
    1e-200,
    -1e-154,
    1e-6,
    0.5,
    1.0,
    -1.0,
    2.0,
    1024.0,
    -1024.0,
    1e19,
    -1e19,
    1e154,
    -1e154,
    1.3407807929942596e154,
    1.3407807929942599e154,
    1e308,
    -1e308,
    f64::MAX,
    f64::MIN,
];
pub const NON_FINITE: [f64; 3] = [f64::INFINITY, f64::NEG_INFINITY, f64::NAN];

#[derive(Clone, Default)]
pub struct Bus {
    pub bounded: bool,
    /// p_d, q_d, g_s, b_s, vm_min, vm_max, angle start, vm start.
    pub numbers: [f64; 8],
}

#[derive(Clone, Default)]
pub struct Generator {
    pub bus: usize,
    pub bounded: bool,
    /// pmin, pmax, qmin, qmax, q, c, c0, pg, qg.
    pub numbers: [f64; 9],
    /// Power and value.
    pub curve: Vec<[f64; 2]>,
}

#[derive(Clone, Default)]
pub struct Branch {
    pub from: usize,
    pub to: usize,
    pub angled: bool,
    pub limited: bool,
    /// g, b, g_fr, b_fr, g_to, b_to, tap, shift, angle_min, angle_max, s_max.
    pub numbers: [f64; 11],
}

#[derive(Clone, Default)]
pub struct Net {
    pub costs: bool,
    pub buses: Vec<Bus>,
    pub generators: Vec<Generator>,
    pub branches: Vec<Branch>,
    pub references: Vec<usize>,
}

impl Net {
    pub fn words(&self) -> Vec<u32> {
        let word = |kind: u32, load: usize| kind << 28 | load as u32;
        let mut words = vec![word(1, self.costs as usize)];
        words.extend(self.buses.iter().map(|b| word(2, b.bounded as usize)));
        words.extend(self.generators.iter().map(|g| word(3, g.bus | (g.bounded as usize) << 12 | g.curve.len() << 13)));
        words.extend(self.branches.iter().map(|b| {
            let flags = (b.angled as usize) << 24 | (b.limited as usize) << 25;
            word(4, b.from | b.to << 12 | flags)
        }));
        words.extend(self.references.iter().map(|&bus| word(5, bus)));
        words
    }

    pub fn numbers(&self) -> Vec<f64> {
        let mut numbers = Vec::new();
        for bus in &self.buses {
            numbers.extend(bus.numbers);
        }
        for generator in &self.generators {
            numbers.extend(generator.numbers);
            numbers.extend(generator.curve.iter().flatten());
        }
        for branch in &self.branches {
            numbers.extend(branch.numbers);
        }
        numbers
    }

    /// The column of each generator's epigraph, where it has one.
    pub fn epigraphs(&self) -> Vec<Option<usize>> {
        let mut next = 2 * self.buses.len() + 2 * self.generators.len();
        let mut column = |g: &Generator| {
            (self.costs && !g.curve.is_empty()).then(|| {
                next += 1;
                next - 1
            })
        };
        self.generators.iter().map(&mut column).collect()
    }
}

/// The curve's value, by 006.
pub fn curve_value(curve: &[[f64; 2]], power: f64) -> f64 {
    let mut value = f64::NEG_INFINITY;
    for pair in curve.windows(2) {
        let slope = (pair[1][1] - pair[0][1]) / (pair[1][0] - pair[0][0]);
        let intercept = pair[0][1] - slope * pair[0][0];
        value = value.max(slope * power + intercept);
    }
    value
}

/// How many buses, generators, branches and references.
#[derive(Clone, Copy, Debug, PartialEq, Eq)]
pub struct Sizes(pub usize, pub usize, pub usize, pub usize);

pub const LIMITS: Sizes = Sizes(256, 256, 512, 256);

pub fn sizes(random: &mut Random) -> Sizes {
    let small = Sizes(random.whole(1, 6), random.whole(0, 5), random.whole(0, 8), random.whole(0, 3));
    match random.below(4000) {
        0 => LIMITS,
        1 => Sizes { 0: 256, ..small },
        2 => Sizes { 1: 256, ..small },
        3 => Sizes { 2: 512, ..small },
        4 => Sizes { 3: 256, ..small },
        5 => Sizes { 0: 257, ..small },
        6 => Sizes { 1: 257, ..small },
        7 => Sizes { 2: 513, ..small },
        8 => Sizes { 3: 257, ..small },
        9 => Sizes(257, 257, 513, 257),
        10 => Sizes(256, 257, 513, 256),
        11 => Sizes(118, 54, 186, 1),
        12 => Sizes(256, 256, 512, 1),
        13..=40 => Sizes(0, 0, 0, 0),
        41..=80 => Sizes(random.whole(7, 40), random.whole(0, 30), random.whole(0, 60), random.whole(0, 8)),
        _ => small,
    }
}

/// How the numbers are chosen.
#[derive(Clone, Copy)]
pub struct Manner {
    /// Thousandths of numbers that are special.
    pub special: usize,
    /// Thousandths of numbers that are non-finite, where document 01 allows it.
    pub non_finite: usize,
    /// Thousandths of generators with a curve.
    pub curves: usize,
    /// Thousandths of flags set.
    pub active: usize,
    /// The most points of a curve.
    pub points: usize,
}

pub fn net(random: &mut Random, sizes: Sizes, costs: bool, manner: Manner) -> Net {
    let buses = (0..sizes.0).map(|_| bus(random, manner)).collect();
    let ends = sizes.0.max(1);
    let generators = (0..sizes.1).map(|_| generator(random, ends, manner)).collect();
    let branches = (0..sizes.2).map(|_| branch(random, ends, manner)).collect();
    let references = (0..sizes.3).map(|_| random.below(ends)).collect();
    Net { costs, buses, generators, branches, references }
}

fn finite(random: &mut Random, manner: Manner, low: f64, high: f64) -> f64 {
    if random.chance(manner.special) {
        return random.one_of(&FINITE);
    }
    let value = random.between(low, high);
    if random.chance(300) {
        (value * 64.0).round() / 64.0
    } else {
        value
    }
}

fn any(random: &mut Random, manner: Manner, low: f64, high: f64) -> f64 {
    if random.chance(manner.non_finite) {
        return random.one_of(&NON_FINITE);
    }
    finite(random, manner, low, high)
}

fn bus(random: &mut Random, m: Manner) -> Bus {
    let low = any(random, m, 0.8, 0.95);
    let high = any(random, m, 1.05, 1.2);
    let start = match random.below(8) {
        0 => low,
        1 => high,
        2 => random.one_of(&[0.0, -0.0]),
        _ => any(random, m, 0.7, 1.3),
    };
    Bus {
        bounded: random.chance(m.active),
        numbers: [
            finite(random, m, -1.0, 2.0),
            finite(random, m, -1.0, 1.0),
            finite(random, m, -0.1, 0.1),
            finite(random, m, -0.1, 0.1),
            low,
            high,
            any(random, m, -7.0, 7.0),
            start,
        ],
    }
}

fn generator(random: &mut Random, buses: usize, m: Manner) -> Generator {
    let mut curve = Vec::new();
    if random.chance(m.curves) {
        let mut power = finite(random, m, -1.0, 0.5);
        let mut value = finite(random, m, 0.0, 3.0);
        let mut slope = random.between(-1.0, 1.0);
        for _ in 0..random.whole(2.min(m.points), m.points) {
            curve.push([power, value]);
            let step = random.between(0.01, 0.6);
            power += step;
            // Mostly convex.
            let least = if random.chance(100) { -1.0 } else { 0.0 };
            slope += random.between(least, 1.0);
            value += slope * step;
            if random.chance(m.special) {
                value = random.one_of(&FINITE);
            }
        }
    }
    let low = any(random, m, -1.0, 0.5);
    let high = any(random, m, 0.5, 3.0);
    let start = match random.below(8) {
        0 => low,
        1 => high,
        _ => any(random, m, -1.5, 4.0),
    };
    Generator {
        bus: random.below(buses),
        bounded: random.chance(m.active),
        numbers: [
            low,
            high,
            any(random, m, -1.5, 0.0),
            any(random, m, 0.0, 1.5),
            finite(random, m, -0.5, 3.0),
            finite(random, m, -5.0, 40.0),
            finite(random, m, -50.0, 200.0),
            start,
            any(random, m, -2.0, 2.0),
        ],
        curve,
    }
}

fn branch(random: &mut Random, buses: usize, m: Manner) -> Branch {
    let from = random.below(buses);
    let to = if random.chance(60) { from } else { random.below(buses) };
    let tap = match random.below(12) {
        0..=3 => 1.0,
        4 => random.between(-1.2, -0.8),
        5 => random.one_of(&[1e-3, 1e3, -1e-6, 1e6, 1e-100, 1e100]),
        _ => finite(random, m, 0.85, 1.15),
    };
    let shift = match random.below(12) {
        0..=3 => 0.0,
        4 => -0.0,
        5 => random.between(-1024.0, 1024.0),
        6 => random.one_of(&[1024.0, -1024.0, 1024f64.next_down(), 1.5707963267948966, -3.141592653589793]),
        _ => random.between(-0.5, 0.5),
    };
    Branch {
        from,
        to,
        angled: random.chance(m.active),
        limited: random.chance(m.active),
        numbers: [
            finite(random, m, 0.0, 3.0),
            finite(random, m, -9.0, 0.0),
            finite(random, m, -0.02, 0.02),
            finite(random, m, -0.05, 0.1),
            finite(random, m, -0.02, 0.02),
            finite(random, m, -0.05, 0.1),
            if random.chance(m.special) { random.one_of(&FINITE) } else { tap },
            shift,
            any(random, m, -3000.0, -2.0),
            any(random, m, 2.0, 3000.0),
            match random.below(10) {
                0 => random.one_of(&[0.0, -0.0]),
                _ => any(random, m, 30.0, 2000.0),
            },
        ],
    }
}

/// A point within the bounds, with the epigraphs at the curves' values. It balances once `demand` has set what the buses take.
pub fn point(random: &mut Random, net: &Net, wide: bool) -> Vec<f64> {
    let inside = |random: &mut Random, bounded: bool, low: f64, high: f64, usual: [f64; 2]| {
        let (low, high) = if bounded && low.is_finite() && high.is_finite() && low <= high {
            (low.max(-1e3), high.min(1e3))
        } else {
            (usual[0], usual[1])
        };
        match random.below(10) {
            0 => low,
            1 => high,
            _ => random.between(low, high).clamp(low.min(high), low.max(high)),
        }
    };
    let reach = if wide { 1024.0 } else { 0.3 };
    let mut va: Vec<f64> = net.buses.iter().map(|_| random.between(-reach, reach)).collect();
    for &bus in &net.references {
        if let Some(va) = va.get_mut(bus) {
            *va = random.one_of(&[0.0, 0.0, -0.0]);
        }
    }
    let mut x = va;
    for bus in &net.buses {
        let n = &bus.numbers;
        x.push(inside(random, bus.bounded, n[4], n[5], [0.9, 1.1]));
    }
    for part in [0, 2] {
        for generator in &net.generators {
            let n = &generator.numbers;
            x.push(inside(random, generator.bounded, n[part], n[part + 1], [-1.0, 2.0]));
        }
    }
    let first = 2 * net.buses.len();
    for (g, generator) in net.generators.iter().enumerate() {
        if net.costs && !generator.curve.is_empty() {
            x.push(curve_value(&generator.curve, x[first + g]));
        }
    }
    x
}

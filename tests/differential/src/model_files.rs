//! Model files of any writer, right and damaged.

use crate::random::Random;

#[derive(Clone, Default)]
pub struct File {
    pub words: Vec<u32>,
    pub constants: Vec<f64>,
    pub columns: usize,
}

/// Writes a file of its own accord, by the rules but for an expression that is 9 deep now and then.
struct Writer<'a> {
    random: &'a mut Random,
    /// Chooses a constant.
    constant: fn(&mut Random) -> f64,
    file: File,
    shared: usize,
}

impl Writer<'_> {
    fn word(&mut self, kind: u32, load: usize) {
        self.file.words.push(kind << 28 | load as u32);
    }

    /// An expression that nests at most `deep` deep; mostly small.
    fn expression(&mut self, deep: usize, budget: &mut usize) {
        if deep <= 1 || *budget == 0 || self.random.chance(250) {
            return self.leaf();
        }
        *budget -= 1;
        match self.random.below(8) {
            0..=2 => {
                let kind = self.random.whole(6, 8) as u32;
                self.word(kind, 0);
                self.expression(deep - 1, budget);
            }
            3..=5 => {
                let kind = self.random.whole(3, 5) as u32;
                self.word(kind, 0);
                self.expression(deep - 1, budget);
                self.expression(deep - 1, budget);
            }
            _ => {
                let terms = self.random.one_of(&[2, 2, 3, 4, 7]);
                self.word(9, terms);
                for _ in 0..terms {
                    self.expression(deep - 1, budget);
                }
            }
        }
    }

    fn leaf(&mut self) {
        let choice = self.random.below(3);
        if choice == 0 && self.file.columns > 0 {
            let column = self.random.below(self.file.columns);
            return self.word(1, column);
        }
        if choice == 1 && self.shared > 0 {
            let part = self.random.below(self.shared);
            return self.word(2, part);
        }
        self.word(0, self.file.constants.len());
        let value = (self.constant)(self.random);
        self.file.constants.push(value);
    }

    /// Operators one in the other, as deep as said; the deep operand is the first or the last.
    fn chain(&mut self, deep: usize) {
        if deep <= 1 {
            return self.leaf();
        }
        let kind = self.random.whole(3, 9) as u32;
        self.word(kind, if kind == 9 { 2 } else { 0 });
        if (6..=8).contains(&kind) {
            return self.chain(deep - 1);
        }
        if self.random.chance(500) {
            self.chain(deep - 1);
            self.leaf();
        } else {
            self.leaf();
            self.chain(deep - 1);
        }
    }

    fn part(&mut self, many: bool) {
        match self.random.below(60) {
            _ if many => {
                let mut budget = self.random.one_of(&[0, 0, 0, 1]);
                self.expression(2, &mut budget);
            }
            0..=4 => self.chain(8),
            5 => self.chain(9),
            _ => {
                let deep = self.random.whole(1, 8);
                let mut budget = self.random.whole(0, 10);
                self.expression(deep, &mut budget);
            }
        }
    }
}

/// A file of so many columns, and so many shared parts and rows. Where these are more than a hundred, the expressions are small.
pub fn written(random: &mut Random, columns: usize, [shared, rows]: [usize; 2], constant: fn(&mut Random) -> f64) -> File {
    let many = shared + rows > 100;
    let mut writer = Writer { random, constant, file: File { columns, ..File::default() }, shared: 0 };
    for part in 0..shared {
        writer.word(10, part);
        writer.part(many);
        writer.shared += 1;
    }
    for row in 0..rows {
        writer.word(11, row);
        writer.part(many);
    }
    writer.word(12, 0);
    writer.part(many);
    writer.word(13, 0);
    writer.file
}

/// Changes a word, the number of constants or the number of columns.
pub fn damage(random: &mut Random, file: &mut File) {
    let words = &mut file.words;
    let at = random.below(words.len().max(1));
    let other = random.below(words.len().max(1));
    match random.below(14) {
        _ if words.is_empty() => words.push(random.bits() as u32),
        0 | 1 => words[at] ^= 1 << random.below(32),
        2 => words[at] ^= 1 << 28 + random.below(4),
        3 => words[at] = words[at].wrapping_add(1),
        4 => words[at] = words[at].wrapping_sub(1),
        5 => {
            words.remove(at);
        }
        6 => words.insert(at, random.bits() as u32),
        7 => words.insert(at, words[other]),
        8 => words.swap(at, other),
        9 => words.truncate(at),
        10 => words.push(random.one_of(&[0xd000_0000, 0xc000_0000, 0, words[at]])),
        11 => words[at] = (random.below(14) as u32) << 28 | random.below(4) as u32,
        12 => {
            file.constants.pop();
        }
        _ => file.columns = random.one_of(&[0, 1, file.columns + 1, file.columns.saturating_sub(1), usize::MAX]),
    }
}

pub fn any_words(random: &mut Random) -> File {
    let length = random.below(24);
    let words = (0..length).map(|_| match random.below(3) {
        0 => random.bits() as u32,
        1 => (random.below(14) as u32) << 28,
        _ => (random.below(14) as u32) << 28 | random.below(3) as u32,
    });
    File { words: words.collect(), constants: vec![0.0; random.below(4)], columns: random.below(4) }
}

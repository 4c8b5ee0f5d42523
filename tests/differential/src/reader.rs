//! Document 01's rules on reading a model file, and nothing else.

/// A word's kind and load.
pub fn split(word: u32) -> (u32, usize) {
    (word >> 28, (word & 0x0fff_ffff) as usize)
}

/// Where an expression starts, behind its beginning word, and how many words it has.
#[derive(Clone, Copy)]
pub struct Part {
    pub start: usize,
    pub length: usize,
}

impl Part {
    /// The index of its beginning word.
    pub fn begins(&self) -> usize {
        self.start - 1
    }
}

pub struct Reading {
    pub shared: Vec<Part>,
    pub rows: Vec<Part>,
    pub objective: Part,
}

struct Reader<'a> {
    words: &'a [u32],
    constants: usize,
    columns: usize,
    /// The next word, and how many constants the words before it have named.
    at: usize,
    used: usize,
}

/// "Expressions nest at most 8 deep (a leaf is 1)."
const DEEPEST: usize = 8;

/// The parts of the file; or the place of 17.
pub fn read(words: &[u32], constants: usize, columns: usize) -> Result<Reading, usize> {
    let mut reader = Reader { words, constants, columns, at: 0, used: 0 };
    let (mut shared, mut rows) = (Vec::new(), Vec::new());
    let objective = loop {
        let (kind, load) = reader.next()?;
        match kind {
            // "All shared parts come first, then rows, each numbered from 0, then objective and end."
            // "A shared part names only lower ones."
            10 if rows.is_empty() && load == shared.len() => shared.push(reader.expression(shared.len())?),
            11 if load == rows.len() => rows.push(reader.expression(shared.len())?),
            12 if load == 0 => break reader.expression(shared.len())?,
            _ => return Err(reader.at - 1),
        }
    };
    let end = reader.next()?;
    // "the end word if constants are left over"
    if end != (13, 0) || reader.used != constants {
        return Err(reader.at - 1);
    }
    // "and nothing more"
    if reader.at < words.len() {
        return Err(reader.at);
    }
    Ok(Reading { shared, rows, objective })
}

impl Reader<'_> {
    /// "length if they run out"
    fn next(&mut self) -> Result<(u32, usize), usize> {
        let word = *self.words.get(self.at).ok_or(self.words.len())?;
        self.at += 1;
        Ok(split(word))
    }

    /// One expression, which may name shared parts below `named`. `wanted[d]` operands are still to come at depth d + 1.
    fn expression(&mut self, named: usize) -> Result<Part, usize> {
        let start = self.at;
        let mut wanted = vec![1usize];
        while let Some(last) = wanted.last_mut() {
            if *last == 0 {
                wanted.pop();
                continue;
            }
            *last -= 1;
            let (kind, load) = self.next()?;
            let deep = wanted.len();
            let operands = match kind {
                // "constants are numbered from 0 through the whole file", "a constant's below the number of constants"
                0 if load == self.used && load < self.constants => {
                    self.used += 1;
                    0
                }
                1 if load < self.columns => 0,
                2 if load < named => 0,
                3..=5 if load == 0 => 2,
                6..=8 if load == 0 => 1,
                9 if load >= 2 => load,
                _ => return Err(self.at - 1),
            };
            // "A word 9 deep is wrong."
            if deep > DEEPEST {
                return Err(self.at - 1);
            }
            if operands > 0 {
                wanted.push(operands);
            }
        }
        Ok(Part { start, length: self.at - start })
    }
}

//! A plain interpreter of a model file, from documents 01 and 02: shared parts, then rows, then the objective, by recursion. It trusts the
//! file: it has no reading rule and no refusal. Sine and cosine are fdlibm's.

struct Reader<'a> {
    words: &'a [u32],
    constants: &'a [f64],
    point: &'a [f64],
    at: usize,
}

impl Reader<'_> {
    fn value(&mut self, shared: &[f64]) -> f64 {
        let word = self.words[self.at];
        self.at += 1;
        let load = (word & 0x0fff_ffff) as usize;
        match word >> 28 {
            0 => self.constants[load],
            1 => self.point[load],
            2 => shared[load],
            3 => self.value(shared) + self.value(shared),
            4 => self.value(shared) - self.value(shared),
            5 => self.value(shared) * self.value(shared),
            6 => {
                let operand = self.value(shared);
                operand * operand
            }
            7 => oracle_text::cos(self.value(shared)),
            8 => oracle_text::sin(self.value(shared)),
            9 => {
                let mut sum = self.value(shared);
                for _ in 1..load {
                    sum += self.value(shared);
                }
                sum
            }
            _ => panic!("no expression"),
        }
    }
}

/// The objective's value; both lists are as long as there are shared parts and rows.
#[inline(never)]
pub fn values(words: &[u32], constants: &[f64], point: &[f64], shared: &mut [f64], rows: &mut [f64]) -> f64 {
    let mut reader = Reader { words, constants, point, at: 0 };
    for part in 0..shared.len() {
        reader.at += 1;
        shared[part] = reader.value(shared);
    }
    for row in rows {
        reader.at += 1;
        *row = reader.value(shared);
    }
    reader.at += 1;
    reader.value(shared)
}

//! Reads a packed network file (examples/pack) from standard input, compiles it and shows the model file: counts, columns with bounds and
//! starts, shared parts, rows with bounds, and the objective; then the values of these parts at the start. A refusal is shown as its number,
//! word and place.
//!
//! Columns are va, vm, pg, qg and cost, each numbered from 0, and s[k] is shared part k. A number is the shortest decimal that gives the
//! same bits when it is read. An operand that is itself of the form a + b, a - b or a * b stands in parentheses, and ^2 binds tightest, so
//! that the text shows the file's own order of operations.

use std::io::{self, Read, Write};
use std::process::exit;

use fervoulk::{compile, find_row, row_values, Model};

/// The two lists of a network file: counts of words and numbers, then both, little-endian.
fn network(bytes: &[u8]) -> Option<(Vec<u32>, Vec<f64>)> {
    let word = |at: usize| Some(u32::from_le_bytes(bytes.get(at..at + 4)?.try_into().ok()?));
    let number = |at: usize| Some(f64::from_le_bytes(bytes.get(at..at + 8)?.try_into().ok()?));
    let (words, numbers) = (word(0)? as usize, word(4)? as usize);
    if bytes.len() != 8 + 4 * words + 8 * numbers {
        return None;
    }
    let first = 8 + 4 * words;
    Some(((0..words).map(|i| word(8 + 4 * i)).collect::<Option<_>>()?, (0..numbers).map(|i| number(first + 8 * i)).collect::<Option<_>>()?))
}

/// What the columns are called.
struct Names {
    buses: usize,
    generators: usize,
}

impl Names {
    fn of(words: &[u32]) -> Names {
        let kinds = |kind| words.iter().filter(|&&word| word >> 28 == kind).count();
        Names { buses: kinds(2), generators: kinds(3) }
    }

    fn column(&self, j: usize) -> String {
        let mut first = 0;
        for (name, count) in [("va", self.buses), ("vm", self.buses), ("pg", self.generators), ("qg", self.generators)] {
            if j < first + count {
                return format!("{name}[{}]", j - first);
            }
            first += count;
        }
        format!("cost[{}]", j - first)
    }
}

/// Takes expressions from the front of words that passed reading.
struct Reader<'a> {
    words: &'a [u32],
    constants: &'a [f64],
    names: &'a Names,
}

impl Reader<'_> {
    fn next(&mut self) -> (u32, usize) {
        let word = self.words[0];
        self.words = &self.words[1..];
        (word >> 28, (word & 0x0fff_ffff) as usize)
    }

    fn expression(&mut self) -> String {
        let (kind, load) = self.next();
        match kind {
            0 => format!("{:?}", self.constants[load]),
            1 => self.names.column(load),
            2 => format!("s[{load}]"),
            3 => self.infix("+"),
            4 => self.infix("-"),
            5 => self.infix("*"),
            6 => format!("{}^2", self.operand(&[0, 3, 4, 5, 6])),
            7 => format!("cos({})", self.expression()),
            8 => format!("sin({})", self.expression()),
            9 => format!("sum({})", (0..load).map(|_| self.expression()).collect::<Vec<_>>().join(", ")),
            _ => unreachable!("no expression begins with {kind}"),
        }
    }

    fn infix(&mut self, sign: &str) -> String {
        let left = self.operand(&[3, 4, 5]);
        let right = self.operand(&[3, 4, 5]);
        format!("{left} {sign} {right}")
    }

    // in parentheses where it is of one of these kinds
    fn operand(&mut self, kinds: &[u32]) -> String {
        let kind = self.words[0] >> 28;
        let text = self.expression();
        if kinds.contains(&kind) {
            format!("({text})")
        } else {
            text
        }
    }
}

fn show(out: &mut impl Write, model: &Model, names: &Names) -> io::Result<()> {
    writeln!(out, "words              {}", model.words.len())?;
    writeln!(out, "constants          {}", model.constants.len())?;
    writeln!(out, "columns            {}", model.columns)?;
    writeln!(out, "rows               {}", model.rows)?;
    writeln!(out, "shared parts       {}", model.shared)?;
    writeln!(out, "objective constant {:?}", model.objective)?;

    writeln!(out, "\ncolumns: lower, upper, start")?;
    for j in 0..model.columns {
        writeln!(out, "{}: {:?}, {:?}, {:?}", names.column(j), model.column_lower[j], model.column_upper[j], model.start[j])?;
    }

    let mut reader = Reader { words: &model.words, constants: &model.constants, names };
    writeln!(out, "\nshared parts")?;
    for _ in 0..model.shared {
        let (_, k) = reader.next();
        writeln!(out, "s[{k}] = {}", reader.expression())?;
    }

    writeln!(out, "\nrows: lower, upper, expression")?;
    for r in 0..model.rows {
        let row = match find_row(&model.words, model.constants.len(), model.columns, r) {
            Ok(row) => row,
            Err(refusal) => unreachable!("compile wrote row {r}: {refusal}"),
        };
        // the same row, from the front of what is left: behind it stands the next one, or the objective
        reader.next();
        reader.words = &reader.words[row.len()..];
        let expression = Reader { words: row, ..reader }.expression();
        writeln!(out, "{r}: {:?}, {:?}, {expression}", model.row_lower[r], model.row_upper[r])?;
    }

    reader.next();
    writeln!(out, "\nobjective, to which the objective constant is added\n{}", reader.expression())?;
    show_values(out, model)
}

fn show_values(out: &mut impl Write, model: &Model) -> io::Result<()> {
    writeln!(out, "\nvalues at the start")?;
    let values = match row_values(&model.words, &model.constants, model.columns, &model.start) {
        Ok(values) => values,
        Err(refusal) => return writeln!(out, "refused: {refusal}"),
    };
    for (k, value) in values.shared.iter().enumerate() {
        writeln!(out, "s[{k}] = {value:?}")?;
    }
    for (r, value) in values.rows.iter().enumerate() {
        writeln!(out, "{r}: {value:?}")?;
    }
    writeln!(out, "objective {:?}, with the objective constant {:?}", values.objective, values.objective + model.objective)
}

fn main() -> io::Result<()> {
    let mut bytes = Vec::new();
    io::stdin().read_to_end(&mut bytes)?;
    let Some((words, numbers)) = network(&bytes) else {
        eprintln!("model: no network file: its length is not the one that its counts need");
        exit(2);
    };
    match compile(&words, &numbers) {
        Ok(model) => show(&mut io::stdout().lock(), &model, &Names::of(&words)),
        Err(refusal) => writeln!(io::stdout(), "refused: {refusal}"),
    }
}

//! Differential runs: the original text and the port on the same networks and points, through the C boundary.
//!
//! differential N [SEED]
//!
//! Of each case: the check's number and place, the objective and the eight residuals by bits, the output list lent with one number too
//! few, as many as needed and three more, with guard numbers around it, with the text's tolerance for every residual and with lists of
//! others; compile's number and place, its seven lists by bits, its
//! counts and objective constant, each list lent short, long enough and longer, with guards. Lent lists are full of NaNs of many payloads
//! and compared by bits. 1 to 6, 12 and 20 are held to documents 01 and 02 (rules.rs), 16 with other tolerances to the text's residuals,
//! the rest to the text (tests/oracle/src/lib.rs). A NaN in an answer is one NaN, and the zeros that `f64::max` leaves open are counted
//! apart.

use differential::cases::{self, Case};
use differential::compare::{self, Tally};
use differential::random;
use std::fmt::Write as _;

/// Cases that differ are printed, so many at most.
const SHOWN: usize = 10;

fn main() {
    let (count, seed) = random::count_and_seed("differential N [SEED]");
    // The text is not expected to panic; where it does, the message is not wanted.
    std::panic::set_hook(Box::new(|_| {}));
    let mut tally = Tally::default();
    for number in 0..count {
        let case = cases::case(seed, number);
        let differences = compare::case(&case, number, &mut tally);
        if !differences.is_empty() {
            tally.different += 1;
            if tally.different <= SHOWN as u64 {
                println!("DIFFERENT: {}", differences.join("; "));
                println!("{}", text(&case, seed, number));
            }
        }
    }
    tally.print(count, seed);
    if tally.different > 0 {
        std::process::exit(1);
    }
}

/// The case as tests/oracle/run answer reads it.
fn text(case: &Case, seed: u64, number: u64) -> String {
    let mut text = format!("case {seed}-{number}\nwords");
    for word in &case.words {
        write!(text, " {word:08x}").unwrap();
    }
    text += "\nnumbers";
    for value in &case.numbers {
        write!(text, " {:016x}", value.to_bits()).unwrap();
    }
    write!(text, "\npoint {:016x}", case.solver.to_bits()).unwrap();
    for value in &case.x {
        write!(text, " {:016x}", value.to_bits()).unwrap();
    }
    text
}

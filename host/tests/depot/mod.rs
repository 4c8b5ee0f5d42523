//! Document 01's Depot M and its model file.

use fervoulk::{Kind, Refusal};

pub const WORDS: [u32; 4] = [0x10000001, 0x20000001, 0x30001000, 0x50000000];

/// The generator's capability is inactive.
pub const INACTIVE: [u32; 4] = [0x10000001, 0x20000001, 0x30000000, 0x50000000];

pub const NUMBERS: [f64; 17] = [1.0, 0.25, 0.0, 0.0, 0.9, 1.1, 0.0, 1.0, 0.0, 2.0, -1.0, 1.0, 2.0, 3.0, 4.0, 1.0, 0.25];

pub static FILE: [u32; 29] = [
    0xA0000000, 0x60000000, 0x10000001, 0xB0000000, 0x90000003, 0x00000000, 0x50000000, 0x00000001, 0x20000000, 0x10000002, 0xB0000001,
    0x90000003, 0x00000002, 0x50000000, 0x00000003, 0x20000000, 0x10000003, 0xB0000002, 0x10000000, 0xC0000000, 0x90000002, 0x50000000,
    0x00000004, 0x60000000, 0x10000002, 0x50000000, 0x00000005, 0x10000002, 0xD0000000,
];

pub const CONSTANTS: [f64; 6] = [-1.0, -0.0, -0.25, 0.0, 1.0, 3.0];

/// pmin 2, pmax 1
pub fn crossed() -> [f64; 17] {
    let mut numbers = NUMBERS;
    numbers[8] = 2.0;
    numbers[9] = 1.0;
    numbers
}

pub fn refusal(kind: Kind, place: u32) -> Refusal {
    Refusal::new(kind, place)
}

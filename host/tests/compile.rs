//! Document 01's Depot M through `compile`: the P cases, a refused network, and empty lists.

mod depot;

use depot::{crossed, refusal, CONSTANTS, FILE, INACTIVE, NUMBERS, WORDS};
use fervoulk::{compile, find_row, same, Kind, Model};

fn bits(list: &[f64]) -> Vec<u64> {
    list.iter().map(|x| x.to_bits()).collect()
}

fn depot_m() -> Model {
    compile(&WORDS, &NUMBERS).expect("Depot M is accepted")
}

#[test]
fn compiles() {
    let model = depot_m();
    assert_eq!(model.words, FILE);
    // with the sign of zero
    assert_eq!(bits(&model.constants), bits(&CONSTANTS));
    assert_eq!(model.column_lower, [-1e19, 0.9, 0.0, -1.0]);
    assert_eq!(model.column_upper, [1e19, 1.1, 2.0, 1.0]);
    assert_eq!(model.start, [0.0, 1.0, 1.0, 0.25]);
    assert_eq!(model.row_lower, [0.0, 0.0, 0.0]);
    assert_eq!(model.row_upper, [0.0, 0.0, 0.0]);
    assert_eq!((model.columns, model.rows, model.shared), (4, 3, 1));
    assert_eq!(model.objective, 4.0);
}

#[test]
fn va_start_stays_and_vm_start_is_clamped() {
    let mut numbers = NUMBERS;
    numbers[6] = 7.0;
    numbers[7] = 1.25;
    let model = compile(&WORDS, &numbers).expect("starts are no fault");
    assert_eq!(model.start, [7.0, 1.1, 1.0, 0.25]);
}

#[test]
fn compile_refuses() {
    assert_eq!(compile(&WORDS, &crossed()), Err(refusal(Kind::Bounds, 2)));
    assert!(compile(&INACTIVE, &crossed()).is_ok());
    assert_eq!(compile(&WORDS, &[]), Err(refusal(Kind::Count, 17)));
    assert_eq!(compile(&[], &NUMBERS), Err(refusal(Kind::Words, 0)));
    assert_eq!(compile(&[], &[]), Err(refusal(Kind::Words, 0)));
}

#[test]
fn the_file_written_is_read() {
    let model = depot_m();
    assert_eq!(find_row(&model.words, model.constants.len(), model.columns, 2), Ok(&[0x10000000][..]));
    assert!(same(&model.words, &model.constants, &FILE, &CONSTANTS));
}

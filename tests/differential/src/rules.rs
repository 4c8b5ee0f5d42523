//! Refusals 1 to 6 of a network file and 20 of a list of tolerances, read from documents 01 and 02: the original text has none of them.

pub fn first_six(words: &[u32], numbers: &[f64]) -> Option<(u32, usize)> {
    if let Some(place) = wrong_word(words) {
        return Some((1, place));
    }
    if let Some(place) = past_limit(words) {
        return Some((2, place));
    }
    let needed = words.iter().map(|&word| numbers_of(word)).sum();
    if numbers.len() != needed {
        return Some((3, needed));
    }
    let (mut blank, mut curve, mut shift) = (None, None, None);
    let mut at = 0;
    for &word in words {
        let free: &[usize] = match word >> 28 {
            2 => &[4, 5, 6, 7],
            3 => &[0, 1, 2, 3, 7, 8],
            4 => &[8, 9, 10],
            _ => &[],
        };
        for i in 0..numbers_of(word) {
            if !numbers[at + i].is_finite() && !free.contains(&i) {
                blank = blank.or(Some(at + i));
            }
        }
        if word >> 28 == 3 {
            for point in 1..points(word) {
                let power = at + 9 + 2 * point;
                if !(numbers[power] > numbers[power - 2]) {
                    curve = curve.or(Some(power));
                }
            }
        }
        if word >> 28 == 4 && !(-1024.0..=1024.0).contains(&numbers[at + 7]) {
            shift = shift.or(Some(at + 7));
        }
        at += numbers_of(word);
    }
    let numbered = [(4, blank), (5, curve), (6, shift)];
    numbered.into_iter().find_map(|(number, place)| Some((number, place?)))
}

fn points(word: u32) -> usize {
    (word >> 13 & 31) as usize
}

fn numbers_of(word: u32) -> usize {
    match word >> 28 {
        2 => 8,
        3 => 9 + 2 * points(word),
        4 => 11,
        _ => 0,
    }
}

fn wrong_word(words: &[u32]) -> Option<usize> {
    if words.is_empty() {
        return Some(0);
    }
    let mut buses = 0;
    for (i, &word) in words.iter().enumerate() {
        let kind = word >> 28;
        let named = match kind {
            1 => 0x0000_0001,
            2 => 0x0000_0001,
            3 => 0x0003_ffff,
            4 => 0x03ff_ffff,
            5 => 0x0000_0fff,
            _ => return Some(i),
        };
        let in_order = if i == 0 { kind == 1 } else { kind > 1 && kind >= words[i - 1] >> 28 };
        let low = word & 0xfff;
        let buses_right = match kind {
            3 | 5 => low < buses,
            4 => low < buses && (word >> 12 & 0xfff) < buses,
            _ => true,
        };
        let one_point = kind == 3 && points(word) == 1;
        if !in_order || word & 0x0fff_ffff & !named != 0 || !buses_right || one_point {
            return Some(i);
        }
        buses += (kind == 2) as u32;
    }
    None
}

fn past_limit(words: &[u32]) -> Option<usize> {
    let nth = |kind: u32, n: usize| {
        let mut of_kind = (0..words.len()).filter(|&i| words[i] >> 28 == kind);
        of_kind.nth(n)
    };
    if nth(2, 0).is_none() {
        return Some(0);
    }
    nth(2, 256)
        .or_else(|| nth(3, 256))
        .or_else(|| nth(4, 512))
        .or_else(|| nth(5, 256))
        .or_else(|| (0..words.len()).find(|&i| words[i] >> 28 == 3 && points(words[i]) > 9))
}

/// 20: "a list of other than eight (place 0) or a tolerance that is non-finite or below 0 (place 1 to 8, the first)".
pub fn tolerance(list: &[f64]) -> Option<(u32, usize)> {
    if list.len() != 8 {
        return Some((20, 0));
    }
    list.iter().position(|t| !t.is_finite() || *t < 0.0).map(|i| (20, i + 1))
}

//! The mark of a fixed-form Fortran line.

const COLUMNS: usize = if cfg!(fault = "line_of_73_columns") { 73 } else { 72 };

pub fn mark(line: &[u8]) -> u8 {
    let card = &line[..line.len().min(COLUMNS)];
    if card.iter().any(|byte| !(32..=126).contains(byte)) {
        return 15;
    }
    if card.iter().all(|&byte| byte == b' ') || matches!(card[0], b'C' | b'c' | b'*') {
        return 1;
    }
    if card.len() > 5 && card[..5] == *b"     " && card[5] != b' ' {
        return 2;
    }
    let text = card.get(6..).unwrap_or(&[]);
    if begins_with(text, b"EQUIVALENCE(") {
        3
    } else if begins_with(text, b"COMMON") {
        4
    } else {
        0
    }
}

/// Blanks taken out and case ignored.
fn begins_with(text: &[u8], word: &[u8]) -> bool {
    let mut letters = text.iter().filter(|&&byte| byte != b' ').map(u8::to_ascii_uppercase);
    word.iter().all(|&wanted| letters.next() == Some(wanted))
}

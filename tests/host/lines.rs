//! The mark of a line, against RULES, Marks of a line, written once more.

use crate::dice::Dice;
use crate::lent::{Lent, Outcome, mark};

/// The rules, column by column.
fn wanted(line: &[u8]) -> u8 {
    let column = |k: usize| line.get(k - 1).copied().unwrap_or(b' ');
    let card: Vec<u8> = (1..=72).map(column).collect();
    let text: Vec<u8> = card[6..].iter().filter(|&&byte| byte != b' ').map(|byte| byte.to_ascii_uppercase()).collect();
    if card.iter().any(|&byte| byte < 32 || byte > 126) {
        15
    } else if card.iter().all(|&byte| byte == b' ') || b"Cc*".contains(&column(1)) {
        1
    } else if (1..=5).all(|k| column(k) == b' ') && column(6) != b' ' {
        2
    } else if text.starts_with(b"EQUIVALENCE(") {
        3
    } else if text.starts_with(b"COMMON") {
        4
    } else {
        0
    }
}

const WRITTEN: [(&str, u8); 26] = [
    ("     1X=1", 2),
    ("      EQ UIVALENCE (A,B)", 3),
    ("", 1),
    ("      ", 1),
    ("C     EQUIVALENCE(A,B)", 1),
    ("c", 1),
    ("*", 1),
    ("!", 0),
    ("D     X=1", 0),
    (" C", 0),
    ("\t", 15),
    ("      X=1\r", 15),
    ("      X=1\n", 15),
    ("C \x01", 15),
    ("     0EQUIVALENCE(A,B)", 2),
    ("12345+EQUIVALENCE(A,B)", 3),
    ("    1+COMMON A", 4),
    ("  100 equivalence(a,b)", 3),
    ("      EQUIVALENCE", 0),
    ("      EQUIVALENCE A", 0),
    ("      COMMON", 4),
    ("      c o m m o n/ice/h", 4),
    ("      COMMONS=1", 4),
    ("      COMMO", 0),
    ("      xCOMMON", 0),
    ("     ", 1),
];

pub fn lines() -> Outcome<String> {
    for (line, written) in WRITTEN {
        let given = mark(&Lent::of(line.as_bytes()))?;
        if given != written {
            return Err(format!("{line:?} is marked {given}, not {written}"));
        }
    }
    let mut compared = 0;
    for line in edge_lines().chain(random_lines()) {
        let (given, wanted) = (mark(&Lent::of(&line))?, wanted(&line));
        if given != wanted {
            return Err(format!("{:?} is marked {given}, not {wanted}", String::from_utf8_lossy(&line)));
        }
        compared += 1;
    }
    Ok(format!("{compared} lines"))
}

/// Every byte at every column of some lines, and words that end around column 72.
fn edge_lines() -> impl Iterator<Item = Vec<u8>> {
    let blank = vec![b' '; 80];
    let bases = [blank, b"      EQUIVALENCE(A,B)".to_vec(), b"      COMMON A".to_vec(), b"     ".to_vec(), Vec::new()];
    let columns = bases.into_iter().flat_map(|base| (0..80).map(move |column| (base.clone(), column)));
    let bytes = columns.flat_map(|(base, column)| {
        (0..=255).map(move |byte| {
            let mut line = base.clone();
            if column >= line.len() {
                line.resize(column + 1, b' ');
            }
            line[column] = byte;
            line
        })
    });
    let ends = (0..80).flat_map(|indent| {
        ["EQUIVALENCE(", "COMMON", "X"].map(|word| [" ".repeat(indent).as_bytes(), word.as_bytes()].concat())
    });
    bytes.chain(ends)
}

/// Lines made of pieces that matter.
fn random_lines() -> impl Iterator<Item = Vec<u8>> {
    let pieces: [&[u8]; 20] = [
        b" ",
        b"     ",
        b"      ",
        b"C",
        b"*",
        b"0",
        b"1",
        b"EQUIVALENCE(",
        b"equiv",
        b"alence",
        b"EQUI",
        b"VALENCE",
        b"(",
        b"COMMON",
        b"com",
        b"mon",
        b"A,B)",
        b"X=1",
        b"\t",
        b"                      ",
    ];
    let mut dice = Dice::new(77);
    (0..60_000).map(move |_| {
        let mut line = Vec::new();
        for _ in 0..dice.below(9) {
            let choices = if dice.percent(90) { 18 } else { 20 };
            line.extend(pieces[dice.below(choices)]);
        }
        if dice.percent(5) {
            line.push(dice.byte());
        }
        if dice.percent(2) {
            line.resize(dice.below(300), dice.byte());
        }
        line
    })
}

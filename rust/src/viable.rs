//! Which texts some continuation makes a text of the grammar, by another method than the reader's: the productions byte by byte,
//! and every way to go on kept at once. Slow, and for short texts.

/// What is still to come of a text, the next one last.
#[derive(Clone, PartialEq)]
enum Symbol {
    Byte(u8),
    /// Spaces may stand here, and must if a word or number has just ended and this is one.
    Gap(bool),
    /// A word or number (true) or a mark (false) has just ended.
    End(bool),
    /// One of the productions of F options.
    One(&'static str, usize),
}

#[derive(Clone, PartialEq)]
struct Way {
    to_come: Vec<Symbol>,
    behind_word: bool,
}

/// Document 02 and Figure 4.1. A word in capitals is a production; any other is spelled as it stands.
const PRODUCTIONS: &[(&str, &str)] = &[
    ("S", "skip"),
    ("S", "VARIABLE := A"),
    ("S", "{ S ; S }"),
    ("S", "if B then S else S"),
    ("S", "while B do S"),
    ("S", "throw A"),
    ("S", "try S catch VARIABLE with S"),
    ("S", "[ C ? S : S ]"),
    ("A", "NUMBER"),
    ("A", "VARIABLE"),
    ("A", "( A + A )"),
    ("A", "pick ( B ? A : A )"),
    ("A", "[ C ? A : A ]"),
    ("B", "true"),
    ("B", "false"),
    ("B", "not B"),
    ("B", "both ( B and B )"),
    ("B", "( A < A )"),
    ("B", "[ C ? B : B ]"),
    ("C", "true"),
    ("C", "false"),
    ("C", "not C"),
    ("C", "( C and C )"),
    ("C", "( C or C )"),
    ("C", "OPTION"),
];

/// A word, number or mark in bytes, to be put on what is still to come.
fn spelled(word: &str) -> Vec<Symbol> {
    let is_word = word.as_bytes()[0].is_ascii_alphanumeric() || word.starts_with('-');
    let bytes = word.bytes().rev().map(Symbol::Byte);
    let mut symbols = vec![Symbol::End(is_word)];
    symbols.extend(bytes);
    symbols.push(Symbol::Gap(is_word));
    symbols
}

fn right_side(words: &str, options: usize) -> Vec<Symbol> {
    let one = |word: &str| match PRODUCTIONS.iter().find(|(name, _)| *name == word) {
        Some((name, _)) => vec![Symbol::One(name, options)],
        None => match word {
            "VARIABLE" => vec![Symbol::One("VARIABLE", options)],
            "NUMBER" => vec![Symbol::One("NUMBER", options)],
            "OPTION" => vec![Symbol::One("OPTION", options)],
            _ => spelled(word),
        },
    };
    words.split(' ').rev().flat_map(one).collect()
}

/// Digits that may follow in a number whose size is at most `largest`: those below its digits, and those like it so far.
fn numbers(sign: &str, largest: &str) -> Vec<Vec<Symbol>> {
    let mut all = Vec::new();
    let word =
        |digits: String| [vec![Symbol::End(true)], digits_of(&digits), sign_of(sign)].concat();
    for length in 1..largest.len() {
        all.push(word(format!("+{}", "*".repeat(length - 1))));
    }
    for (at, digit) in largest.bytes().enumerate() {
        let lowest = if at == 0 { b'1' } else { b'0' };
        for lower in lowest..digit {
            let rest = "*".repeat(largest.len() - at - 1);
            all.push(word(format!("{}{}{rest}", &largest[..at], lower as char)));
        }
    }
    all.push(word(largest.to_string()));
    all
}

fn sign_of(sign: &str) -> Vec<Symbol> {
    let mut symbols: Vec<Symbol> = sign.bytes().map(Symbol::Byte).collect();
    symbols.push(Symbol::Gap(true));
    symbols
}

/// + is a digit that is not 0, * any digit.
fn digits_of(digits: &str) -> Vec<Symbol> {
    let symbol = |c: char| match c {
        '+' => Symbol::One("1-9", 0),
        '*' => Symbol::One("0-9", 0),
        digit => Symbol::Byte(digit as u8),
    };
    digits.chars().rev().map(symbol).collect()
}

fn bytes(first: u8, last: u8) -> Vec<Vec<Symbol>> {
    (first..=last)
        .map(|byte| vec![Symbol::Byte(byte)])
        .collect()
}

fn named(letter: char, count: usize) -> Vec<Vec<Symbol>> {
    (0..count)
        .map(|k| spelled(&format!("{letter}{k}")))
        .collect()
}

fn right_sides(name: &str, options: usize) -> Vec<Vec<Symbol>> {
    match name {
        "1-9" => bytes(b'1', b'9'),
        "0-9" => bytes(b'0', b'9'),
        "VARIABLE" => named('v', 16),
        "OPTION" => named('o', options),
        "NUMBER" => [
            vec![spelled("0")],
            numbers("", "2147483647"),
            numbers("-", "2147483648"),
        ]
        .concat(),
        _ => {
            let of = PRODUCTIONS.iter().filter(|(left, _)| *left == name);
            of.map(|(_, words)| right_side(words, options)).collect()
        }
    }
}

fn all_texts() -> Vec<Way> {
    let text = |options: usize| {
        let mut to_come = vec![Symbol::Gap(false), Symbol::One("S", options)];
        to_come.extend(spelled(&options.to_string()));
        to_come.extend(spelled("options"));
        Way {
            to_come,
            behind_word: false,
        }
    };
    (0..7).map(text).collect()
}

/// The ways that are left behind this byte.
fn step(ways: Vec<Way>, byte: u8) -> Vec<Way> {
    let mut left: Vec<Way> = Vec::new();
    let mut tried = ways;
    while let Some(mut way) = tried.pop() {
        match way.to_come.pop() {
            Some(Symbol::Byte(expected)) if expected == byte => left.push(way),
            Some(Symbol::End(is_word)) => {
                way.behind_word = is_word;
                tried.push(way);
            }
            Some(Symbol::Gap(is_word)) if byte == b' ' || byte == b'\n' => {
                way.behind_word = false;
                way.to_come.push(Symbol::Gap(is_word));
                left.push(way);
            }
            Some(Symbol::Gap(is_word)) if !(is_word && way.behind_word) => tried.push(way),
            Some(Symbol::One(name, options)) => {
                for right in right_sides(name, options) {
                    let mut way = way.clone();
                    way.to_come.extend(right);
                    tried.push(way);
                }
            }
            _ => (),
        }
    }
    let mut once: Vec<Way> = Vec::new();
    for way in left {
        if !once.contains(&way) {
            once.push(way);
        }
    }
    once
}

/// Whether the text may end here: nothing is to come but spaces.
fn ends(way: &Way) -> bool {
    let nothing = |symbol: &Symbol| matches!(symbol, Symbol::Gap(false) | Symbol::End(_));
    way.to_come.iter().all(nothing)
}

/// The place of 17, or none for a text of the grammar.
pub fn refused_17(text: &[u8]) -> Option<usize> {
    let mut ways = all_texts();
    for (at, &byte) in text.iter().enumerate() {
        ways = step(ways, byte);
        if ways.is_empty() {
            return Some(at);
        }
    }
    (!ways.iter().any(ends)).then_some(text.len())
}

//! Texts changed: with other spaces, damaged, cut off; noise; and conditions of any length.

use super::random::Random;
use super::samples::{condition, image, node};
use crate::paper::image::{Condition, Image};

/// Bytes of a text that stand for something, so that a wrong one is often almost right.
const TELLING: &[u8] = b"vo0123456789-+(){}[]<?:;= \nabcdefhiklnoprstuwyX_\t\r!\x00\xff";

fn is_run(byte: u8) -> bool {
    byte.is_ascii_alphanumeric() || byte == b'-'
}

fn spaces(random: &mut Random, least: usize) -> Vec<u8> {
    let most = random.one_of(&[least, least, 1, 2, 9]);
    (0..random.between(least, most.max(least)))
        .map(|_| random.one_of(b"  \n"))
        .collect()
}

/// The same text with other spaces: where there are none, where there must be some, and at both ends.
pub fn spaced(random: &mut Random, text: &[u8]) -> Vec<u8> {
    let close = random.once_in(3);
    let mut changed = if close { Vec::new() } else { spaces(random, 0) };
    let words: Vec<&[u8]> = text.split(|byte| byte.is_ascii_whitespace()).collect();
    for word in words {
        for (at, &byte) in word.iter().enumerate() {
            let before = at.checked_sub(1).map(|before| word[before]);
            let inside = before.is_none_or(|before| {
                is_run(before) && is_run(byte) || (before, byte) == (b':', b'=')
            });
            if !inside && !close {
                changed.extend(spaces(random, 0));
            }
            changed.push(byte);
        }
        changed.extend(between(random, close));
    }
    changed
}

fn between(random: &mut Random, close: bool) -> Vec<u8> {
    if close {
        vec![b' ']
    } else {
        spaces(random, 1)
    }
}

/// Now and then as it was; else a byte or two changed, put in or taken out, two bytes exchanged, a part doubled, or cut off.
pub fn damaged(random: &mut Random, mut text: Vec<u8>) -> Vec<u8> {
    let times = random.one_of(&[0, 1, 1, 1, 1, 2]);
    for _ in 0..times {
        if text.is_empty() {
            return text;
        }
        let (at, other) = (random.below(text.len()), random.below(text.len()));
        match random.below(8) {
            0 => text[at] = random.whole() as u8,
            1 | 2 => text[at] = random.one_of(TELLING),
            3 => text.insert(at, random.one_of(TELLING)),
            4 => drop(text.remove(at)),
            5 => text.swap(at, other),
            6 => doubled(random, &mut text, at),
            _ => text.truncate(at),
        }
    }
    text
}

fn doubled(random: &mut Random, text: &mut Vec<u8>, at: usize) {
    let end = (at + random.between(1, 12)).min(text.len());
    let part = text[at..end].to_vec();
    text.splice(at..at, part);
}

/// Words and marks in any order, or any bytes.
pub fn noise(random: &mut Random) -> Vec<u8> {
    const WORDS: &[&str] = &[
        "options", "0", "1", "6", "7", "skip", "if", "then", "else", "while", "do", "throw", "try",
        "catch", "with", "true", "false", "not", "both", "pick", "and", "or", "v0", "v15", "v16",
        "o0", "o5", "-1", ":=", "(", ")", "{", "}", "[", "]", "?", ":", ";", "+", "<", " ", "\n",
    ];
    let count = random.below(40);
    if random.once_in(4) {
        return random.bytes(count);
    }
    let start = random.one_of(&["", "options 0 ", "options 3 ", "options 6 {"]);
    let words = (0..count).flat_map(|_| [random.one_of(WORDS), random.one_of(&["", " ", " "])]);
    words
        .fold(start.to_string(), |text, word| text + word)
        .into_bytes()
}

/// A byte changed or put in near a place, or the text cut off there.
pub fn near(random: &mut Random, mut text: Vec<u8>, place: usize) -> Vec<u8> {
    let from = place.saturating_sub(4);
    let at = random.between(from, (place + 8).min(text.len()));
    match random.below(4) {
        0 => text.truncate(at),
        1 if at < text.len() => text[at] = random.one_of(TELLING),
        2 if at < text.len() => drop(text.remove(at)),
        _ => text.insert(at, random.one_of(TELLING)),
    }
    text
}

/// A choice by a condition of so many records, each written once.
pub fn long_condition(random: &mut Random, records: usize) -> Image {
    let mut conditions = Vec::new();
    grow(random, records, &mut conditions);
    let last = conditions.len() - 1;
    let skip = || node(16, 0, [0; 3]);
    image(
        3,
        conditions,
        vec![skip(), skip(), node(23, 0, [last, 0, 1])],
    )
}

/// A condition of exactly `size` records, operands first; gives its number.
fn grow(random: &mut Random, size: usize, conditions: &mut Vec<Condition>) -> usize {
    let record = match size {
        1 => condition(random.below(3), 0, 0, 0),
        _ if size == 2 || random.once_in(8) => {
            condition(3, 0, grow(random, size - 1, conditions), 0)
        }
        _ => {
            let first = random.between(1, size - 2);
            let left = grow(random, first, conditions);
            let right = grow(random, size - 1 - first, conditions);
            condition(random.between(4, 5), 0, left, right)
        }
    };
    conditions.push(record);
    conditions.len() - 1
}

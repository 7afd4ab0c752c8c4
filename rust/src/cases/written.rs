//! Reading and listing: texts by hand and changed byte by byte, texts far too long, images changed bit by bit, and random ones of each.

use super::accepted::accepted;
use super::changed::{asked, changed};
use super::damaged;
use super::random::Random;
use super::samples::{all_kinds, case_g, deep_tree, h, sequences, tower};
use super::texts::{long_condition, near, noise, spaced};
use super::{lent, places, refused, shape, texts};
use crate::call::{Call, Case};
use crate::paper::image::Image;
use crate::paper::lister::{list, text, written_out};
use crate::paper::reader::read;

fn reading(text: &[u8], space: usize) -> Case {
    asked(Call::Read, text, vec![vec![0xee; space]])
}

fn listing(image: &[u8], space: usize) -> Case {
    asked(Call::List, image, vec![vec![0xee; space]])
}

/// What is tried whatever the seed gives, but for the choice of the pairs of bits.
pub fn every(seed: u64) -> impl Iterator<Item = Case> {
    let by_hand = places::all().into_iter().map(|(text, _)| text.into_bytes());
    let texts = by_hand
        .chain(h_changed())
        .chain(long_texts())
        .map(|text| reading(&text, needed(Call::Read, &text) + 9));
    let images = [h(), all_kinds()]
        .into_iter()
        .flat_map(move |image| changed(&image, seed))
        .chain(refused::all().into_iter().map(|(_, image, _)| image))
        .chain(tall_images().into_iter().map(|image| image.write()))
        .map(|image| listing(&image, needed(Call::List, &image) + 9));
    texts.chain(images).chain(spaces()).chain(answers())
}

/// H's text cut off at each byte, and each byte of it changed to every other, put in twice and left out.
fn h_changed() -> impl Iterator<Item = Vec<u8>> {
    let h = text(&h()).into_bytes();
    (0..h.len()).flat_map(move |at| {
        let with = |bytes: &[u8]| [&h[..at], bytes, &h[at + 1..]].concat();
        let mut changed: Vec<_> = (0..=255).map(|byte| with(&[byte])).collect();
        changed.extend([h[..at].to_vec(), with(&[]), with(&[h[at], h[at]])]);
        changed
    })
}

/// Ten million spaces, brackets and words beyond every limit.
fn long_texts() -> Vec<Vec<u8>> {
    let spaces = [&vec![b' '; 10_000_000][..], text(&h()).as_bytes()].concat();
    let starts = [
        "{",
        "throw (",
        "throw [",
        "if not ",
        "[(",
        "[not ",
        "while both(",
        "v0:=",
        "",
    ];
    let parts = [
        "{", "(", "[", "not ", "(", "not ", "both(", "pick(", "options",
    ];
    let nested = starts.iter().zip(parts);
    let mut all: Vec<_> = nested
        .map(|(start, part)| format!("options 6 {start}{}", part.repeat(100_000)).into_bytes())
        .collect();
    all.push(spaces);
    all
}

fn tall_images() -> Vec<Image> {
    vec![
        case_g(),
        deep_tree(1021),
        sequences(1023),
        tower(6, 128),
        tower(32, 128),
        tower(256, 1024),
    ]
}

/// Every length of out around the one that is needed, and none.
fn spaces() -> Vec<Case> {
    let (image, text) = (h().write(), text(&h()).into_bytes());
    let mut cases = Vec::new();
    for space in 0..=image.len() + 20 {
        cases.push(reading(&text, space));
        cases.push(reading(&text[1..], space));
    }
    for space in 0..=text.len() + 20 {
        cases.push(listing(&image, space));
        cases.push(listing(&image[1..], space));
    }
    cases.push(listing(&tower(256, 1024).write(), 0));
    cases
}

/// Answer spaces of 0 to 12 numbers.
fn answers() -> Vec<Case> {
    let (image, text) = (h().write(), text(&h()).into_bytes());
    let calls = [
        reading(&text, 120),
        reading(&text[1..], 120),
        listing(&image, 120),
        listing(&image[1..], 120),
    ];
    let each = |case: &Case| {
        (0..=12)
            .map(|numbers| case.with_answer(vec![0x5a; 8 * numbers]))
            .collect::<Vec<_>>()
    };
    calls.iter().flat_map(each).collect()
}

/// The same random numbers give the same round.
pub fn round(random: &mut Random) -> Vec<Case> {
    let image = image(random);
    let mut cases = vec![lent_for(random, Call::List, image.write())];
    if random.once_in(3) {
        let damaged = damaged::damaged(random, image.clone());
        cases.push(lent_for(random, Call::List, damaged));
    }
    // a text is written for people, so a condition that is shared over and over is not for it
    let listed = if written_out(&image) > 400 {
        text(&h())
    } else {
        text(&image)
    };
    let plain = listed.into_bytes();
    let odd = spaced(random, &plain);
    cases.push(lent_for(random, Call::Read, plain));
    for _ in 0..2 {
        let changed = match read(&odd) {
            // 17 and 18 in one text
            Err(refusal) => near(random, odd.clone(), refusal.place as usize),
            Ok(_) => texts::damaged(random, odd.clone()),
        };
        cases.push(lent_for(random, Call::Read, changed));
    }
    cases.push(lent_for(random, Call::Read, odd));
    if random.once_in(3) {
        let noise = noise(random);
        cases.push(lent_for(random, Call::Read, noise));
    }
    cases
}

/// As for the other calls, and now and then around 1,024 nodes or 256 conditions written out; it need not pass the check.
pub fn image(random: &mut Random) -> Image {
    let at_limit = random.below(24);
    let mut shape = shape(random);
    shape.nodes = shape.nodes.max(1);
    if at_limit == 0 {
        shape.nodes = random.between(1020, 1030);
        shape.conditions = shape.conditions.min(2);
    }
    if at_limit > 2 || at_limit == 0 {
        return accepted(random, shape);
    }
    let records = random.between(250, 262);
    long_condition(random, records)
}

/// The length of what is written, or any for a refusal.
fn needed(call: Call, input: &[u8]) -> usize {
    match call {
        Call::Read => read(input).map_or(64, |image| image.len()),
        _ => list(input).map_or(64, |text| text.len()),
    }
}

/// Just the space that is needed, a byte less, more, or any.
fn lent_for(random: &mut Random, call: Call, input: Vec<u8>) -> Case {
    let needed = needed(call, &input);
    let space = match random.below(8) {
        0 => needed - 1,
        1 => random.below(needed),
        2 | 3 => needed + random.below(40),
        _ => needed,
    };
    Case {
        call,
        guard: random.whole() as u8,
        slices: vec![input, random.bytes(space), lent::answer(random)],
    }
}

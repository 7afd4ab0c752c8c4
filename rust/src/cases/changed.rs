//! Everything that is asked of one image, and images changed bit by bit: each bit by itself, pairs of bits, and every length.

use super::random::Random;
use crate::answer::{to_bytes, ANSWER};
use crate::call::{Call, Case};
use crate::paper::check::check;
use crate::paper::conditions::{condition_sets, settings};
use crate::paper::configure::configure;
use crate::paper::image::Image;

const PAIRS: u64 = 20_000;

/// A case with what is lent between the image and the answer.
pub fn asked(call: Call, image: &[u8], lent: Vec<Vec<u8>>) -> Case {
    let slices = [vec![image.to_vec()], lent, vec![vec![0x77; 8 * ANSWER]]];
    Case {
        call,
        guard: 0xa5,
        slices: slices.concat(),
    }
}

fn configuring(image: &[u8], setting: u64, space: usize) -> Case {
    asked(Call::Configure { setting }, image, vec![vec![0xee; space]])
}

fn one_hall(image: &[u8], setting: u64) -> Case {
    let numbers: Vec<i32> = (-7..9).collect();
    let call = Call::OneHall {
        setting,
        budget: 60,
    };
    asked(call, image, vec![to_bytes(&numbers)])
}

/// The check; for every setting, and some beyond, one hall, and configuring into just the space, a byte less, more, and none; and what is written, checked and
/// configured again.
pub fn configured(image: &[u8]) -> Vec<Case> {
    let mut cases = vec![asked(Call::Check, image, vec![])];
    let Ok(checked) = check(image) else {
        cases.push(configuring(image, 0, image.len()));
        cases.push(one_hall(image, 0));
        return cases;
    };
    let sets = condition_sets(&checked);
    let n = settings(checked.header.options);
    for setting in 0..n {
        let written = configure(&checked, &sets, setting);
        let space = written.len();
        for space in [space, space - 1, space + 9, 0] {
            cases.push(configuring(image, setting, space));
        }
        cases.push(asked(Call::Check, &written, vec![]));
        cases.push(configuring(&written, 0, space));
        cases.push(one_hall(image, setting));
    }
    for beyond in [n, n + 1, 1 << 32, u64::MAX] {
        cases.push(configuring(image, beyond, image.len()));
        cases.push(configuring(image, beyond, 0));
        cases.push(one_hall(image, beyond));
    }
    cases
}

/// The set of a condition, for settings 0 to 64.
pub fn members(image: &[u8], condition: u64) -> impl Iterator<Item = Case> + '_ {
    (0..=64).map(move |setting| asked(Call::ConditionHas { condition, setting }, image, vec![]))
}

/// All this, and the sets of all conditions and of some beyond.
pub fn tried(image: &[u8]) -> Vec<Case> {
    let mut cases = configured(image);
    let Ok(checked) = check(image) else {
        cases.extend(members(image, 0).take(1));
        return cases;
    };
    let beyond = checked.conditions.len() as u64;
    for condition in 0..=beyond {
        cases.extend(members(image, condition));
    }
    cases.extend(members(image, u64::MAX).take(1));
    cases
}

fn flipped(bytes: &[u8], at: usize) -> Vec<u8> {
    let mut bytes = bytes.to_vec();
    bytes[at / 8] ^= 1 << (at % 8);
    bytes
}

/// The image, each bit of it changed by itself, pairs of its bits, and every length from 0 to nine bytes too long.
pub fn changed(image: &Image, seed: u64) -> impl Iterator<Item = Vec<u8>> {
    let bytes = image.write();
    let bits = 8 * bytes.len();
    let (one, two, length) = (bytes.clone(), bytes.clone(), bytes.clone());
    let single = (0..bits).map(move |at| flipped(&one, at));
    let mut random = Random::new(seed, bits as u64);
    let pairs = (0..PAIRS).map(move |_| {
        let once = flipped(&two, random.below(bits));
        flipped(&once, random.below(bits))
    });
    let lengths = (0..=bytes.len() + 9).map(move |to| {
        let mut bytes = length.clone();
        bytes.resize(to, 0);
        bytes
    });
    [bytes]
        .into_iter()
        .chain(single)
        .chain(pairs)
        .chain(lengths)
}

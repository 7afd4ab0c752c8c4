//! What is lent in every wrong length, alone and beside other faults, and answer spaces of every length.

use super::budgets::alone;
use super::changed::asked;
use super::refused;
use super::samples::{h, tower};
use crate::call::{Call, Case};

const BUDGETS: [u32; 4] = [100, 100_000, 100_001, u32::MAX];

/// How many numbers are lent to a run of one setting.
const COUNTS: [usize; 6] = [0, 1, 15, 16, 17, 32];

fn filled(length: usize) -> Vec<u8> {
    (0..length).map(|k| (37 * k + 5) as u8).collect()
}

/// Lengths of store, outcomes, codes and steps in elements: all right, each one less, one more and none, and all none.
fn lengths(n: usize) -> Vec<[usize; 4]> {
    let right = [16 * n, n, n, n];
    let mut all = vec![right, [0; 4]];
    for slice in 0..4 {
        for length in [right[slice] - 1, right[slice] + 1, 0] {
            let mut wrong = right;
            wrong[slice] = length;
            all.push(wrong);
        }
    }
    all
}

fn shared(image: &[u8], set: u64, budget: u32, lengths: [usize; 4]) -> Case {
    let [store, outcomes, codes, steps] = lengths;
    let lent = [4 * store, outcomes, 4 * codes, 4 * steps].map(filled);
    asked(Call::SharedRun { set, budget }, image, lent.to_vec())
}

/// Images to refuse, and two to accept with their settings.
fn images() -> Vec<(Vec<u8>, usize)> {
    let mut images: Vec<_> = refused::all()
        .into_iter()
        .map(|(_, image, _)| (image, 2))
        .collect();
    images.push((h().write(), 2));
    images.push((tower(32, 128).write(), 64));
    images
}

pub fn shared_runs() -> Vec<Case> {
    let mut cases = Vec::new();
    for (image, n) in images() {
        for set in [0, 3, 4, 1 << 63] {
            for budget in BUDGETS {
                cases.extend(
                    lengths(n)
                        .into_iter()
                        .map(|lengths| shared(&image, set, budget, lengths)),
                );
            }
        }
    }
    cases
}

/// Those images, and ones that hold no choice.
fn with_plain() -> Vec<Vec<u8>> {
    let mut images: Vec<_> = images().into_iter().map(|(image, _)| image).collect();
    images.extend([0, 1].map(|setting| alone(&h(), setting)));
    images
}

/// A run of one setting with each count of numbers.
fn counts(call: Call, image: &[u8]) -> impl Iterator<Item = Case> + '_ {
    COUNTS
        .into_iter()
        .map(move |count| asked(call, image, vec![filled(4 * count)]))
}

/// The same of plain runs.
pub fn plain_runs() -> Vec<Case> {
    let mut cases = Vec::new();
    for image in with_plain() {
        for budget in BUDGETS {
            cases.extend(counts(Call::PlainRun { budget }, &image));
        }
    }
    cases
}

/// One hall in settings inside and beyond, so that each two of 11, 10 and 12 meet.
pub fn halls() -> Vec<Case> {
    let mut cases = Vec::new();
    for image in with_plain() {
        for setting in [0, 1, 2, 63, 64, 1 << 32, 1 << 63, u64::MAX] {
            for budget in BUDGETS {
                cases.extend(counts(Call::OneHall { setting, budget }, &image));
            }
        }
    }
    cases
}

/// Every call with an answer space of 0 to 12 numbers; it is carried out with just one of them.
pub fn answers() -> Vec<Case> {
    let mut cases = Vec::new();
    let edition_2 = [&[2], &h().write()[1..]].concat();
    for image in [h().write(), alone(&h(), 1), edition_2] {
        let input = [&3u64.to_be_bytes()[..], &100u32.to_be_bytes(), &image].concat();
        let has = Call::ConditionHas {
            condition: 0,
            setting: 1,
        };
        let hall = Call::OneHall {
            setting: 1,
            budget: 9,
        };
        let calls = [
            asked(Call::Check, &image, vec![]),
            asked(has, &image, vec![]),
            asked(Call::Configure { setting: 0 }, &image, vec![filled(120)]),
            asked(Call::PlainRun { budget: 9 }, &image, vec![filled(64)]),
            asked(hall, &image, vec![filled(64)]),
            shared(&image, 1, 9, [16, 1, 1, 1]),
            shared(&image, 3, 9, [32, 2, 2, 2]),
            asked(Call::Report, &input, vec![filled(100)]),
        ];
        for case in calls {
            cases.extend((0..=12).map(|numbers| case.with_answer(filled(8 * numbers))));
        }
    }
    cases
}

//! What is lent to a call besides the image: its numbers and its slices, right most of the time.

use super::random::Random;
use crate::answer::{to_bytes, to_numbers, values, ANSWER};
use crate::call::{Call, Case};
use crate::paper::image::Header;
use crate::paper::report::text;

/// An image, and its header (as it was before damage, where it is refused).
pub struct Subject {
    pub image: Vec<u8>,
    pub header: Header,
}

impl Subject {
    pub fn settings(&self) -> usize {
        1 << self.header.options
    }
}

/// A slice of `exact` elements of `size` bytes, now and then one less, one more or none.
fn slice(random: &mut Random, exact: usize, size: usize) -> Vec<u8> {
    let count = match random.below(40) {
        0 => exact - 1,
        1 => exact + 1,
        2 => 0,
        _ => exact,
    };
    random.bytes(count * size)
}

/// Numbers to start from: all 0, or any.
pub fn store(random: &mut Random, count: usize) -> Vec<u8> {
    if random.once_in(3) {
        return vec![0; 4 * count];
    }
    to_bytes(&(0..count).map(|_| random.number()).collect::<Vec<_>>())
}

/// Now and then the wrong number of numbers.
fn numbers(random: &mut Random, exact: usize) -> Vec<u8> {
    if random.once_in(10) {
        return slice(random, exact, 4);
    }
    store(random, exact)
}

pub fn answer(random: &mut Random) -> Vec<u8> {
    let numbers = if random.once_in(25) {
        random.below(13)
    } else {
        ANSWER
    };
    random.bytes(8 * numbers)
}

/// A budget that is not refused; a great one only where a run that never ends is soon worked out.
pub fn budget(random: &mut Random, subject: &Subject) -> u32 {
    let small = subject.header.nodes * subject.settings() <= 100;
    let budget = match random.below(24) {
        0 | 1 => 0,
        2..=9 => random.between(1, 8),
        10..=17 => random.between(9, 60),
        18 if small => random.one_of(&[100_000, 99_999]),
        _ => random.between(61, 600),
    };
    budget as u32
}

fn any_budget(random: &mut Random, subject: &Subject) -> u32 {
    match random.below(40) {
        0 => 100_001,
        1 => random.one_of(&[u32::MAX, 1 << 31, 100_002, 1 << 17]),
        _ => budget(random, subject),
    }
}

/// A set inside the settings of the subject.
pub fn set(random: &mut Random, subject: &Subject) -> u64 {
    let full = u64::MAX >> (64 - subject.settings());
    match random.below(8) {
        0 => 0,
        1 => 1 << random.below(subject.settings()),
        2..=4 => full,
        _ => random.whole() & full,
    }
}

fn any_set(random: &mut Random, subject: &Subject) -> u64 {
    let inside = set(random, subject);
    match random.below(20) {
        0 => random.whole(),
        1 => inside | 1 << random.below(64),
        2 if subject.settings() < 64 => inside | 1 << subject.settings(),
        _ => inside,
    }
}

/// A number below `end` most of the time; else one that a careless reading of 32 bits would take for one.
fn mostly_below(random: &mut Random, end: usize) -> u64 {
    let below = random.below(end.max(1)) as u64;
    match random.below(16) {
        0 => end as u64,
        1 => end as u64 + 1,
        2 => below + (1 << 32),
        3 => random.one_of(&[63, 64, 65, 255, 256, 4096, u64::MAX, 1 << 63]),
        _ => below,
    }
}

/// `space` is the length that configuring for the setting needs, where that is known.
pub fn configuring(random: &mut Random, subject: &Subject, setting: u64, space: usize) -> Case {
    case(random, subject, Call::Configure { setting }, |random| {
        let space = match random.below(10) {
            0 => space - 1,
            1 => 0,
            2 => random.below(space),
            3 => space + 1,
            4 | 5 => space + random.below(40),
            _ => space,
        };
        vec![random.bytes(space)]
    })
}

pub fn any_setting(random: &mut Random, subject: &Subject) -> u64 {
    mostly_below(random, subject.settings())
}

pub fn checking(random: &mut Random, subject: &Subject) -> Case {
    case(random, subject, Call::Check, |_| Vec::new())
}

pub fn asking_condition(random: &mut Random, subject: &Subject) -> Case {
    let condition = mostly_below(random, subject.header.conditions);
    let setting = any_setting(random, subject);
    let call = Call::ConditionHas { condition, setting };
    case(random, subject, call, |_| Vec::new())
}

pub fn plain_running(random: &mut Random, subject: &Subject) -> Case {
    let budget = any_budget(random, subject);
    let call = Call::PlainRun { budget };
    let case = case(random, subject, call, |random| vec![numbers(random, 16)]);
    near_the_end(random, case)
}

pub fn running_one_hall(random: &mut Random, subject: &Subject) -> Case {
    let setting = any_setting(random, subject);
    let budget = any_budget(random, subject);
    let call = Call::OneHall { setting, budget };
    let case = case(random, subject, call, |random| vec![numbers(random, 16)]);
    near_the_end(random, case)
}

pub fn shared_running(random: &mut Random, subject: &Subject) -> Case {
    let set = any_set(random, subject);
    let budget = any_budget(random, subject);
    let n = subject.settings();
    let call = Call::SharedRun { set, budget };
    let case = case(random, subject, call, |random| {
        vec![
            numbers(random, 16 * n),
            slice(random, n, 1),
            slice(random, n, 4),
            slice(random, n, 4),
        ]
    });
    near_the_end(random, case)
}

/// A report on the subject: now and then its input is cut, and the space is too short for the text.
pub fn reporting(random: &mut Random, subject: &Subject) -> Case {
    let mut input = any_set(random, subject).to_be_bytes().to_vec();
    input.extend(any_budget(random, subject).to_be_bytes());
    input.extend(&subject.image);
    if random.once_in(12) {
        input.truncate(random.below(24));
    }
    let length = text(&input).len();
    let space = match random.below(6) {
        0 => length - 1,
        1 => random.below(length),
        2 => length + random.below(40),
        3 => 2112,
        _ => length,
    };
    Case {
        call: Call::Report,
        guard: random.whole() as u8,
        slices: vec![input, random.bytes(space), answer(random)],
    }
}

/// Now and then a run gets a budget that ends with it: as many steps as a setting takes, one less or one more,
/// and never one that is refused.
pub fn near_the_end(random: &mut Random, mut case: Case) -> Case {
    if !random.once_in(3) {
        return case;
    }
    let after = case.expected().slices;
    let Some([_, _, alone_steps]) = values(&after[after.len() - 1]) else {
        return case;
    };
    let near = |random: &mut Random, steps: u32| {
        let near = (steps + random.below(3) as u32).saturating_sub(1);
        near.min(100_000)
    };
    match &mut case.call {
        Call::PlainRun { budget } | Call::OneHall { budget, .. } => {
            *budget = near(random, alone_steps as u32)
        }
        Call::SharedRun { budget, .. } => {
            let steps = random.one_of(&to_numbers(&after[4]));
            *budget = near(random, steps as u32);
        }
        _ => (),
    }
    case
}

/// The image, the slices of the call, and the answer.
fn case(
    random: &mut Random,
    subject: &Subject,
    call: Call,
    lent: impl FnOnce(&mut Random) -> Vec<Vec<u8>>,
) -> Case {
    let mut slices = vec![subject.image.clone()];
    slices.extend(lent(random));
    slices.push(answer(random));
    Case {
        call,
        guard: random.whole() as u8,
        slices,
    }
}

/// A call of the sets, with members and counts inside and outside their range.
pub fn of_sets(random: &mut Random) -> Case {
    let sets = [0, 1, u64::MAX, 1 << 63, random.whole(), random.whole()];
    let (a, b) = (random.one_of(&sets), random.one_of(&sets));
    let few = random.below(9) as u32;
    let count = random.one_of(&[few, few, few, u32::MAX, 32, 64, 1 << 31]);
    let call = match random.below(8) {
        0 => Call::Meet(a, b),
        1 => Call::Join(a, b),
        2 => Call::TakeAway(a, b),
        3 => Call::Has(a, mostly_below(random, 64)),
        4 => Call::Count(a),
        5 => Call::Full(count),
        6 => Call::FullRefusal(count),
        _ => Call::Option(a, count),
    };
    Case {
        call,
        guard: random.whole() as u8,
        slices: vec![random.bytes(8)],
    }
}

//! A call of the bench: its numbers, the bytes of every slice lent to it, and what documents 01 and 02 say they become.

use crate::answer::{to_bytes, to_numbers, After, ANSWER};
use crate::paper::check::{check, lowest_choice, refuse_at, refuse_if, Refusal};
use crate::paper::conditions::{condition_sets, has, set_of, settings};
use crate::paper::shared::State;
use crate::paper::{configure, hall, lister, plain, reader, report, shared, tree};

#[derive(Clone, Copy, Debug)]
pub enum Call {
    Check,
    ConditionHas { condition: u64, setting: u64 },
    Configure { setting: u64 },
    PlainRun { budget: u32 },
    OneHall { setting: u64, budget: u32 },
    SharedRun { set: u64, budget: u32 },
    Report,
    Read,
    List,
    Meet(u64, u64),
    Join(u64, u64),
    TakeAway(u64, u64),
    Has(u64, u64),
    Count(u64),
    Full(u32),
    FullRefusal(u32),
    Option(u64, u32),
}

/// Slices: the image (of the report its input, of the reader the text), then out; or the numbers; or store, outcomes, codes and steps; and last the answer. A call of
/// the sets has one slice, for its result. Numbers in slices are little-endian.
#[derive(Clone)]
pub struct Case {
    pub call: Call,
    pub guard: u8,
    pub slices: Vec<Vec<u8>>,
}

type Three = Result<[u64; 3], Refusal>;

impl Case {
    /// What must come of the call: it answers exactly where the answer space is right, and else changes nothing.
    pub fn expected(&self) -> After {
        let mut slices = self.slices.clone();
        let last = slices.len() - 1;
        let right = slices[last].len() == 8 * ANSWER;
        if let Some(result) = self.set_result() {
            slices[0] = result.to_le_bytes().to_vec();
        } else if right {
            let answer = match self.carried_out(&mut slices) {
                Ok([first, second, third]) => [0, 0, first, second, third, 0, 0, 0],
                Err(refusal) => [refusal.number, refusal.place, 0, 0, 0, 0, 0, 0],
            };
            slices[last] = answer.iter().flat_map(|n: &u64| n.to_le_bytes()).collect();
        }
        let returned = right || self.set_result().is_some();
        After { returned, slices }
    }

    /// The same call with another answer space.
    pub fn with_answer(&self, answer: Vec<u8>) -> Case {
        let mut case = self.clone();
        case.slices.pop();
        case.slices.push(answer);
        case
    }

    fn carried_out(&self, after: &mut [Vec<u8>]) -> Three {
        let image = &self.slices[0];
        match self.call {
            Call::ConditionHas { condition, setting } => condition_has(image, condition, setting),
            Call::Configure { setting } => configured(image, setting, &mut after[1]),
            Call::PlainRun { budget } => plain_run(image, budget, &mut after[1]),
            Call::OneHall { setting, budget } => one_hall(image, setting, budget, &mut after[1]),
            Call::SharedRun { set, budget } => shared_run(image, set, budget, &mut after[1..5]),
            Call::Report => Ok(reported(image, &mut after[1])),
            Call::Read => written(reader::read(image)?, &mut after[1]),
            Call::List => written(lister::list(image)?.into_bytes(), &mut after[1]),
            _ => check(image).map(|image| {
                let header = image.header;
                [header.options, header.conditions, header.nodes].map(|n| n as u64)
            }),
        }
    }

    /// The result of a call of the sets, worked out member by member.
    fn set_result(&self) -> Option<u64> {
        Some(match self.call {
            Call::Meet(a, b) => set_of(64, |s| has(a, s) && has(b, s)),
            Call::Join(a, b) => set_of(64, |s| has(a, s) || has(b, s)),
            Call::TakeAway(a, b) => set_of(64, |s| has(a, s) && !has(b, s)),
            Call::Has(a, s) => u64::from(has(a, s)),
            Call::Count(a) => (0..64).filter(|&s| has(a, s)).count() as u64,
            Call::Full(f) if f > 6 => 0,
            Call::Full(f) => set_of(settings(f as usize), |_| true),
            Call::FullRefusal(f) => 3 * u64::from(f > 6),
            Call::Option(full, k) => set_of(64, |s| has(full, s) && k < 6 && s >> k & 1 == 1),
            _ => return None,
        })
    }
}

fn condition_has(image: &[u8], condition: u64, setting: u64) -> Three {
    let image = check(image)?;
    refuse_if(condition >= image.conditions.len() as u64, 15)?;
    let set = condition_sets(&image)[condition as usize];
    Ok([u64::from(has(set, setting)), 0, 0])
}

fn configured(image: &[u8], setting: u64, out: &mut [u8]) -> Three {
    let image = check(image)?;
    refuse_if(setting >= settings(image.header.options), 11)?;
    let bytes = configure::configure(&image, &condition_sets(&image), setting);
    written(bytes, out)
}

/// From the start of `out`, where there is space for all of it.
fn written(bytes: Vec<u8>, out: &mut [u8]) -> Three {
    refuse_if(out.len() < bytes.len(), 14)?;
    out[..bytes.len()].copy_from_slice(&bytes);
    Ok([bytes.len() as u64, 0, 0])
}

fn plain_run(image: &[u8], budget: u32, numbers: &mut [u8]) -> Three {
    let image = check(image)?;
    refuse_at(lowest_choice(&image), 13)?;
    refuse_if(budget > 100_000, 10)?;
    refuse_if(numbers.len() != 4 * 16, 12)?;
    let mut sixteen = to_numbers(numbers);
    let (ended, steps) = plain::run(&tree::routine(&image), budget, &mut sixteen);
    numbers.copy_from_slice(&to_bytes(&sixteen));
    Ok(outcome_code_steps(ended, steps))
}

/// "Refusals: 1 to 8, 11, 10, 12 in that order"
fn one_hall(image: &[u8], setting: u64, budget: u32, numbers: &mut [u8]) -> Three {
    let image = check(image)?;
    refuse_if(setting >= settings(image.header.options), 11)?;
    refuse_if(budget > 100_000, 10)?;
    refuse_if(numbers.len() != 4 * 16, 12)?;
    let mut sixteen = to_numbers(numbers);
    let routine = tree::routine(&image);
    let sets = condition_sets(&image);
    let (ended, steps) = hall::run(&routine, &sets, setting, budget, &mut sixteen);
    numbers.copy_from_slice(&to_bytes(&sixteen));
    Ok(outcome_code_steps(ended, steps))
}

fn outcome_code_steps(ended: plain::Ended, steps: u32) -> [u64; 3] {
    let (outcome, code) = match ended {
        plain::Ended::Done => (1, 0),
        plain::Ended::Fault(n) => (2, n),
        plain::Ended::Out => (3, 0),
    };
    [outcome, u64::from(code as u32), u64::from(steps)]
}

/// `lent` is store, outcomes, codes and steps.
fn shared_run(image: &[u8], set: u64, budget: u32, lent: &mut [Vec<u8>]) -> Three {
    let image = check(image)?;
    let n = settings(image.header.options);
    refuse_if((n..64).any(|s| has(set, s)), 9)?;
    refuse_if(budget > 100_000, 10)?;
    let lengths = [4 * 16, 1, 4, 4].map(|each| each * n as usize);
    refuse_if((0..4).any(|i| lent[i].len() != lengths[i]), 12)?;
    let mut store = to_numbers(&lent[0]);
    let routine = tree::routine(&image);
    let ended = shared::run(
        &routine,
        &condition_sets(&image),
        n,
        set,
        budget,
        &mut store,
    );
    lent[0] = to_bytes(&store);
    lent[1] = ended.states.iter().map(|&state| outcome(state)).collect();
    lent[2] = to_bytes(&ended.states.iter().map(|&s| code(s)).collect::<Vec<_>>());
    lent[3] = ended.steps.iter().flat_map(|n| n.to_le_bytes()).collect();
    let in_fault = ended.set(|state| matches!(state, State::Fault(_)));
    let out = ended.set(|state| state == State::Out);
    Ok([ended.visits, in_fault, out])
}

/// The length of the text, and 1 where `out` is too short for it: then it stays as it was.
fn reported(input: &[u8], out: &mut [u8]) -> [u64; 3] {
    let text = report::text(input);
    let short = out.len() < text.len();
    if !short {
        out[..text.len()].copy_from_slice(text.as_bytes());
    }
    [text.len() as u64, u64::from(short), 0]
}

fn outcome(state: State) -> u8 {
    match state {
        State::Idle => 0,
        State::Live => 1,
        State::Fault(_) => 2,
        State::Out => 3,
    }
}

fn code(state: State) -> i32 {
    match state {
        State::Fault(n) => n,
        _ => 0,
    }
}

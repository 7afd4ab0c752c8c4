//! The report: a line for each setting and one for the whole run, or the line of a refusal.

use super::check::{check, refuse_if, Refusal};
use super::conditions::{condition_sets, has, settings};
use super::shared::{run, State};
use super::tree::routine;

pub fn text(input: &[u8]) -> String {
    match lines(input) {
        Ok(lines) => lines,
        Err(refusal) => format!("refused {} at {}\n", refusal.number, refusal.place),
    }
}

/// "the set in 8 bytes and the budget in 4, most significant first, then the image; all numbers start at 0"
fn lines(input: &[u8]) -> Result<String, Refusal> {
    refuse_if(input.len() < 12, 16)?;
    let number = |bytes: &[u8]| bytes.iter().fold(0, |n, &byte| n << 8 | u64::from(byte));
    let (set, budget) = (number(&input[..8]), number(&input[8..12]));
    let image = check(&input[12..])?;
    let n = settings(image.header.options);
    refuse_if((n..64).any(|s| has(set, s)), 9)?;
    refuse_if(budget > 100_000, 10)?;
    let mut store = vec![0; 16 * n as usize];
    let sets = condition_sets(&image);
    let ended = run(&routine(&image), &sets, n, set, budget as u32, &mut store);
    let mut text = String::new();
    for (s, (state, steps)) in ended.states.iter().zip(&ended.steps).enumerate() {
        let (word, code) = match *state {
            State::Idle => ("idle", 0),
            State::Live => ("done", 0),
            State::Fault(n) => ("fault", n),
            State::Out => ("out", 0),
        };
        text += &format!("{s} {word} {code} {steps}\n");
    }
    let members = |asked: fn(State) -> bool| ended.set(asked).count_ones();
    let faults = members(|state| matches!(state, State::Fault(_)));
    let out = members(|state| state == State::Out);
    Ok(text + &format!("visits {} faults {faults} out {out}\n", ended.visits))
}

//! What the cases came to, so that a reader sees that nothing was left out.

use crate::answer::{to_answer, After};
use crate::call::{Call, Case};
use std::collections::BTreeMap;
use std::fmt::{Display, Formatter, Result};

#[derive(Default)]
pub struct Tally {
    /// How often each number came (0 for carried out), of the calls that answered.
    numbers: BTreeMap<u64, u64>,
    /// How many calls had a wrong answer space.
    unanswered: u64,
    /// How many settings of shared runs ended in each outcome.
    outcomes: [u64; 4],
    /// How many plain runs ended in each outcome (there is no idle one).
    plain: [u64; 4],
    /// The same of one hall.
    halls: [u64; 4],
}

impl Tally {
    pub fn add(&mut self, case: &Case, after: &After) {
        self.unanswered += u64::from(!after.returned);
        let after = &after.slices;
        let [number, _, first, _, _, 0, 0, 0] = to_answer(&after[after.len() - 1])[..] else {
            return;
        };
        *self.numbers.entry(number).or_default() += 1;
        match case.call {
            Call::SharedRun { .. } if number == 0 => {
                for &outcome in &after[2] {
                    self.outcomes[outcome as usize] += 1;
                }
            }
            Call::PlainRun { .. } if number == 0 => self.plain[first as usize] += 1,
            Call::OneHall { .. } if number == 0 => self.halls[first as usize] += 1,
            _ => (),
        }
    }
}

impl Display for Tally {
    fn fmt(&self, to: &mut Formatter) -> Result {
        write!(to, "numbers answered (0 is carried out):")?;
        for (number, times) in &self.numbers {
            write!(to, " {number}: {times}")?;
        }
        write!(to, "\ncalls with a wrong answer space: {}", self.unanswered)?;
        let [idle, done, fault, out] = self.outcomes;
        write!(
            to,
            "\nsettings of shared runs: idle {idle}, done {done}, fault {fault}, out {out}"
        )?;
        let [_, done, fault, out] = self.plain;
        write!(to, "\nplain runs: done {done}, fault {fault}, out {out}")?;
        let [_, done, fault, out] = self.halls;
        write!(to, "\none hall: done {done}, fault {fault}, out {out}")
    }
}

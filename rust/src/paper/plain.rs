//! The plain run: one setting, statement by statement.

use super::evaluate::Here;
use super::tree::Statement;

#[derive(Clone, Copy, PartialEq, Debug)]
pub enum Ended {
    Done,
    Fault(i32),
    Out,
}

pub struct Plain<'a> {
    budget: u32,
    numbers: &'a mut [i32],
    steps: u32,
}

/// A plain routine holds no choice (refusal 13), so it asks no condition.
pub fn run(routine: &Statement, budget: u32, numbers: &mut [i32]) -> (Ended, u32) {
    let mut plain = Plain {
        budget,
        numbers,
        steps: 0,
    };
    let ended = plain.statement(routine);
    (ended, plain.steps)
}

impl Plain<'_> {
    fn here(&self) -> Here<'_> {
        Here {
            setting: 0,
            sets: &[],
            numbers: self.numbers,
        }
    }

    /// "Before a statement is begun, a run which has already begun as many as its budget stops as out."
    fn begin(&mut self) -> bool {
        let spent = self.steps == self.budget;
        if !spent {
            self.steps += 1;
        }
        !spent
    }

    fn statement(&mut self, statement: &Statement) -> Ended {
        if !self.begin() {
            return Ended::Out;
        }
        match statement {
            Statement::Skip => Ended::Done,
            Statement::Assign(variable, a) => {
                self.numbers[*variable] = self.here().arithmetic(a);
                Ended::Done
            }
            Statement::Sequence(a, b) => match self.statement(a) {
                Ended::Done => self.statement(b),
                other => other,
            },
            Statement::If(test, b, _) if self.here().boolean(test) => self.statement(b),
            Statement::If(_, _, c) => self.statement(c),
            Statement::While(test, body) => {
                // begun for the first test already, "and anew before each later test"
                while self.here().boolean(test) {
                    match self.statement(body) {
                        Ended::Done if self.begin() => (),
                        Ended::Done => return Ended::Out,
                        other => return other,
                    }
                }
                Ended::Done
            }
            Statement::Throw(a) => Ended::Fault(self.here().arithmetic(a)),
            Statement::Try(body, variable, handler) => match self.statement(body) {
                // "stores n in its variable, clears the fault and runs its handler"
                Ended::Fault(n) => {
                    self.numbers[*variable] = n;
                    self.statement(handler)
                }
                // "Out is never caught."
                other => other,
            },
            Statement::Choice(..) => unreachable!("refusal 13 let a choice through"),
        }
    }
}

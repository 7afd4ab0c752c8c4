//! Expressions in one setting; they count no step.

use super::conditions::has;
use super::tree::{Arithmetic, Boolean};

/// The setting an expression is worked out for: its numbers, and the sets that decide its choices.
pub struct Here<'a> {
    pub setting: u64,
    pub sets: &'a [u64],
    pub numbers: &'a [i32],
}

impl Here<'_> {
    fn holds(&self, condition: usize) -> bool {
        has(self.sets[condition], self.setting)
    }

    pub fn arithmetic(&self, expression: &Arithmetic) -> i32 {
        match expression {
            Arithmetic::Number(value) => *value,
            Arithmetic::Variable(variable) => self.numbers[*variable],
            Arithmetic::Sum(a, b) => {
                wrapped(i64::from(self.arithmetic(a)) + i64::from(self.arithmetic(b)))
            }
            Arithmetic::Pick(test, b, _) if self.boolean(test) => self.arithmetic(b),
            Arithmetic::Pick(_, _, c) => self.arithmetic(c),
            Arithmetic::Choice(condition, b, _) if self.holds(*condition) => self.arithmetic(b),
            Arithmetic::Choice(_, _, c) => self.arithmetic(c),
        }
    }

    pub fn boolean(&self, expression: &Boolean) -> bool {
        match expression {
            Boolean::Constant(value) => *value,
            Boolean::Not(a) => !self.boolean(a),
            Boolean::And(a, b) => self.boolean(a) && self.boolean(b),
            Boolean::Less(a, b) => self.arithmetic(a) < self.arithmetic(b),
            Boolean::Choice(condition, b, _) if self.holds(*condition) => self.boolean(b),
            Boolean::Choice(_, _, c) => self.boolean(c),
        }
    }
}

/// "A sum that leaves the range wraps modulo 2^32 into the signed range."
fn wrapped(sum: i64) -> i32 {
    let range = 1i64 << 32;
    let low = i64::from(i32::MIN);
    ((sum - low).rem_euclid(range) + low) as i32
}

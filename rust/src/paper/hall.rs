//! One hall at once (document 02, C-18): the routine as it stands, run in one setting. What is left to do waits on a stack, the next thing last,
//! and a choice is followed where the run meets it.

use super::conditions::has;
use super::evaluate::Here;
use super::plain::Ended;
use super::tree::Statement;

enum Left<'a> {
    Run(&'a Statement),
    /// Behind a try's body: its variable and its handler.
    Handler(usize, &'a Statement),
}

struct Hall<'a> {
    setting: u64,
    sets: &'a [u64],
    numbers: &'a mut [i32],
    left: Vec<Left<'a>>,
    fault: Option<i32>,
}

/// The sets are those of the conditions.
pub fn run(
    routine: &Statement,
    sets: &[u64],
    setting: u64,
    budget: u32,
    numbers: &mut [i32],
) -> (Ended, u32) {
    let mut hall = Hall {
        setting,
        sets,
        numbers,
        left: vec![Left::Run(routine)],
        fault: None,
    };
    let mut steps = 0;
    while let Some(statement) = hall.upcoming() {
        // "Out is never caught."
        if steps == budget {
            return (Ended::Out, steps);
        }
        steps += 1;
        hall.begun(statement);
    }
    (hall.fault.map_or(Ended::Done, Ended::Fault), steps)
}

impl<'a> Hall<'a> {
    fn here(&self) -> Here<'_> {
        Here {
            setting: self.setting,
            sets: self.sets,
            numbers: self.numbers,
        }
    }

    /// The statement to begin next: a fault passes by all but a handler, and a handler waits for one.
    fn upcoming(&mut self) -> Option<&'a Statement> {
        loop {
            let mut next = match (self.left.pop()?, self.fault) {
                (Left::Run(statement), None) => statement,
                (Left::Handler(variable, handler), Some(n)) => {
                    self.numbers[variable] = n;
                    self.fault = None;
                    handler
                }
                _ => continue,
            };
            while let Statement::Choice(condition, b, c) = next {
                next = if has(self.sets[*condition], self.setting) {
                    b
                } else {
                    c
                };
            }
            return Some(next);
        }
    }

    fn begun(&mut self, statement: &'a Statement) {
        match statement {
            // `upcoming` has followed every choice
            Statement::Skip | Statement::Choice(..) => (),
            Statement::Assign(variable, a) => self.numbers[*variable] = self.here().arithmetic(a),
            Statement::Sequence(a, b) => self.left.extend([Left::Run(b), Left::Run(a)]),
            Statement::If(test, b, c) => {
                let taken = if self.here().boolean(test) { b } else { c };
                self.left.push(Left::Run(taken));
            }
            Statement::While(test, body) => {
                if self.here().boolean(test) {
                    self.left.extend([Left::Run(statement), Left::Run(body)]);
                }
            }
            Statement::Throw(a) => self.fault = Some(self.here().arithmetic(a)),
            Statement::Try(body, variable, handler) => self
                .left
                .extend([Left::Handler(*variable, handler), Left::Run(body)]),
        }
    }
}

//! The shared run: each statement once for all the settings it is run for.

use super::conditions::{has, set_of};
use super::evaluate::Here;
use super::tree::{Boolean, Statement};

#[derive(Clone, Copy, PartialEq, Debug)]
pub enum State {
    Idle,
    Live,
    Fault(i32),
    Out,
}

pub struct Shared<'a> {
    sets: &'a [u64],
    budget: u32,
    store: &'a mut [i32],
    states: Vec<State>,
    steps: Vec<u32>,
    visits: u64,
}

pub struct Ended {
    /// A setting still live at the end is done.
    pub states: Vec<State>,
    pub steps: Vec<u32>,
    pub visits: u64,
}

/// The sets are those of the conditions; setting s has the sixteen numbers from 16s.
pub fn run(
    routine: &Statement,
    sets: &[u64],
    settings: u64,
    set: u64,
    budget: u32,
    store: &mut [i32],
) -> Ended {
    let inside = |s| has(set, s);
    let mut shared = Shared {
        sets,
        budget,
        store,
        states: (0..settings)
            .map(|s| if inside(s) { State::Live } else { State::Idle })
            .collect(),
        steps: vec![0; settings as usize],
        visits: 0,
    };
    let all: Vec<usize> = (0..settings as usize).collect();
    shared.part(routine, &all);
    Ended {
        states: shared.states,
        steps: shared.steps,
        visits: shared.visits,
    }
}

impl Ended {
    /// The settings whose state is as asked.
    pub fn set(&self, asked: impl Fn(State) -> bool) -> u64 {
        set_of(self.states.len() as u64, |s| asked(self.states[s as usize]))
    }
}

impl Shared<'_> {
    fn here(&self, setting: usize) -> Here<'_> {
        Here {
            setting: setting as u64,
            sets: self.sets,
            numbers: &self.store[16 * setting..16 * setting + 16],
        }
    }

    /// "Live is a setting of the set that is neither in fault nor out."
    fn live(&self, settings: &[usize]) -> Vec<usize> {
        let live = |s: &usize| self.states[*s] == State::Live;
        settings.iter().copied().filter(live).collect()
    }

    /// "A part with no live setting is not entered."
    fn part(&mut self, statement: &Statement, settings: &[usize]) {
        let live = self.live(settings);
        if !live.is_empty() {
            self.statement(statement, &live);
        }
    }

    /// Of live settings, "those whose budget is spent first become out. If any are left, that is one visit,
    /// whatever their number, and one step for each of them." The settings left are begun.
    fn begin(&mut self, live: &[usize]) -> Vec<usize> {
        for &s in live {
            if self.steps[s] == self.budget {
                self.states[s] = State::Out;
            }
        }
        let begun = self.live(live);
        if !begun.is_empty() {
            self.visits += 1;
        }
        for &s in &begun {
            self.steps[s] += 1;
        }
        begun
    }

    /// The settings where the test is true, and the rest.
    fn test(&self, test: &Boolean, settings: &[usize]) -> (Vec<usize>, Vec<usize>) {
        settings.iter().partition(|&&s| self.here(s).boolean(test))
    }

    fn statement(&mut self, statement: &Statement, live: &[usize]) {
        // "a choice does so by its condition, without visit or step"
        if let Statement::Choice(condition, b, c) = statement {
            let set = self.sets[*condition];
            let (on, off): (Vec<_>, Vec<_>) = live.iter().partition(|&&s| has(set, s as u64));
            self.part(b, &on);
            self.part(c, &off);
            return;
        }
        let begun = self.begin(live);
        if begun.is_empty() {
            return;
        }
        match statement {
            Statement::Skip | Statement::Choice(..) => (),
            Statement::Assign(variable, a) => {
                for s in begun {
                    self.store[16 * s + variable] = self.here(s).arithmetic(a);
                }
            }
            Statement::Sequence(a, b) => {
                self.part(a, &begun);
                self.part(b, &begun);
            }
            Statement::If(test, b, c) => {
                let (on, off) = self.test(test, &begun);
                self.part(b, &on);
                self.part(c, &off);
            }
            Statement::While(test, body) => {
                // "tested again for the settings that were true and are still live, together"
                let mut tested = begun;
                while !tested.is_empty() {
                    let (on, _) = self.test(test, &tested);
                    self.part(body, &on);
                    let again = self.live(&on);
                    tested = self.begin(&again);
                }
            }
            Statement::Throw(a) => {
                for s in begun {
                    self.states[s] = State::Fault(self.here(s).arithmetic(a));
                }
            }
            Statement::Try(body, variable, handler) => {
                self.part(body, &begun);
                // "exactly the settings in which its own try's body ended in fault": all begun were live before it
                let mut taken = Vec::new();
                for s in begun {
                    if let State::Fault(n) = self.states[s] {
                        self.store[16 * s + variable] = n;
                        self.states[s] = State::Live;
                        taken.push(s);
                    }
                }
                self.part(handler, &taken);
            }
        }
    }
}

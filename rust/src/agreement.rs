//! Condition 3 by calls: each setting's shared run against one hall in that setting.

use crate::answer::{to_numbers, values, After};
use crate::call::{Call, Case};
use crate::cases::changed::asked;
use crate::cases::lent::{self, Subject};
use crate::cases::random::Random;
use crate::paper::conditions::has;
use crate::server::inside;

/// A shared run to hold against one hall for each setting of its set.
pub struct Agreement {
    set: u64,
    shared: Case,
}

/// What the bench told of the shared run.
struct Told<'a> {
    asked: &'a Agreement,
    shared: Vec<&'a [u8]>,
}

fn part(store: &[u8], setting: usize) -> Vec<u8> {
    store[64 * setting..64 * setting + 64].to_vec()
}

impl Agreement {
    pub fn new(random: &mut Random, subject: &Subject) -> Agreement {
        let set = lent::set(random, subject);
        let budget = lent::budget(random, subject);
        let store = lent::store(random, 16 * subject.settings());
        let agreement = Agreement::of(&subject.image, set, budget, store);
        let shared = lent::near_the_end(random, agreement.shared);
        Agreement { set, shared }
    }

    /// Of an accepted image, a set inside its settings, and sixteen numbers for each setting.
    pub fn of(image: &[u8], set: u64, budget: u32, store: Vec<u8>) -> Agreement {
        let n = store.len() / 64;
        let lent = vec![store, vec![0xa5; n], vec![0xa5; 4 * n], vec![0xa5; 4 * n]];
        let shared = asked(Call::SharedRun { set, budget }, image, lent);
        Agreement { set, shared }
    }

    /// The shared run, and one hall for each setting of its set.
    pub fn cases(&self) -> Vec<Case> {
        let (image, budget) = (&self.shared.slices[0], self.budget());
        let hall = |s: usize| {
            let setting = s as u64;
            let call = Call::OneHall { setting, budget };
            asked(call, image, vec![self.start(s)])
        };
        let mut cases = vec![self.shared.clone()];
        cases.extend(self.members().map(hall));
        cases
    }

    pub fn agrees(&self, replies: &[After]) -> Result<(), String> {
        let told = Told {
            asked: self,
            shared: replies[0].slices.iter().map(|s| inside(s)).collect(),
        };
        for (setting, hall) in self.members().zip(&replies[1..]) {
            told.ends_alike(setting, &hall.slices)?;
        }
        told.idle_outside()?;
        told.visits_in_bounds()
    }

    fn budget(&self) -> u32 {
        match self.shared.call {
            Call::SharedRun { budget, .. } => budget,
            _ => 0,
        }
    }

    fn settings(&self) -> usize {
        self.shared.slices[2].len()
    }

    fn members(&self) -> impl Iterator<Item = usize> + '_ {
        (0..self.settings()).filter(|&s| has(self.set, s as u64))
    }

    fn start(&self, setting: usize) -> Vec<u8> {
        part(&self.shared.slices[1], setting)
    }
}

impl Told<'_> {
    fn end(&self, setting: usize) -> Vec<u8> {
        part(self.shared[1], setting)
    }

    fn steps(&self) -> Vec<u64> {
        let steps = to_numbers(self.shared[4]);
        steps.iter().map(|&steps| u64::from(steps as u32)).collect()
    }

    /// Outcome, code and steps of a setting in the shared run, as one hall answers them.
    fn three(&self, setting: usize) -> [u64; 3] {
        let code = to_numbers(self.shared[3])[setting] as u32;
        let outcome = self.shared[2][setting];
        [outcome.into(), code.into(), self.steps()[setting]]
    }

    fn ends_alike(&self, setting: usize, hall: &[Vec<u8>]) -> Result<(), String> {
        let came = values(inside(&hall[2]));
        let alike = came == Some(self.three(setting));
        if alike && inside(&hall[1]) == self.end(setting) {
            return Ok(());
        }
        Err(format!(
            "setting {setting} ends otherwise as one hall: {came:?}"
        ))
    }

    /// "Settings outside the set get idle, 0, 0 and keep their numbers."
    fn idle_outside(&self) -> Result<(), String> {
        let outside = |&s: &usize| !has(self.asked.set, s as u64);
        let idle = |s| self.three(s) == [0, 0, 0] && self.asked.start(s) == self.end(s);
        match (0..self.asked.settings())
            .filter(outside)
            .find(|&s| !idle(s))
        {
            Some(s) => Err(format!("setting {s} is outside the set and not idle")),
            None => Ok(()),
        }
    }

    /// A visit is a step of at least one setting, and the steps of a setting are as many visits.
    fn visits_in_bounds(&self) -> Result<(), String> {
        let [visits, ..] = values(self.shared[5]).unwrap_or_default();
        let most = self.steps().into_iter().max().unwrap_or(0);
        let all = self.steps().into_iter().sum();
        if (most..=all).contains(&visits) {
            return Ok(());
        }
        Err(format!(
            "{visits} visits, most steps {most}, all steps {all}"
        ))
    }
}

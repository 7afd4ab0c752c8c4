//! Runs over every budget from many starts, at the largest budget, and beyond it.

use super::changed::asked;
use super::samples::{all_kinds, case_g, case_h, case_i, case_j, deep_tree, h, sequences, tower};
use crate::agreement::Agreement;
use crate::answer::to_bytes;
use crate::call::{Call, Case};
use crate::paper::conditions::{condition_sets, settings};
use crate::paper::configure::configure;
use crate::paper::image::Image;

const MOST: u32 = 60;

/// Numbers to start from: for each setting sixteen, other ones for each `first`.
fn start(first: i32, settings: usize) -> Vec<u8> {
    let number = |k: i32| first * (k % 16 - 7) + 3 * (k % 16) + k / 16 + 1;
    to_bytes(&(0..16 * settings as i32).map(number).collect::<Vec<_>>())
}

fn plain(image: &[u8], budget: u32, numbers: Vec<u8>) -> Case {
    asked(Call::PlainRun { budget }, image, vec![numbers])
}

fn hall(image: &[u8], setting: u64, budget: u32, numbers: Vec<u8>) -> Case {
    asked(Call::OneHall { setting, budget }, image, vec![numbers])
}

fn shared(image: &[u8], set: u64, budget: u32, store: Vec<u8>) -> Case {
    let n = store.len() / 64;
    let lent = vec![store, vec![0xa5; n], vec![0xa5; 4 * n], vec![0xa5; 4 * n]];
    asked(Call::SharedRun { set, budget }, image, lent)
}

/// The bytes of an accepted image configured for a setting.
pub fn alone(image: &Image, setting: u64) -> Vec<u8> {
    configure(image, &condition_sets(image), setting)
}

/// Plain runs of every kind, in each setting.
pub fn plain_runs() -> impl Iterator<Item = Case> {
    let every = all_kinds();
    let configured: Vec<Vec<u8>> = (0..4).map(|setting| alone(&every, setting)).collect();
    let budgets = (0..=MOST).flat_map(|budget| (-20..=20).map(move |first| (budget, first)));
    budgets.flat_map(move |(budget, first)| {
        let run = |image: &Vec<u8>| plain(image, budget, start(first, 1));
        configured.iter().map(run).collect::<Vec<_>>()
    })
}

/// One hall in each setting of four routines, and in the one behind the last.
pub fn halls() -> impl Iterator<Item = Case> {
    let routines = [all_kinds(), case_g(), case_h(), h()];
    let budgets =
        (0..=MOST).flat_map(|budget| (-20..=20).step_by(5).map(move |first| (budget, first)));
    budgets.flat_map(move |(budget, first)| {
        let mut cases = Vec::new();
        for routine in &routines {
            let (image, n) = (routine.write(), settings(routine.header.options));
            cases.extend((0..=n).map(|s| hall(&image, s, budget, start(first, 1))));
        }
        cases
    })
}

/// Shared runs over every set of four routines.
pub fn shared_runs() -> impl Iterator<Item = Case> {
    let routines = [all_kinds(), case_g(), case_h(), h()];
    let budgets =
        (0..=MOST).flat_map(|budget| (-20..=20).step_by(5).map(move |first| (budget, first)));
    budgets.flat_map(move |(budget, first)| {
        let mut cases = Vec::new();
        for routine in &routines {
            let n = settings(routine.header.options);
            let sets = 0..1 << n;
            cases.extend(
                sets.map(|set| shared(&routine.write(), set, budget, start(first, n as usize))),
            );
        }
        cases
    })
}

/// Shared runs to hold against one hall: every set of the same routines, and many of 64 settings.
pub fn agreements() -> impl Iterator<Item = Agreement> {
    let routines = [all_kinds(), case_g(), case_h(), h()];
    let few = (0..=MOST).flat_map(move |budget| {
        let mut agreements = Vec::new();
        for routine in &routines {
            let n = settings(routine.header.options);
            let store = start(budget as i32 % 41 - 20, n as usize);
            agreements.extend(
                (0..1 << n).map(|set| Agreement::of(&routine.write(), set, budget, store.clone())),
            );
        }
        agreements
    });
    let tall = tower(6, 128).write();
    let many = (0..=160).step_by(40).flat_map(move |budget| {
        let of = |s: u32| Agreement::of(&tall, u64::MAX >> s, budget, start(s as i32, 64));
        (0..64).step_by(9).map(of).collect::<Vec<_>>()
    });
    few.chain(many)
}

/// The largest budget and the ones beyond it, for all runs of routines that end early, late and never.
pub fn great_budgets() -> Vec<Case> {
    let mut cases = Vec::new();
    let routines = [
        deep_tree(0),
        deep_tree(1000),
        sequences(1023),
        case_i(),
        case_j(),
        h(),
    ];
    for routine in routines {
        let n = settings(routine.header.options);
        let (bytes, configured) = (routine.write(), alone(&routine, 0));
        for budget in [100_000, 100_001, u32::MAX] {
            cases.push(plain(&configured, budget, start(0, 1)));
            cases.extend((0..=n).map(|s| hall(&bytes, s, budget, start(0, 1))));
            cases.push(shared(&bytes, (1 << n) - 1, budget, start(0, n as usize)));
        }
    }
    cases
}

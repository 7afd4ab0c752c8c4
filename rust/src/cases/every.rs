//! All cases that are tried whatever the seed gives, but for the choice of the pairs of bits.

use super::changed::{changed, configured, members, tried};
use super::samples::{
    all_kinds, case_g, case_h, case_i, case_j, deep_tree, h, image, node, sequences, tower,
};
use super::{budgets, refused, spaces};
use crate::call::Case;

pub use super::budgets::agreements;

pub fn cases(seed: u64) -> impl Iterator<Item = Case> {
    let damaged = [h(), all_kinds()]
        .into_iter()
        .flat_map(move |image| changed(&image, seed));
    let by_hand = refused::all().into_iter().map(|(_, image, _)| image);
    damaged
        .chain(by_hand)
        .chain(limits())
        .flat_map(|image| tried(&image))
        .chain(tallest())
        .chain(spaces::shared_runs())
        .chain(spaces::plain_runs())
        .chain(spaces::halls())
        .chain(spaces::answers())
        .chain(budgets::plain_runs())
        .chain(budgets::halls())
        .chain(budgets::shared_runs())
        .chain(budgets::great_budgets())
}

/// The cases by hand, one node, and trees as deep as there can be: 1,023 levels of 1,024 nodes.
fn limits() -> Vec<Vec<u8>> {
    let one = image(0, vec![], vec![node(16, 0, [0; 3])]);
    let by_hand = [case_g(), case_h(), case_i(), case_j()];
    let limits = [
        one,
        deep_tree(1000),
        deep_tree(1021),
        sequences(1023),
        tower(6, 128),
    ];
    by_hand
        .iter()
        .chain(&limits)
        .map(|image| image.write())
        .collect()
}

/// The largest image, and the sets at both ends of its chain of 256 conditions.
fn tallest() -> Vec<Case> {
    let image = tower(256, 1024).write();
    let mut cases = configured(&image);
    for condition in [0, 1, 254, 255, 256] {
        cases.extend(members(&image, condition));
    }
    cases
}

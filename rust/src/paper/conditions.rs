//! "A condition denotes the set in which it is true": bit s stands for setting s.

use super::image::Image;

/// Option k is on in setting s exactly when bit k of s is one.
fn on(option: usize, setting: u64) -> bool {
    setting >> option & 1 == 1
}

/// The number of settings, N = 2^F.
pub fn settings(options: usize) -> u64 {
    1 << options
}

/// "Asked for a member (at 64 or above: no)".
pub fn has(set: u64, setting: u64) -> bool {
    setting < 64 && set >> setting & 1 == 1
}

/// The set of the settings below N for which `member` holds.
pub fn set_of(settings: u64, member: impl Fn(u64) -> bool) -> u64 {
    (0..settings).filter(|&s| member(s)).map(|s| 1 << s).sum()
}

/// The set of each condition, each worked out once from the lower ones, since "a condition may be named many times".
pub fn condition_sets(image: &Image) -> Vec<u64> {
    let n = settings(image.header.options);
    let mut sets: Vec<u64> = Vec::new();
    for condition in &image.conditions {
        let left = |s| has(sets[condition.left], s);
        let right = |s| has(sets[condition.right], s);
        let set = set_of(n, |s| match condition.kind {
            0 => false,
            1 => true,
            2 => on(condition.option, s),
            3 => !left(s),
            4 => left(s) && right(s),
            _ => left(s) || right(s),
        });
        sets.push(set);
    }
    sets
}

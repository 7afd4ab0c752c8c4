//! Document 01's own examples: the listing of H and "Checked by hand", (a) to (j); and one hall of them (document 02, C-18).

use crate::answer::{to_answer, to_numbers, ANSWER};
use crate::call::Call;
use crate::cases::changed::asked;
use crate::cases::refused;
use crate::cases::samples::{
    all_kinds, by_option, case_g, case_h, case_i, case_j, deep_tree, h, image, node, sequences,
    tower,
};
use crate::paper::image::Image;

struct Ended {
    store: Vec<i32>,
    outcomes: Vec<u8>,
    codes: Vec<i32>,
    steps: Vec<i32>,
    answer: Vec<u64>,
}

/// A shared run of a routine with one option, all numbers 0.
fn shared(image: Image, set: u64, budget: u32) -> Ended {
    let lent = [128, 2, 8, 8].map(|length| vec![0; length]);
    let call = Call::SharedRun { set, budget };
    let after = asked(call, &image.write(), lent.to_vec()).expected().slices;
    Ended {
        store: to_numbers(&after[1]),
        outcomes: after[2].clone(),
        codes: to_numbers(&after[3]),
        steps: to_numbers(&after[4]),
        answer: to_answer(&after[5]),
    }
}

/// A plain run with all numbers 0: the answer and the numbers.
fn plain(image: Vec<u8>, budget: u32) -> (Vec<u64>, Vec<i32>) {
    let call = Call::PlainRun { budget };
    let after = asked(call, &image, vec![vec![0; 64]]).expected().slices;
    (to_answer(&after[2]), to_numbers(&after[1]))
}

/// One hall with all `count` numbers 0: the answer and the numbers.
fn one_hall(image: Image, setting: u64, budget: u32, count: usize) -> (Vec<u64>, Vec<i32>) {
    let call = Call::OneHall { setting, budget };
    let lent = vec![vec![0; 4 * count]];
    let after = asked(call, &image.write(), lent).expected().slices;
    (to_answer(&after[2]), to_numbers(&after[1]))
}

fn configured(image: Vec<u8>, setting: u64, space: usize) -> (Vec<u64>, Vec<u8>) {
    let call = Call::Configure { setting };
    let after = asked(call, &image, vec![vec![0xee; space]])
        .expected()
        .slices;
    (to_answer(&after[2]), after[1].clone())
}

fn checked(image: Vec<u8>) -> Vec<u64> {
    to_answer(&asked(Call::Check, &image, vec![]).expected().slices[1])
}

/// The bytes of an accepted image configured for a setting.
fn alone(image: Image, setting: u64) -> Vec<u8> {
    let bytes = image.write();
    let (answer, out) = configured(bytes.clone(), setting, bytes.len());
    out[..answer[2] as usize].to_vec()
}

/// Number, place and three values, and 0 for the rest.
fn answer(first: [u64; 5]) -> Vec<u64> {
    let mut answer = first.to_vec();
    answer.resize(ANSWER, 0);
    answer
}

#[test]
fn bytes_of_h() {
    let h = h().write();
    assert_eq!(h.len(), 108);
    assert_eq!(h[..8], [1, 0x10, 1, 0, 0xc0, 0, 0, 0]);
    assert_eq!(h[8..12], [0x20, 0, 0, 0]);
    assert_eq!(h[12 + 8 * 3..12 + 8 * 4], [0x44, 0, 2, 0, 0, 0, 0, 0]);
    assert_eq!(checked(h), answer([0, 0, 1, 1, 12]));
}

#[test]
fn a_h_as_listed() {
    let ended = shared(h(), 3, 100);
    assert_eq!(ended.answer, answer([0, 0, 5, 2, 0]));
    assert_eq!(ended.outcomes, [1, 2]);
    assert_eq!(ended.codes, [0, 7]);
    assert_eq!(ended.steps, [4, 4]);
    assert_eq!([ended.store[0], ended.store[16]], [310, 380]);
}

#[test]
fn b_budget_3() {
    let ended = shared(h(), 3, 3);
    assert_eq!(ended.answer, answer([0, 0, 3, 0, 3]));
    assert_eq!(ended.outcomes, [3, 3]);
    assert_eq!(ended.steps, [3, 3]);
}

#[test]
fn c_set_2() {
    let ended = shared(h(), 2, 100);
    assert_eq!(ended.answer, answer([0, 0, 4, 2, 0]));
    assert_eq!(ended.outcomes, [0, 2]);
}

#[test]
fn d_set_4() {
    assert_eq!(shared(h(), 4, 100).answer, answer([9, 0, 0, 0, 0]));
}

#[test]
fn e_budget_0() {
    let ended = shared(h(), 3, 0);
    assert_eq!(ended.answer, answer([0, 0, 0, 0, 3]));
    assert_eq!(ended.outcomes, [3, 3]);
}

#[test]
fn f_configured_for_setting_1() {
    let (came, out) = configured(h().write(), 1, 90);
    assert_eq!(came, answer([0, 0, 88, 0, 0]));
    assert_eq!(out[..8], [1, 0, 0, 0, 0xa0, 0, 0, 0]);
    assert_eq!(out[88..], [0xee, 0xee]);
    let whole = out[..88].to_vec();
    assert_eq!(checked(whole.clone()), answer([0, 0, 0, 0, 10]));
    assert_eq!(configured(whole.clone(), 0, 88).1, whole);
    let short = configured(h().write(), 1, 87);
    assert_eq!(short, (answer([14, 0, 0, 0, 0]), vec![0xee; 87]));
    assert_eq!(configured(h().write(), 2, 88).0, answer([11, 0, 0, 0, 0]));
}

#[test]
fn g_a_choice_in_a_try() {
    let ended = shared(case_g(), 3, 100);
    assert_eq!(ended.answer, answer([0, 0, 4, 0, 0]));
    assert_eq!(ended.outcomes, [1, 1]);
    assert_eq!(ended.steps, [2, 3]);
    assert_eq!(ended.store[1..3], [0, 0]);
    assert_eq!(ended.store[17..19], [9, 1]);
}

#[test]
fn h_a_loop_of_two_lengths() {
    let ended = shared(case_h(), 3, 100);
    assert_eq!(ended.answer, answer([0, 0, 5, 0, 0]));
    assert_eq!(ended.steps, [3, 5]);
}

#[test]
fn i_a_sum_wraps() {
    let (came, numbers) = plain(case_i().write(), 100);
    assert_eq!(came, answer([0, 0, 1, 0, 1]));
    assert_eq!(numbers[5], -2147483648);
}

#[test]
fn j_fault_0_is_a_fault() {
    let (came, _) = plain(case_j().write(), 100);
    assert_eq!(came, answer([0, 0, 2, 0, 1]));
}

#[test]
fn plain_runs_of_what_is_configured() {
    let ends = |image, budget| plain(image, budget).0[2..5].to_vec();
    for setting in [0, 1] {
        assert_eq!(ends(alone(h(), setting), 3), [3, 0, 3]);
        assert_eq!(ends(alone(h(), setting), 0), [3, 0, 0]);
    }
    assert_eq!(ends(alone(h(), 0), 100), [1, 0, 4]);
    assert_eq!(ends(alone(h(), 1), 100), [2, 7, 4]);
    let (came, numbers) = plain(alone(case_g(), 1), 100);
    assert_eq!(came, answer([0, 0, 1, 0, 3]));
    assert_eq!(numbers[1..3], [9, 1]);
    assert_eq!(ends(alone(case_g(), 0), 100), [1, 0, 2]);
    assert_eq!(ends(alone(case_h(), 1), 100), [1, 0, 5]);
    assert_eq!(ends(alone(case_h(), 0), 100), [1, 0, 3]);
    assert_eq!(plain(h().write(), 100).0, answer([13, 2, 0, 0, 0]));
}

#[test]
fn one_hall_at_once() {
    let ends = |image, setting, budget| one_hall(image, setting, budget, 16).0[2..5].to_vec();
    assert_eq!(ends(h(), 0, 100), [1, 0, 4]);
    assert_eq!(ends(h(), 1, 100), [2, 7, 4]);
    assert_eq!(ends(h(), 1, 3), [3, 0, 3]);
    assert_eq!(ends(h(), 0, 0), [3, 0, 0]);
    assert_eq!(ends(case_g(), 0, 100), [1, 0, 2]);
    assert_eq!(ends(case_h(), 0, 100), [1, 0, 3]);
    assert_eq!(ends(case_h(), 1, 100), [1, 0, 5]);
    let (came, numbers) = one_hall(case_g(), 1, 100, 16);
    assert_eq!(came, answer([0, 0, 1, 0, 3]));
    assert_eq!(numbers[1..3], [9, 1]);
    // the fault is taken, and its handler is not begun
    let (came, numbers) = one_hall(case_g(), 1, 2, 16);
    assert_eq!(came, answer([0, 0, 3, 0, 2]));
    assert_eq!(numbers[1..3], [9, 0]);
}

/// "Refusals: 1 to 8, 11, 10, 12 in that order"
#[test]
fn one_hall_refused() {
    let refused = |image, setting, budget, count| one_hall(image, setting, budget, count).0;
    let seven = image(7, vec![], vec![node(16, 0, [0; 3])]);
    assert_eq!(refused(seven, 128, 100_001, 15), answer([3, 0, 0, 0, 0]));
    assert_eq!(refused(h(), 2, 100_001, 15), answer([11, 0, 0, 0, 0]));
    assert_eq!(refused(h(), 1, 100_001, 15), answer([10, 0, 0, 0, 0]));
    assert_eq!(refused(h(), 1, 100_000, 15), answer([12, 0, 0, 0, 0]));
}

#[test]
fn budgets_that_just_end() {
    assert_eq!(shared(h(), 3, 4).answer, answer([0, 0, 5, 2, 0]));
    assert_eq!(shared(h(), 0, 100).answer, answer([0, 0, 0, 0, 0]));
    // (g) with budget 2: the fault is taken, and its handler is not begun
    let ended = shared(case_g(), 3, 2);
    assert_eq!(ended.answer, answer([0, 0, 3, 0, 2]));
    assert_eq!(ended.outcomes, [1, 3]);
    assert_eq!(ended.store[17], 9);
}

/// "configuring it again, for setting 0, gives the same bytes"
#[test]
fn configured_again() {
    for (image, settings) in [(all_kinds(), 4), (tower(6, 128), 64)] {
        for setting in 0..settings {
            let once = alone(image.clone(), setting);
            assert_eq!(configured(once.clone(), 0, once.len()).1, once);
        }
    }
}

#[test]
fn refused_by_hand() {
    for (what, image, number_and_place) in refused::all() {
        assert_eq!(checked(image)[..2], number_and_place, "{what}");
    }
}

#[test]
fn limits() {
    let skip = image(0, vec![], vec![node(16, 0, [0; 3])]).write();
    assert_eq!(checked(skip.clone()), answer([0, 0, 0, 0, 1]));
    assert_eq!(checked(deep_tree(1021).write()), answer([0, 0, 0, 0, 1024]));
    assert_eq!(
        checked(tower(256, 1024).write()),
        answer([0, 0, 6, 256, 1024])
    );
    assert_eq!(checked(by_option(vec![]).write()), answer([3, 0, 0, 0, 0]));
    assert_eq!(plain(skip.clone(), 100_000).0, answer([0, 0, 1, 0, 1]));
    assert_eq!(plain(skip, 100_001).0, answer([10, 0, 0, 0, 0]));
    let never = plain(deep_tree(0).write(), 100_000).0;
    assert_eq!(never, answer([0, 0, 3, 0, 100_000]));
    let nested = plain(sequences(1023).write(), 100_000).0;
    assert_eq!(nested, answer([0, 0, 1, 0, 1023]));
}

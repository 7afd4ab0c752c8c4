//! H damaged by hand, with the number and the place that document 01's table gives.

use super::samples::{condition, h, image, node};
use crate::paper::image::Node;

/// What is wrong, the image, and the number and the place.
pub type Refused = (&'static str, Vec<u8>, [u64; 2]);

/// H with a node replaced.
fn with(at: usize, node: Node) -> Vec<u8> {
    let mut image = h();
    image.nodes[at] = node;
    image.write()
}

fn with_condition(kind: usize, option: usize) -> Vec<u8> {
    let mut image = h();
    image.conditions[0] = condition(kind, option, 0, 0);
    image.write()
}

fn cut(length: usize) -> Vec<u8> {
    let mut bytes = h().write();
    bytes.resize(length, 0);
    bytes
}

fn changed(at: usize, byte: u8) -> Vec<u8> {
    let mut bytes = h().write();
    bytes[at] = byte;
    bytes
}

pub fn all() -> Vec<Refused> {
    let skip = || node(16, 0, [0; 3]);
    let mut lower = h();
    lower.nodes[3].fields[0] = 9;
    lower.nodes[9].kind = 25;
    let mut earlier = lower.clone();
    earlier.conditions[0].kind = 6;
    let falses = vec![condition(0, 0, 0, 0); 257];
    let (nothing, one_too_many) = (Vec::new(), vec![skip(); 1025]);
    vec![
        ("no bytes", cut(0), [1, 0]),
        ("7 bytes", cut(7), [1, 0]),
        ("edition 2", changed(0, 2), [2, 0]),
        ("a zero bit of the header", changed(7, 1), [2, 0]),
        ("7 options", image(7, vec![], vec![skip()]).write(), [3, 0]),
        ("C = 257", image(0, falses, vec![skip()]).write(), [3, 0]),
        ("P = 0", image(0, vec![], nothing).write(), [3, 0]),
        ("P = 1,025", image(0, vec![], one_too_many).write(), [3, 0]),
        ("a byte too short", cut(107), [4, 0]),
        ("a byte too long", cut(109), [4, 0]),
        ("condition of kind 6", with_condition(6, 0), [5, 0]),
        ("option 1 of 1", with_condition(2, 1), [5, 0]),
        (
            "a condition that names itself",
            with_condition(3, 0),
            [5, 0],
        ),
        ("node of kind 24", with(9, node(24, 0, [0; 3])), [6, 9]),
        ("variable 16", with(5, node(1, 16, [0; 3])), [6, 5]),
        ("condition 1 of 1", with(2, node(4, 0, [1, 0, 1])), [6, 2]),
        (
            "a node that names itself",
            with(11, node(18, 0, [3, 11, 0])),
            [6, 11],
        ),
        ("a later node", with(3, node(17, 0, [8, 0, 0])), [6, 3]),
        ("the lower of two", lower.write(), [6, 3]),
        (
            "a statement in a less",
            with(6, node(12, 0, [4, 3, 0])),
            [7, 6],
        ),
        (
            "a throw of a boolean",
            with(8, node(21, 0, [6, 0, 0])),
            [7, 8],
        ),
        (
            "a root that is no statement",
            with(11, node(8, 0, [0; 3])),
            [7, 11],
        ),
        (
            "a node named twice",
            with(6, node(12, 0, [4, 4, 0])),
            [8, 4],
        ),
        ("a node never named", with(10, skip()), [8, 6]),
        ("one part twice", with(11, node(18, 0, [10, 10, 0])), [8, 3]),
        ("the earlier test wins", earlier.write(), [5, 0]),
    ]
}

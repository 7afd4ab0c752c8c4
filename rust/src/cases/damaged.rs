//! Damages to an image; two of them at once show which test comes first.

use super::random::Random;
use crate::paper::image::{Image, Node};
use crate::paper::kinds::{names_node, NUMBER};

/// Damages the records, then perhaps the bytes; not every damage makes a fault.
pub fn damaged(random: &mut Random, mut image: Image) -> Vec<u8> {
    let times = random.one_of(&[1, 1, 1, 2, 2, 3]);
    let mut on_bytes = 0;
    for _ in 0..times {
        match random.below(14) {
            0 => header(random, &mut image),
            1 | 2 => condition(random, &mut image),
            3 | 4 => node(random, &mut image),
            5 | 6 => swapped(random, &mut image),
            7..=10 => renamed(random, &mut image),
            11 => another_root(random, &mut image),
            _ => on_bytes += 1,
        }
    }
    let mut image = image.write();
    for _ in 0..on_bytes {
        bytes(random, &mut image);
    }
    image
}

fn header(random: &mut Random, image: &mut Image) {
    let header = &mut image.header;
    match random.below(6) {
        0 => header.edition = random.one_of(&[0, 2, 3, 129, 255]),
        1 => header.zero = 1 << random.below(28),
        2 => header.options = random.below(16),
        3 => header.conditions = random.one_of(&[0, 1, 255, 256, 257, 512, 4095]),
        4 => header.nodes = random.one_of(&[0, 1, 2, 1023, 1024, 1025, 2048, 4095]),
        _ => {
            header.conditions = (header.conditions + 1) % 4096;
            header.nodes = header.nodes.saturating_sub(1);
        }
    }
}

/// A number at an edge of what the field numbered `at` may hold, or any number of 12 bits.
fn edge(random: &mut Random, at: usize, limit: usize) -> usize {
    let near = [0, 1, at, at + 1, at.saturating_sub(1), limit, limit + 1];
    match random.below(9) {
        i if i < near.len() => near[i],
        _ => random.below(4096),
    }
}

fn condition(random: &mut Random, image: &mut Image) {
    if image.conditions.is_empty() {
        return;
    }
    let options = image.header.options;
    let at = random.below(image.conditions.len());
    let condition = &mut image.conditions[at];
    match random.below(5) {
        0 => condition.kind = random.below(16),
        1 => condition.kind = random.below(6),
        2 => condition.option = random.one_of(&[0, 1, options, options + 1, 15]),
        3 => condition.left = edge(random, at, 255),
        _ => condition.right = edge(random, at, 255),
    }
}

fn node(random: &mut Random, image: &mut Image) {
    if image.nodes.is_empty() {
        return;
    }
    let limit = image.conditions.len();
    let at = random.below(image.nodes.len());
    let node = &mut image.nodes[at];
    let zeros = if node.kind == NUMBER { 26 } else { 16 };
    match random.below(9) {
        0 => node.kind = random.below(64),
        1 => node.kind = random.below(24),
        2 => node.variable = random.one_of(&[0, 1, 15, 16, 17, 31, 32, 63]),
        3 | 4 => node.zero = 1 << random.below(zeros),
        _ => node.fields[random.below(3)] = edge(random, at, limit),
    }
}

/// A child becomes another lower node: of the wrong class, or named a second time while the first is named no more.
fn renamed(random: &mut Random, image: &mut Image) {
    let parents: Vec<(usize, usize)> = (0..image.nodes.len())
        .flat_map(|at| (0..3).map(move |place| (at, place)))
        .filter(|&(at, place)| at > 0 && names_node(image.nodes[at].kind, place))
        .collect();
    if !parents.is_empty() {
        let (at, place) = random.one_of(&parents);
        image.nodes[at].fields[place] = random.below(at);
    }
}

/// The last node is left out, or one more comes after it; the header counts it.
fn another_root(random: &mut Random, image: &mut Image) {
    if random.once_in(2) {
        image.nodes.pop();
    } else {
        let kind = random.below(24);
        image.nodes.push(Node {
            kind,
            ..Node::default()
        });
    }
    image.header.nodes = image.nodes.len();
}

/// Two fields of a node, two nodes, or two conditions change places.
fn swapped(random: &mut Random, image: &mut Image) {
    let (conditions, nodes) = (image.conditions.len(), image.nodes.len());
    match random.below(3) {
        0 if conditions > 0 => image
            .conditions
            .swap(random.below(conditions), random.below(conditions)),
        1 if nodes > 0 => image.nodes.swap(random.below(nodes), random.below(nodes)),
        _ if nodes > 0 => image.nodes[random.below(nodes)]
            .fields
            .swap(random.below(3), random.below(3)),
        _ => (),
    }
}

fn bytes(random: &mut Random, image: &mut Vec<u8>) {
    let length = image.len();
    match random.below(8) {
        0 => image.truncate(random.below(length + 1)),
        1 => image.truncate(length.saturating_sub(random.between(1, 8))),
        2 => image.truncate(random.below(10)),
        3 => {
            let more = random.between(1, 16);
            image.extend(random.bytes(more));
        }
        _ if length == 0 => (),
        4 => {
            let at = random.below(length);
            image[at] = random.whole() as u8;
        }
        _ => image[random.below(length)] ^= 1 << random.below(8),
    }
}

//! Configuring for setting s: "replaces each choice by b if s is in its condition, else by c", and writes the tree so
//! "that a node follows all of its subtree, children in the order a, b, c".

use super::conditions::has;
use super::image::{Header, Image, Node};
use super::kinds::{kind, Field};

pub fn configure(image: &Image, sets: &[u64], setting: u64) -> Vec<u8> {
    let mut nodes = Vec::new();
    follow(image, sets, setting, image.nodes.len() - 1, &mut nodes);
    let header = Header {
        edition: 1,
        nodes: nodes.len(),
        ..Header::default()
    };
    Image {
        header,
        conditions: Vec::new(),
        nodes,
    }
    .write()
}

/// Writes the subtree of the node numbered `at` and gives its new number.
fn follow(image: &Image, sets: &[u64], setting: u64, at: usize, nodes: &mut Vec<Node>) -> usize {
    let mut node = image.nodes[at].clone();
    let fields = kind(node.kind).map_or([Field::Unused; 3], |kind| kind.fields);
    if fields[0] == Field::Condition {
        let [condition, b, c] = node.fields;
        let taken = if has(sets[condition], setting) { b } else { c };
        return follow(image, sets, setting, taken, nodes);
    }
    for (place, field) in fields.into_iter().enumerate() {
        if let Field::Node(_) = field {
            node.fields[place] = follow(image, sets, setting, node.fields[place], nodes);
        }
    }
    nodes.push(node);
    nodes.len() - 1
}

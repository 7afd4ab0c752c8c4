//! Tests 1 to 8, "in that order, each over the whole image before the next".

use super::bits::Reader;
use super::image::{Condition, Header, Image, Node};
use super::kinds::{is_choice, kind, Class, Field};

#[derive(Clone, Copy, PartialEq, Debug)]
pub struct Refusal {
    pub number: u64,
    pub place: u64,
}

/// The refusals whose place is 0.
pub fn refuse_if(refused: bool, number: u64) -> Result<(), Refusal> {
    refuse_at(refused.then_some(0), number)
}

/// "Lowest such", if there is one.
pub fn refuse_at(place: Option<usize>, number: u64) -> Result<(), Refusal> {
    match place {
        Some(place) => Err(Refusal {
            number,
            place: place as u64,
        }),
        None => Ok(()),
    }
}

pub fn check(bytes: &[u8]) -> Result<Image, Refusal> {
    refuse_if(bytes.len() < 8, 1)?;
    let header = Header::read(&mut Reader::new(bytes));
    refuse_if(header.edition != 1 || header.zero != 0, 2)?;
    refuse_if(
        header.options > 6 || header.conditions > 256 || header.nodes == 0 || header.nodes > 1024,
        3,
    )?;
    refuse_if(bytes.len() != header.length(), 4)?;
    let image = Image::read(bytes);
    let (conditions, nodes) = (&image.conditions, &image.nodes);
    refuse_at(
        (0..conditions.len()).find(|&at| !condition_stands(&conditions[at], at, header.options)),
        5,
    )?;
    refuse_at(
        (0..nodes.len()).find(|&at| !node_stands(&nodes[at], at, conditions.len())),
        6,
    )?;
    refuse_at((0..nodes.len()).find(|&at| !classes_fit(nodes, at)), 7)?;
    let named = times_named(nodes);
    refuse_at((0..nodes.len() - 1).find(|&at| named[at] != 1), 8)?;
    Ok(image)
}

/// Test 5 of the condition numbered `at`.
fn condition_stands(condition: &Condition, at: usize, options: usize) -> bool {
    let Condition {
        kind,
        option,
        left,
        right,
    } = *condition;
    match kind {
        0 | 1 => option == 0 && left == 0 && right == 0,
        2 => option < options && left == 0 && right == 0,
        3 => option == 0 && left < at && right == 0,
        4 | 5 => option == 0 && left < at && right < at,
        _ => false,
    }
}

/// Test 6 of the node numbered `at`.
fn node_stands(node: &Node, at: usize, conditions: usize) -> bool {
    let kind = match kind(node.kind) {
        Some(kind) => kind,
        None => return false,
    };
    let variable = if kind.variable {
        node.variable <= 15
    } else {
        node.variable == 0
    };
    let fields = kind
        .fields
        .iter()
        .zip(node.fields)
        .all(|(field, name)| match field {
            Field::Unused => name == 0,
            Field::Condition => name < conditions,
            Field::Node(_) => name < at,
        });
    variable && fields && node.zero == 0
}

/// The nodes that a node names, and the class that each must have.
fn children(node: &Node) -> Vec<(usize, Class)> {
    let fields = kind(node.kind).map_or([Field::Unused; 3], |kind| kind.fields);
    fields
        .into_iter()
        .zip(node.fields)
        .filter_map(|(field, name)| match field {
            Field::Node(class) => Some((name, class)),
            _ => None,
        })
        .collect()
}

/// Test 7: each child of the class its field asks for, and the root a statement.
fn classes_fit(nodes: &[Node], at: usize) -> bool {
    let is =
        |node: usize, class| matches!(kind(nodes[node].kind), Some(kind) if kind.class == class);
    let root = at + 1 == nodes.len();
    children(&nodes[at])
        .into_iter()
        .all(|(child, class)| is(child, class))
        && (!root || is(at, Class::Statement))
}

/// Test 8: a node that one parent names twice is named twice.
fn times_named(nodes: &[Node]) -> Vec<usize> {
    let mut named = vec![0; nodes.len()];
    for node in nodes {
        for (child, _) in children(node) {
            named[child] += 1;
        }
    }
    named
}

/// The lowest choice, for refusal 13.
pub fn lowest_choice(image: &Image) -> Option<usize> {
    image.nodes.iter().position(|node| is_choice(node.kind))
}

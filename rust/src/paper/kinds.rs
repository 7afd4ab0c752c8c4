//! The table of node kinds: the class of each, and what its fields hold.

#[derive(Clone, Copy, PartialEq, Debug)]
pub enum Class {
    Arithmetic,
    Boolean,
    Statement,
}

#[derive(Clone, Copy, PartialEq)]
pub enum Field {
    Unused,
    Condition,
    Node(Class),
}

pub struct Kind {
    pub class: Class,
    pub variable: bool,
    /// a, b, c
    pub fields: [Field; 3],
}

pub const NUMBER: usize = 0;

/// None for "all other kinds".
pub fn kind(number: usize) -> Option<Kind> {
    use Class::{Arithmetic, Boolean, Statement};
    use Field::{Condition, Node, Unused};
    const A: Field = Node(Arithmetic);
    const B: Field = Node(Boolean);
    const S: Field = Node(Statement);
    let (class, variable, fields) = match number {
        NUMBER => (Arithmetic, false, [Unused, Unused, Unused]),
        1 => (Arithmetic, true, [Unused, Unused, Unused]),
        2 => (Arithmetic, false, [A, A, Unused]),
        3 => (Arithmetic, false, [B, A, A]),
        4 => (Arithmetic, false, [Condition, A, A]),
        8 | 9 => (Boolean, false, [Unused, Unused, Unused]),
        10 => (Boolean, false, [B, Unused, Unused]),
        11 => (Boolean, false, [B, B, Unused]),
        12 => (Boolean, false, [A, A, Unused]),
        13 => (Boolean, false, [Condition, B, B]),
        16 => (Statement, false, [Unused, Unused, Unused]),
        17 => (Statement, true, [A, Unused, Unused]),
        18 => (Statement, false, [S, S, Unused]),
        19 => (Statement, false, [B, S, S]),
        20 => (Statement, false, [B, S, Unused]),
        21 => (Statement, false, [A, Unused, Unused]),
        22 => (Statement, true, [S, S, Unused]),
        23 => (Statement, false, [Condition, S, S]),
        _ => return None,
    };
    Some(Kind {
        class,
        variable,
        fields,
    })
}

/// Whether a node of this kind is one of the three choices.
pub fn is_choice(number: usize) -> bool {
    matches!(kind(number), Some(kind) if kind.fields[0] == Field::Condition)
}

/// Whether the field at this place (0 for a, 1 for b, 2 for c) of a node of this kind names a node.
pub fn names_node(number: usize, place: usize) -> bool {
    matches!(kind(number), Some(kind) if matches!(kind.fields[place], Field::Node(_)))
}

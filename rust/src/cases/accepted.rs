//! Random images that pass the check: a tree of a given size, its nodes numbered in any order that the image allows.

use super::random::Random;
use crate::paper::image::{Condition, Header, Image, Node};
use crate::paper::kinds::{is_choice, kind, names_node, Class, Field, NUMBER};

#[derive(Clone, Copy)]
pub struct Shape {
    pub options: usize,
    pub conditions: usize,
    pub nodes: usize,
    /// Whether choices are wanted (there are none without conditions).
    pub choices: bool,
    /// A deep tree: most of it below a single child.
    pub deep: bool,
}

const VARIABLE: usize = 1;
const SUM: usize = 2;
const LESS: usize = 12;
const ASSIGN: usize = 17;
const SEQUENCE: usize = 18;
const WHILE: usize = 20;
const THROW: usize = 21;
const TRY: usize = 22;

/// The nodes of a counted loop without a body of its own.
const COUNTED: usize = 8;

/// The kinds of each class; a kind that stands more often is more likely.
fn kinds(class: Class) -> &'static [usize] {
    match class {
        Class::Arithmetic => &[0, 0, 1, 1, 2, 2, 3, 4, 4],
        Class::Boolean => &[8, 9, 10, 11, 12, 12, 12, 13],
        Class::Statement => &[
            16, 17, 17, 17, 17, 18, 18, 18, 18, 19, 19, 19, 20, 21, 22, 22, 22, 23, 23, 23,
        ],
    }
}

/// The statements that hold statements, for a routine with much to run.
const HOLDERS: &[usize] = &[18, 18, 18, 18, 19, 19, 20, 22, 22, 22, 23, 23];

pub fn accepted(random: &mut Random, shape: Shape) -> Image {
    let mut tree = Tree {
        random,
        shape,
        nodes: Vec::new(),
        in_tries: 0,
    };
    if shape.nodes > 0 {
        tree.grow(Class::Statement, shape.nodes);
    }
    let grown = tree.nodes;
    let nodes = if random.once_in(2) {
        grown
    } else {
        renumbered(random, &grown)
    };
    let header = Header {
        edition: 1,
        options: shape.options,
        conditions: shape.conditions,
        nodes: nodes.len(),
        zero: 0,
    };
    let conditions = (0..shape.conditions)
        .map(|at| condition(random, shape.options, at))
        .collect();
    Image {
        header,
        conditions,
        nodes,
    }
}

/// Most conditions name the ones just before them, so that each is reached in very many ways.
fn condition(random: &mut Random, options: usize, at: usize) -> Condition {
    let mut name = || {
        if random.once_in(2) {
            random.below(at.max(1))
        } else {
            at.saturating_sub(random.between(1, 2))
        }
    };
    let (left, right) = (name(), name());
    match random.below(12) {
        0 => Condition::default(),
        1 => Condition {
            kind: 1,
            ..Condition::default()
        },
        2..=5 if options > 0 => Condition {
            kind: 2,
            option: random.below(options),
            ..Condition::default()
        },
        6 | 7 if at > 0 => Condition {
            kind: 3,
            left,
            ..Condition::default()
        },
        kind if at > 0 => Condition {
            kind: 4 + kind % 2,
            option: 0,
            left,
            right,
        },
        kind => Condition {
            kind: kind % 2,
            ..Condition::default()
        },
    }
}

struct Tree<'a> {
    random: &'a mut Random,
    shape: Shape,
    nodes: Vec<Node>,
    /// How many bodies of tries the node now grown lies in.
    in_tries: usize,
}

impl Tree<'_> {
    fn put(&mut self, kind: usize, variable: usize, fields: [usize; 3], value: i32) -> usize {
        self.nodes.push(Node {
            kind,
            variable,
            fields,
            zero: 0,
            value,
        });
        self.nodes.len() - 1
    }

    /// Few variables are used often, so that statements meet in them.
    fn variable(&mut self) -> usize {
        let most = self.random.one_of(&[2, 2, 4, 16]);
        self.random.below(most)
    }

    /// A tree of the class with exactly `size` nodes (for arithmetic there is none of two nodes); gives its root.
    fn grow(&mut self, class: Class, size: usize) -> usize {
        if class == Class::Statement && size >= COUNTED && self.random.once_in(5) {
            return self.counted_loop(size);
        }
        loop {
            let throws = self.in_tries > 0 && (2..6).contains(&size) && self.random.once_in(2);
            let number = match class {
                Class::Statement if throws => THROW,
                Class::Statement if size > 10 && !self.shape.deep => self.random.one_of(HOLDERS),
                _ => self.random.one_of(kinds(class)),
            };
            let Some(kind) = kind(number) else { continue };
            let choices = self.shape.choices && self.shape.conditions > 0;
            if is_choice(number) && !choices {
                continue;
            }
            let Some(sizes) = self.split(size - 1, &kind.fields) else {
                continue;
            };
            let mut fields = [0; 3];
            for (place, field) in kind.fields.into_iter().enumerate() {
                fields[place] = match field {
                    Field::Unused => 0,
                    Field::Condition => self.random.below(self.shape.conditions),
                    Field::Node(class) => self.child(number, place, class, sizes[place]),
                };
            }
            let variable = if kind.variable { self.variable() } else { 0 };
            let value = if number == NUMBER {
                self.random.number()
            } else {
                0
            };
            return self.put(number, variable, fields, value);
        }
    }

    /// A child; in the body of a try throws are more likely.
    fn child(&mut self, parent: usize, place: usize, class: Class, size: usize) -> usize {
        let body = usize::from(parent == TRY && place == 0);
        self.in_tries += body;
        let child = self.grow(class, size);
        self.in_tries -= body;
        child
    }

    /// Shares `size` nodes out to the children, if that can be done.
    fn split(&mut self, size: usize, fields: &[Field; 3]) -> Option<[usize; 3]> {
        let children: Vec<usize> = (0..3)
            .filter(|&i| matches!(fields[i], Field::Node(_)))
            .collect();
        let mut sizes = [0; 3];
        if children.is_empty() {
            return (size == 0).then_some(sizes);
        }
        let mut rest = size.checked_sub(children.len())?;
        for &child in &children {
            sizes[child] = 1;
        }
        if !self.shape.deep {
            let holds_statements = fields.contains(&Field::Node(Class::Statement));
            for &child in &children {
                // tests stay short beside statements, so that most of a routine is run and not only worked out
                let expression = fields[child] != Field::Node(Class::Statement);
                let most = if holds_statements && expression {
                    rest.min(6)
                } else {
                    rest
                };
                let more = self.random.below(most + 1);
                sizes[child] += more;
                rest -= more;
            }
        }
        sizes[self.random.one_of(&children)] += rest;
        let fits = |i: usize| fields[i] != Field::Node(Class::Arithmetic) || sizes[i] != 2;
        (0..3).all(fits).then_some(sizes)
    }

    /// `while v < limit: (body; v := v + 1)`, a loop that mostly ends.
    fn counted_loop(&mut self, size: usize) -> usize {
        let variable = self.variable();
        let limit = self.random.below(6) as i32;
        let v = self.put(VARIABLE, variable, [0; 3], 0);
        let to = self.put(NUMBER, 0, [0; 3], limit);
        let test = self.put(LESS, 0, [v, to, 0], 0);
        let body = (size > COUNTED + 1).then(|| self.grow(Class::Statement, size - COUNTED - 1));
        let v = self.put(VARIABLE, variable, [0; 3], 0);
        let one = self.put(NUMBER, 0, [0; 3], 1);
        let sum = self.put(SUM, 0, [v, one, 0], 0);
        let add = self.put(ASSIGN, variable, [sum, 0, 0], 0);
        let whole = match body {
            Some(body) => self.put(SEQUENCE, 0, [body, add, 0], 0),
            None => add,
        };
        self.put(WHILE, 0, [test, whole, 0], 0)
    }
}

/// The same tree with its nodes in another order: any node whose children are placed may come next.
fn renumbered(random: &mut Random, nodes: &[Node]) -> Vec<Node> {
    let mut parent = vec![None; nodes.len()];
    let mut waits_for = vec![0; nodes.len()];
    for (at, node) in nodes.iter().enumerate() {
        for place in (0..3).filter(|&place| names_node(node.kind, place)) {
            parent[node.fields[place]] = Some(at);
            waits_for[at] += 1;
        }
    }
    let mut ready: Vec<usize> = (0..nodes.len()).filter(|&at| waits_for[at] == 0).collect();
    let mut renamed = vec![0; nodes.len()];
    let mut placed = Vec::new();
    while !ready.is_empty() {
        let at = ready.swap_remove(random.below(ready.len()));
        let mut node = nodes[at].clone();
        for place in (0..3).filter(|&place| names_node(node.kind, place)) {
            node.fields[place] = renamed[node.fields[place]];
        }
        renamed[at] = placed.len();
        placed.push(node);
        if let Some(above) = parent[at] {
            waits_for[above] -= 1;
            if waits_for[above] == 0 {
                ready.push(above);
            }
        }
    }
    placed
}

//! Images to try: routine H and the other cases that were checked by hand, one with every kind, and images at document 01's limits.

use crate::paper::image::{Condition, Header, Image, Node};

pub fn number(value: i32) -> Node {
    Node {
        value,
        ..Node::default()
    }
}

pub fn node(kind: usize, variable: usize, fields: [usize; 3]) -> Node {
    Node {
        kind,
        variable,
        fields,
        ..Node::default()
    }
}

pub fn condition(kind: usize, option: usize, left: usize, right: usize) -> Condition {
    Condition {
        kind,
        option,
        left,
        right,
    }
}

/// As good as its conditions and nodes are.
pub fn image(options: usize, conditions: Vec<Condition>, nodes: Vec<Node>) -> Image {
    let header = Header {
        edition: 1,
        options,
        conditions: conditions.len(),
        nodes: nodes.len(),
        zero: 0,
    };
    Image {
        header,
        conditions,
        nodes,
    }
}

/// One option, and condition 0 is that option.
pub fn by_option(nodes: Vec<Node>) -> Image {
    image(1, vec![condition(2, 0, 0, 0)], nodes)
}

pub fn h() -> Image {
    by_option(vec![
        number(380),
        number(310),
        node(4, 0, [0, 0, 1]),
        node(17, 0, [2, 0, 0]),
        number(350),
        node(1, 0, [0; 3]),
        node(12, 0, [4, 5, 0]),
        number(7),
        node(21, 0, [7, 0, 0]),
        node(16, 0, [0; 3]),
        node(19, 0, [6, 8, 9]),
        node(18, 0, [3, 10, 0]),
    ])
}

/// (g): try (choice: throw 9, else skip) catch 1 with variable 2 := 1
pub fn case_g() -> Image {
    by_option(vec![
        number(9),
        node(21, 0, [0, 0, 0]),
        node(16, 0, [0; 3]),
        node(23, 0, [0, 1, 2]),
        number(1),
        node(17, 2, [4, 0, 0]),
        node(22, 1, [3, 5, 0]),
    ])
}

/// (h): while variable 0 < (choice: 2, else 1) add 1 to it
pub fn case_h() -> Image {
    by_option(vec![
        node(1, 0, [0; 3]),
        number(2),
        number(1),
        node(4, 0, [0, 1, 2]),
        node(12, 0, [0, 3, 0]),
        node(1, 0, [0; 3]),
        number(1),
        node(2, 0, [5, 6, 0]),
        node(17, 0, [7, 0, 0]),
        node(20, 0, [4, 8, 0]),
    ])
}

/// (i): variable 5 := 2147483647 + 1
pub fn case_i() -> Image {
    let sum = node(2, 0, [0, 1, 0]);
    let nodes = vec![number(i32::MAX), number(1), sum, node(17, 5, [2, 0, 0])];
    image(0, vec![], nodes)
}

/// (j): an uncaught throw 0
pub fn case_j() -> Image {
    image(0, vec![], vec![number(0), node(21, 0, [0, 0, 0])])
}

/// Every kind of condition and of node.
pub fn all_kinds() -> Image {
    let conditions = vec![
        condition(0, 0, 0, 0),
        condition(1, 0, 0, 0),
        condition(2, 1, 0, 0),
        condition(3, 0, 2, 0),
        condition(4, 0, 3, 1),
        condition(5, 0, 2, 0),
    ];
    let nodes = vec![
        number(-7),
        node(1, 15, [0; 3]),
        node(2, 0, [0, 1, 0]),
        node(8, 0, [0; 3]),
        node(10, 0, [3, 0, 0]),
        number(1),
        node(3, 0, [4, 2, 5]),
        number(2),
        node(4, 0, [3, 6, 7]),
        node(17, 3, [8, 0, 0]),
        node(9, 0, [0; 3]),
        node(1, 3, [0; 3]),
        number(9),
        node(12, 0, [11, 12, 0]),
        node(11, 0, [10, 13, 0]),
        node(8, 0, [0; 3]),
        node(13, 0, [4, 14, 15]),
        node(16, 0, [0; 3]),
        node(20, 0, [16, 17, 0]),
        node(1, 3, [0; 3]),
        node(21, 0, [19, 0, 0]),
        node(23, 0, [5, 18, 20]),
        node(16, 0, [0; 3]),
        node(22, 7, [21, 22, 0]),
        node(9, 0, [0; 3]),
        node(16, 0, [0; 3]),
        node(19, 0, [24, 23, 25]),
        node(18, 0, [9, 26, 0]),
    ];
    image(2, conditions, nodes)
}

/// while not .. not true do skip, with `deep` nots: a level for each node but one.
pub fn deep_tree(deep: usize) -> Image {
    let mut nodes = vec![node(9, 0, [0; 3])];
    nodes.extend((0..deep).map(|below| node(10, 0, [below, 0, 0])));
    nodes.push(node(16, 0, [0; 3]));
    nodes.push(node(20, 0, [deep, deep + 1, 0]));
    image(0, vec![], nodes)
}

/// Sequences in each other, half as deep as there are nodes (an odd number).
pub fn sequences(count: usize) -> Image {
    let mut nodes = vec![node(16, 0, [0; 3])];
    while nodes.len() < count {
        let last = nodes.len() - 1;
        nodes.push(node(16, 0, [0; 3]));
        nodes.push(node(18, 0, [last, last + 1, 0]));
    }
    image(0, vec![], nodes)
}

/// Six options; C conditions, each the one before met with itself; P nodes (an even number): statements on each other, every fourth a choice.
pub fn tower(c: usize, p: usize) -> Image {
    let mut conditions = vec![condition(2, 5, 0, 0)];
    conditions.extend((1..c).map(|at| condition(4, 0, at - 1, at - 1)));
    let mut nodes = vec![node(9, 0, [0; 3]), node(16, 0, [0; 3])];
    for at in (2..p - 2).step_by(2) {
        nodes.push(node(16, 0, [0; 3]));
        nodes.push(if at % 8 == 0 {
            node(23, 0, [at / 4 % c, at - 1, at])
        } else {
            node(18, 0, [at - 1, at, 0])
        });
    }
    nodes.push(node(10, 0, [0, 0, 0]));
    nodes.push(node(20, 0, [p - 2, p - 3, 0]));
    image(6, conditions, nodes)
}

//! A checked image as a tree, one type for each class.

use super::image::Image;

pub enum Arithmetic {
    Number(i32),
    Variable(usize),
    Sum(Box<Arithmetic>, Box<Arithmetic>),
    Pick(Box<Boolean>, Box<Arithmetic>, Box<Arithmetic>),
    Choice(usize, Box<Arithmetic>, Box<Arithmetic>),
}

pub enum Boolean {
    Constant(bool),
    Not(Box<Boolean>),
    And(Box<Boolean>, Box<Boolean>),
    Less(Box<Arithmetic>, Box<Arithmetic>),
    Choice(usize, Box<Boolean>, Box<Boolean>),
}

pub enum Statement {
    Skip,
    Assign(usize, Box<Arithmetic>),
    Sequence(Box<Statement>, Box<Statement>),
    If(Box<Boolean>, Box<Statement>, Box<Statement>),
    While(Box<Boolean>, Box<Statement>),
    Throw(Box<Arithmetic>),
    Try(Box<Statement>, usize, Box<Statement>),
    Choice(usize, Box<Statement>, Box<Statement>),
}

/// The whole routine: the last node is the root.
pub fn routine(image: &Image) -> Statement {
    *statement(image, image.nodes.len() - 1)
}

fn arithmetic(image: &Image, at: usize) -> Box<Arithmetic> {
    let node = &image.nodes[at];
    let [a, b, c] = node.fields;
    Box::new(match node.kind {
        0 => Arithmetic::Number(node.value),
        1 => Arithmetic::Variable(node.variable),
        2 => Arithmetic::Sum(arithmetic(image, a), arithmetic(image, b)),
        3 => Arithmetic::Pick(
            boolean(image, a),
            arithmetic(image, b),
            arithmetic(image, c),
        ),
        4 => Arithmetic::Choice(a, arithmetic(image, b), arithmetic(image, c)),
        other => unreachable!("test 7 let kind {other} be arithmetic"),
    })
}

fn boolean(image: &Image, at: usize) -> Box<Boolean> {
    let node = &image.nodes[at];
    let [a, b, c] = node.fields;
    Box::new(match node.kind {
        8 => Boolean::Constant(false),
        9 => Boolean::Constant(true),
        10 => Boolean::Not(boolean(image, a)),
        11 => Boolean::And(boolean(image, a), boolean(image, b)),
        12 => Boolean::Less(arithmetic(image, a), arithmetic(image, b)),
        13 => Boolean::Choice(a, boolean(image, b), boolean(image, c)),
        other => unreachable!("test 7 let kind {other} be boolean"),
    })
}

fn statement(image: &Image, at: usize) -> Box<Statement> {
    let node = &image.nodes[at];
    let [a, b, c] = node.fields;
    Box::new(match node.kind {
        16 => Statement::Skip,
        17 => Statement::Assign(node.variable, arithmetic(image, a)),
        18 => Statement::Sequence(statement(image, a), statement(image, b)),
        19 => Statement::If(boolean(image, a), statement(image, b), statement(image, c)),
        20 => Statement::While(boolean(image, a), statement(image, b)),
        21 => Statement::Throw(arithmetic(image, a)),
        22 => Statement::Try(statement(image, a), node.variable, statement(image, b)),
        23 => Statement::Choice(a, statement(image, b), statement(image, c)),
        other => unreachable!("test 7 let kind {other} be a statement"),
    })
}

//! The lister: an image to the one text of its tree. Expressions stand on one line, each part of a sequence on a line of its own,
//! and the parts of an if, while, try or choice of statements below it, indented, unless all of them are short.

use super::check::{check, refuse_if, Refusal};
use super::image::{Condition, Image};
use super::kinds::is_choice;
use super::tree::{routine, Arithmetic, Boolean, Statement};

const CONDITIONS: u64 = 256;

/// The deepest level that is indented as such.
const DEEPEST: usize = 16;

/// Refusals 1 to 8, then 18, "place 0, if its conditions written out exceed 256".
pub fn list(image: &[u8]) -> Result<String, Refusal> {
    let image = check(image)?;
    refuse_if(written_out(&image) > CONDITIONS, 18)?;
    Ok(text(&image))
}

/// The text, whatever the number of nodes and conditions.
pub fn text(image: &Image) -> String {
    let mut lister = Lister {
        conditions: &image.conditions,
        text: format!("options {}\n", image.header.options),
    };
    lister.statement(&routine(image), 0);
    lister.text + "\n"
}

/// How many conditions stand in the text; each is counted once and named many times, so the count is never unfolded.
pub fn written_out(image: &Image) -> u64 {
    let mut sizes: Vec<u64> = Vec::new();
    for condition in &image.conditions {
        let operands = match condition.kind {
            3 => sizes[condition.left],
            4 | 5 => sizes[condition.left].saturating_add(sizes[condition.right]),
            _ => 0,
        };
        sizes.push(operands.saturating_add(1));
    }
    let choices = image.nodes.iter().filter(|node| is_choice(node.kind));
    choices.fold(0, |sum: u64, node| {
        sum.saturating_add(sizes[node.fields[0]])
    })
}

struct Lister<'a> {
    conditions: &'a [Condition],
    text: String,
}

/// Whether a part stands behind a space, or on a line of its own.
fn is_short(statement: &Statement) -> bool {
    match statement {
        Statement::Skip => true,
        Statement::Assign(_, a) | Statement::Throw(a) => {
            matches!(**a, Arithmetic::Number(_) | Arithmetic::Variable(_))
        }
        _ => false,
    }
}

impl Lister<'_> {
    fn put(&mut self, text: &str) {
        self.text += text;
    }

    fn condition(&mut self, at: usize) {
        let condition = &self.conditions[at];
        match condition.kind {
            0 => self.put("false"),
            1 => self.put("true"),
            2 => self.put(&format!("o{}", condition.option)),
            3 => {
                self.put("not ");
                self.condition(condition.left);
            }
            kind => {
                self.put("(");
                self.condition(condition.left);
                self.put(if kind == 4 { " and " } else { " or " });
                self.condition(condition.right);
                self.put(")");
            }
        }
    }

    fn arithmetic(&mut self, arithmetic: &Arithmetic) {
        match arithmetic {
            Arithmetic::Number(n) => self.put(&n.to_string()),
            Arithmetic::Variable(v) => self.put(&format!("v{v}")),
            Arithmetic::Sum(a, b) => {
                self.put("(");
                self.two(a, " + ", b, ")");
            }
            Arithmetic::Pick(test, b, c) => {
                self.put("pick (");
                self.boolean(test);
                self.put(" ? ");
                self.two(b, " : ", c, ")");
            }
            Arithmetic::Choice(condition, b, c) => {
                self.put("[");
                self.condition(*condition);
                self.put(" ? ");
                self.two(b, " : ", c, "]");
            }
        }
    }

    fn two(&mut self, a: &Arithmetic, between: &str, b: &Arithmetic, end: &str) {
        self.arithmetic(a);
        self.put(between);
        self.arithmetic(b);
        self.put(end);
    }

    fn boolean(&mut self, boolean: &Boolean) {
        match boolean {
            Boolean::Constant(value) => self.put(&value.to_string()),
            Boolean::Not(a) => {
                self.put("not ");
                self.boolean(a);
            }
            Boolean::And(a, b) => {
                self.put("both (");
                self.boolean(a);
                self.put(" and ");
                self.boolean(b);
                self.put(")");
            }
            Boolean::Less(a, b) => {
                self.put("(");
                self.two(a, " < ", b, ")");
            }
            Boolean::Choice(condition, b, c) => {
                self.put("[");
                self.condition(*condition);
                self.put(" ? ");
                self.boolean(b);
                self.put(" : ");
                self.boolean(c);
                self.put("]");
            }
        }
    }

    fn line(&mut self, level: usize) {
        self.put("\n");
        self.put(&"  ".repeat(level.min(DEEPEST)));
    }

    fn gap(&mut self, one_line: bool, level: usize) {
        if one_line {
            self.put(" ");
        } else {
            self.line(level);
        }
    }

    /// Two parts of a statement at this level, with what stands between them.
    fn parts(&mut self, x: &Statement, between: &str, y: &Statement, level: usize) {
        let one_line = is_short(x) && is_short(y);
        self.gap(one_line, level + 1);
        self.statement(x, level + 1);
        self.gap(one_line, level);
        self.put(between);
        self.gap(one_line, level + 1);
        self.statement(y, level + 1);
    }

    fn statement(&mut self, statement: &Statement, level: usize) {
        match statement {
            Statement::Skip => self.put("skip"),
            Statement::Assign(v, a) => {
                self.put(&format!("v{v} := "));
                self.arithmetic(a);
            }
            Statement::Sequence(a, b) => self.sequence(a, b, level),
            Statement::If(test, b, c) => {
                self.put("if ");
                self.boolean(test);
                self.put(" then");
                self.parts(b, "else", c, level);
            }
            Statement::While(test, body) => {
                self.put("while ");
                self.boolean(test);
                self.put(" do");
                self.gap(is_short(body), level + 1);
                self.statement(body, level + 1);
            }
            Statement::Throw(a) => {
                self.put("throw ");
                self.arithmetic(a);
            }
            Statement::Try(body, v, handler) => {
                self.put("try");
                self.parts(body, &format!("catch v{v} with"), handler, level);
            }
            Statement::Choice(condition, b, c) => {
                self.put("[");
                self.condition(*condition);
                self.put(" ?");
                self.parts(b, ":", c, level);
                self.put("]");
            }
        }
    }

    /// Both parts at the level of the sequence, so that a long one does not wander off to the right.
    fn sequence(&mut self, a: &Statement, b: &Statement, level: usize) {
        self.put("{");
        self.statement(a, level);
        self.put(" ;");
        self.line(level);
        self.statement(b, level);
        self.put("}");
    }
}

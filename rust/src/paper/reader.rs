//! The reader: a text in the written form to an image, by recursive descent over its bytes. A place of 17 is where the longest
//! start of anything that may come next ends; a place of 18 is the first byte of the word, number or bracket that opens too much.

use super::check::{refuse_at, Refusal};
use super::image::{Condition, Header, Image, Node};
use super::token::Token::{self, Count, Fixed, Number, Option, Variable};

const NODES: usize = 1024;
const CONDITIONS: usize = 256;

/// What a token opens.
#[derive(Clone, Copy, PartialEq)]
enum Opens {
    Nothing,
    Node,
    Condition,
}

struct Reader<'a> {
    text: &'a [u8],
    /// How many bytes have been read.
    at: usize,
    /// A word or number has just ended, with no space behind it yet.
    behind_word: bool,
    options: usize,
    opened_nodes: usize,
    opened_conditions: usize,
    image: Image,
}

type Read<T> = Result<T, Refusal>;

/// Refusals 17 and 18; the image is as yet written nowhere.
pub fn read(text: &[u8]) -> Read<Vec<u8>> {
    let mut reader = Reader {
        text,
        at: 0,
        behind_word: false,
        options: 0,
        opened_nodes: 0,
        opened_conditions: 0,
        image: Image::default(),
    };
    reader.routine()?;
    Ok(reader.image.write())
}

fn refused<T>(place: usize, number: u64) -> Read<T> {
    Err(Refusal {
        number,
        place: place as u64,
    })
}

impl Reader<'_> {
    /// "It begins with `options` and F", and behind the statement there is nothing but spaces.
    fn routine(&mut self) -> Read<()> {
        self.mark("options")?;
        self.options = self.next(&[Count], Opens::Nothing)?.1;
        self.statement()?;
        self.spaces();
        refuse_at((self.at < self.text.len()).then_some(self.at), 17)?;
        self.image.header = Header {
            edition: 1,
            options: self.options,
            conditions: self.image.conditions.len(),
            nodes: self.image.nodes.len(),
            zero: 0,
        };
        Ok(())
    }

    fn spaces(&mut self) {
        while matches!(self.text.get(self.at), Some(b' ' | b'\n')) {
            self.at += 1;
            self.behind_word = false;
        }
    }

    /// The one of these tokens that stands next, and its value.
    fn next(&mut self, tokens: &[Token], opens: Opens) -> Read<(Token, usize)> {
        self.spaces();
        let rest = &self.text[self.at..];
        // spaces "must" stand "between two words or numbers"
        let apart = |token: &Token| !(self.behind_word && token.is_word());
        let fits = |length: usize| {
            let begins = |token: &Token| token.begins(&rest[..length]);
            tokens.iter().filter(|token| apart(token)).any(begins)
        };
        let mut length = 0;
        while length < rest.len() && fits(length + 1) {
            length += 1;
        }
        let spelled = &rest[..length];
        let value = |token: &Token| Some((*token, token.value(spelled)?));
        let Some((token, value)) = tokens.iter().find_map(value) else {
            return refused(self.at + length, 17);
        };
        self.opening(opens, token.is_word(), length)?;
        self.at += length;
        self.behind_word = token.is_word();
        Ok((token, value as usize))
    }

    /// "18 a whole word, number or bracket that opens node 1,025 or condition 257": of `length` bytes from here on.
    fn opening(&mut self, opens: Opens, is_word: bool, length: usize) -> Read<()> {
        let too_many = match opens {
            Opens::Nothing => return Ok(()),
            Opens::Node => self.opened_nodes == NODES,
            Opens::Condition => self.opened_conditions == CONDITIONS,
        };
        self.opened_nodes += usize::from(opens == Opens::Node);
        self.opened_conditions += usize::from(opens == Opens::Condition);
        let end = self.at + length;
        match self.text.get(end) {
            _ if !too_many => Ok(()),
            // no whole word: its run of letters and digits goes on
            Some(byte) if is_word && byte.is_ascii_alphanumeric() => refused(end, 17),
            _ => refused(self.at, 18),
        }
    }

    fn mark(&mut self, spelled: &'static str) -> Read<()> {
        self.next(&[Fixed(spelled)], Opens::Nothing).map(|_| ())
    }

    fn variable(&mut self) -> Read<usize> {
        Ok(self.next(&[Variable], Opens::Nothing)?.1)
    }

    /// A node behind all of its subtree; gives its number.
    fn put(&mut self, kind: usize, variable: usize, fields: [usize; 3]) -> Read<usize> {
        self.image.nodes.push(Node {
            kind,
            variable,
            fields,
            ..Node::default()
        });
        Ok(self.image.nodes.len() - 1)
    }

    /// "one condition record for each written occurrence", behind its operands
    fn put_condition(&mut self, kind: usize, option: usize, names: [usize; 2]) -> Read<usize> {
        let [left, right] = names;
        self.image.conditions.push(Condition {
            kind,
            option,
            left,
            right,
        });
        Ok(self.image.conditions.len() - 1)
    }

    fn condition(&mut self) -> Read<usize> {
        let words = ["true", "false", "not", "("].map(Fixed);
        let tokens = [&words[..], &[Option(self.options)]].concat();
        let (token, value) = self.next(&tokens, Opens::Condition)?;
        match token {
            Fixed("false") => self.put_condition(0, 0, [0, 0]),
            Fixed("true") => self.put_condition(1, 0, [0, 0]),
            Option(_) => self.put_condition(2, value, [0, 0]),
            Fixed("not") => {
                let left = self.condition()?;
                self.put_condition(3, 0, [left, 0])
            }
            _ => {
                let left = self.condition()?;
                let (join, _) = self.next(&["and", "or"].map(Fixed), Opens::Nothing)?;
                let right = self.condition()?;
                self.mark(")")?;
                let kind = if join == Fixed("and") { 4 } else { 5 };
                self.put_condition(kind, 0, [left, right])
            }
        }
    }

    /// What stands in a choice behind its bracket, between two of a class, and its node.
    fn choice(&mut self, kind: usize, side: fn(&mut Self) -> Read<usize>) -> Read<usize> {
        let condition = self.condition()?;
        self.mark("?")?;
        let b = side(self)?;
        self.mark(":")?;
        let c = side(self)?;
        self.mark("]")?;
        self.put(kind, 0, [condition, b, c])
    }

    /// Two of a class with a word or mark between them and a bracket behind them, and their node.
    fn joined(
        &mut self,
        kind: usize,
        side: fn(&mut Self) -> Read<usize>,
        ends: [&'static str; 2],
    ) -> Read<usize> {
        let a = side(self)?;
        self.mark(ends[0])?;
        let b = side(self)?;
        self.mark(ends[1])?;
        self.put(kind, 0, [a, b, 0])
    }

    fn arithmetic(&mut self) -> Read<usize> {
        let words = ["(", "pick", "["].map(Fixed);
        let tokens = [&words[..], &[Number, Variable]].concat();
        let (token, value) = self.next(&tokens, Opens::Node)?;
        match token {
            Number => {
                let node = self.put(0, 0, [0; 3])?;
                self.image.nodes[node].value = value as i32;
                Ok(node)
            }
            Variable => self.put(1, value, [0; 3]),
            Fixed("(") => self.joined(2, Self::arithmetic, ["+", ")"]),
            Fixed("pick") => {
                self.mark("(")?;
                let a = self.boolean()?;
                self.mark("?")?;
                let b = self.arithmetic()?;
                self.mark(":")?;
                let c = self.arithmetic()?;
                self.mark(")")?;
                self.put(3, 0, [a, b, c])
            }
            _ => self.choice(4, Self::arithmetic),
        }
    }

    fn boolean(&mut self) -> Read<usize> {
        let words = ["false", "true", "not", "both", "(", "["].map(Fixed);
        match self.next(&words, Opens::Node)?.0 {
            Fixed("false") => self.put(8, 0, [0; 3]),
            Fixed("true") => self.put(9, 0, [0; 3]),
            Fixed("not") => {
                let a = self.boolean()?;
                self.put(10, 0, [a, 0, 0])
            }
            Fixed("both") => {
                self.mark("(")?;
                self.joined(11, Self::boolean, ["and", ")"])
            }
            Fixed("(") => self.joined(12, Self::arithmetic, ["<", ")"]),
            _ => self.choice(13, Self::boolean),
        }
    }

    fn statement(&mut self) -> Read<usize> {
        let words = ["skip", "{", "if", "while", "throw", "try", "["].map(Fixed);
        let tokens = [&words[..], &[Variable]].concat();
        let (token, value) = self.next(&tokens, Opens::Node)?;
        match token {
            Fixed("skip") => self.put(16, 0, [0; 3]),
            Variable => {
                self.mark(":=")?;
                let a = self.arithmetic()?;
                self.put(17, value, [a, 0, 0])
            }
            Fixed("{") => self.joined(18, Self::statement, [";", "}"]),
            Fixed("if") => self.test(),
            Fixed("while") => {
                let a = self.boolean()?;
                self.mark("do")?;
                let b = self.statement()?;
                self.put(20, 0, [a, b, 0])
            }
            Fixed("throw") => {
                let a = self.arithmetic()?;
                self.put(21, 0, [a, 0, 0])
            }
            Fixed("try") => self.attempt(),
            _ => self.choice(23, Self::statement),
        }
    }

    /// Behind `if`.
    fn test(&mut self) -> Read<usize> {
        let a = self.boolean()?;
        self.mark("then")?;
        let b = self.statement()?;
        self.mark("else")?;
        let c = self.statement()?;
        self.put(19, 0, [a, b, c])
    }

    /// Behind `try`.
    fn attempt(&mut self) -> Read<usize> {
        let a = self.statement()?;
        self.mark("catch")?;
        let variable = self.variable()?;
        self.mark("with")?;
        let b = self.statement()?;
        self.put(22, variable, [a, b, 0])
    }
}

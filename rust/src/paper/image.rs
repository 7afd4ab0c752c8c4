//! The image's records, read from bytes and written to bytes. Nothing is judged here.

use super::bits::{Reader, Writer};
use super::kinds::NUMBER;

#[derive(Clone, Default)]
pub struct Header {
    pub edition: usize,
    pub options: usize,
    pub conditions: usize,
    pub nodes: usize,
    pub zero: u64,
}

#[derive(Clone, Default)]
pub struct Condition {
    pub kind: usize,
    pub option: usize,
    pub left: usize,
    pub right: usize,
}

/// A number node has `zero` and `value`; every other node has `variable`, `fields` (a, b, c) and `zero`.
#[derive(Clone, Default)]
pub struct Node {
    pub kind: usize,
    pub variable: usize,
    pub fields: [usize; 3],
    pub zero: u64,
    pub value: i32,
}

#[derive(Clone, Default)]
pub struct Image {
    pub header: Header,
    pub conditions: Vec<Condition>,
    pub nodes: Vec<Node>,
}

impl Header {
    /// Of the first eight bytes.
    pub fn read(bits: &mut Reader) -> Self {
        Header {
            edition: bits.take(8) as usize,
            options: bits.take(4) as usize,
            conditions: bits.take(12) as usize,
            nodes: bits.take(12) as usize,
            zero: bits.take(28),
        }
    }

    /// The length of an image with these counts.
    pub fn length(&self) -> usize {
        8 + 4 * self.conditions + 8 * self.nodes
    }
}

impl Condition {
    fn read(bits: &mut Reader) -> Self {
        Condition {
            kind: bits.take(4) as usize,
            option: bits.take(4) as usize,
            left: bits.take(12) as usize,
            right: bits.take(12) as usize,
        }
    }
}

impl Node {
    fn read(bits: &mut Reader) -> Self {
        let kind = bits.take(6) as usize;
        if kind == NUMBER {
            return Node {
                kind,
                zero: bits.take(26),
                value: bits.take(32) as u32 as i32,
                ..Node::default()
            };
        }
        Node {
            kind,
            variable: bits.take(6) as usize,
            fields: [0; 3].map(|_: usize| bits.take(12) as usize),
            zero: bits.take(16),
            value: 0,
        }
    }

    fn write(&self, bits: &mut Writer) {
        bits.put(self.kind as u64, 6);
        if self.kind == NUMBER {
            bits.put(self.zero, 26);
            bits.put(u64::from(self.value as u32), 32);
            return;
        }
        bits.put(self.variable as u64, 6);
        for field in self.fields {
            bits.put(field as u64, 12);
        }
        bits.put(self.zero, 16);
    }
}

impl Image {
    /// Of bytes as long as their header says.
    pub fn read(bytes: &[u8]) -> Self {
        let mut bits = Reader::new(bytes);
        let header = Header::read(&mut bits);
        let conditions = (0..header.conditions)
            .map(|_| Condition::read(&mut bits))
            .collect();
        let nodes = (0..header.nodes).map(|_| Node::read(&mut bits)).collect();
        Image {
            header,
            conditions,
            nodes,
        }
    }

    /// The header stands as it is, so that a damaged one can be written too.
    pub fn write(&self) -> Vec<u8> {
        let mut bits = Writer::default();
        bits.put(self.header.edition as u64, 8);
        bits.put(self.header.options as u64, 4);
        bits.put(self.header.conditions as u64, 12);
        bits.put(self.header.nodes as u64, 12);
        bits.put(self.header.zero, 28);
        for condition in &self.conditions {
            bits.put(condition.kind as u64, 4);
            bits.put(condition.option as u64, 4);
            bits.put(condition.left as u64, 12);
            bits.put(condition.right as u64, 12);
        }
        for node in &self.nodes {
            node.write(&mut bits);
        }
        bits.bytes()
    }
}

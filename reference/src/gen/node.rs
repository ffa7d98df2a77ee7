//! JSON as the generator builds it: a tree whose leaves are raw bytes, right or
//! wrong, written with white space wherever JSON permits it.

use super::rng::Rng;

#[derive(Debug, Clone)]
pub enum Node {
    Raw(Vec<u8>),
    Array(Vec<Node>),
    Object(Vec<(Vec<u8>, Node)>),
}

/// How much white space stands between tokens.
#[derive(Debug, Clone, Copy, PartialEq, Eq)]
pub enum Spacing {
    None,
    Light,
    Heavy,
}

impl Node {
    pub fn raw(bytes: impl AsRef<[u8]>) -> Node {
        Node::Raw(bytes.as_ref().to_vec())
    }

    /// A string of these raw bytes.
    pub fn text(bytes: impl AsRef<[u8]>) -> Node {
        Node::Raw([b"\"", bytes.as_ref(), b"\""].concat())
    }

    /// A member's name and value.
    pub fn member(name: impl AsRef<[u8]>, value: Node) -> (Vec<u8>, Node) {
        (name.as_ref().to_vec(), value)
    }

    pub fn render(&self, rng: &mut Rng, spacing: Spacing) -> Vec<u8> {
        let mut writer = Writer {
            rng,
            spacing,
            out: Vec::new(),
        };
        writer.space();
        writer.node(self);
        writer.space();
        writer.out
    }
}

struct Writer<'r> {
    rng: &'r mut Rng,
    spacing: Spacing,
    out: Vec<u8>,
}

impl Writer<'_> {
    /// White space where JSON permits it.
    fn space(&mut self) {
        let count = match self.spacing {
            Spacing::None => 0,
            Spacing::Light => usize::from(self.rng.one_in(3)),
            Spacing::Heavy => self.rng.below(4),
        };
        let mut spaces = match self.spacing {
            Spacing::Light => self.rng.text(b" ", count),
            _ => self.rng.text(b" \t\r\n", count),
        };
        self.out.append(&mut spaces);
    }

    fn mark(&mut self, mark: u8) {
        self.space();
        self.out.push(mark);
        self.space();
    }

    fn node(&mut self, node: &Node) {
        match node {
            Node::Raw(bytes) => self.out.extend_from_slice(bytes),
            Node::Array(elements) => {
                self.mark(b'[');
                for (index, element) in elements.iter().enumerate() {
                    if index > 0 {
                        self.mark(b',');
                    }
                    self.node(element);
                }
                self.mark(b']');
            }
            Node::Object(members) => {
                self.mark(b'{');
                for (index, (name, value)) in members.iter().enumerate() {
                    if index > 0 {
                        self.mark(b',');
                    }
                    self.out.push(b'"');
                    self.out.extend_from_slice(name);
                    self.out.push(b'"');
                    self.mark(b':');
                    self.node(value);
                }
                self.mark(b'}');
            }
        }
    }
}

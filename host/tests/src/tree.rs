//! Blocks to be written: a tree whose sizes can be made wrong.

use crate::strips::Strips;

#[derive(Clone)]
pub enum Body {
    Bytes(Vec<u8>),
    Kids(Vec<Node>),
    Strips(Strips),
}

#[derive(Clone)]
pub struct Node {
    pub tag: [u8; 4],
    pub body: Body,
    /// Bytes after the body, inside the block.
    pub stray: Vec<u8>,
    /// A size other than the true one.
    pub size: Option<u32>,
}

pub fn leaf(tag: &[u8; 4], bytes: Vec<u8>) -> Node {
    Node { tag: *tag, body: Body::Bytes(bytes), stray: vec![], size: None }
}

pub fn container(tag: &[u8; 4], kids: Vec<Node>) -> Node {
    Node { tag: *tag, body: Body::Kids(kids), stray: vec![], size: None }
}

impl Node {
    pub fn write(&self) -> Vec<u8> {
        let mut out = self.tag.to_vec();
        out.extend([0; 4]);
        match &self.body {
            Body::Bytes(bytes) => out.extend(bytes),
            Body::Kids(kids) => kids.iter().for_each(|kid| out.extend(kid.write())),
            Body::Strips(strips) => out.extend(strips.payload()),
        }
        out.extend(&self.stray);
        let size = self.size.unwrap_or(out.len() as u32);
        out[4..8].copy_from_slice(&size.to_be_bytes());
        out
    }

    pub fn kids(&mut self) -> &mut Vec<Node> {
        match &mut self.body {
            Body::Kids(kids) => kids,
            _ => panic!("a container was expected"),
        }
    }

    /// The first child by each tag in turn.
    pub fn find(&mut self, path: &[&[u8; 4]]) -> Option<&mut Node> {
        match path.split_first() {
            None => Some(self),
            Some((tag, rest)) => match &mut self.body {
                Body::Kids(kids) => kids.iter_mut().find(|kid| kid.tag == **tag)?.find(rest),
                _ => None,
            },
        }
    }

    pub fn count(&self) -> usize {
        1 + if let Body::Kids(kids) = &self.body { kids.iter().map(Node::count).sum() } else { 0 }
    }

    /// Node `n` in reading order.
    pub fn nth(&mut self, mut n: usize) -> &mut Node {
        if n == 0 {
            return self;
        }
        n -= 1;
        for kid in self.kids() {
            if n < kid.count() {
                return kid.nth(n);
            }
            n -= kid.count();
        }
        panic!("no such node")
    }
}

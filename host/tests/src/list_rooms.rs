//! Rooms made for the listing: objects with names and images of every kind, and what each object's row must say, known from the making and not from
//! either side.

use crate::rng::Rng;
use crate::rooms::{self, u16s, with_extra};
use crate::tree::{container, leaf, Node};

/// What an object's row must say.
#[derive(Clone)]
pub struct Row {
    /// CDHD's 13 bytes.
    cdhd: Vec<u8>,
    /// Where the name's block stands among the blocks of its OBCD, and how many bytes the name has; none without such a block.
    name: Option<(usize, usize)>,
    /// Bit s − 1 for state s.
    states: u16,
}

/// An object as it is made.
#[derive(Clone)]
pub struct Thing {
    pub obcd: Node,
    pub row: Row,
}

/// A room, and the rows of its objects in their order.
pub struct Made {
    pub room: Node,
    rows: Vec<Row>,
}

/// How an object's name stands in its OBCD.
#[derive(Clone, Copy, Debug, PartialEq, Eq, PartialOrd, Ord)]
pub enum Name {
    /// No OBNA.
    Missing,
    /// An OBNA without a byte.
    Empty,
    /// A NUL alone, and a NUL with letters behind it.
    Nul,
    NulFirst,
    /// Letters up to a NUL at the end, and up to one with more letters behind it.
    Ended,
    NulInside,
    /// No NUL: a few letters, `@` among them; every other byte; more bytes than 16 bits count.
    Open,
    Filled,
    EveryByte,
    Huge,
    /// Two OBNA, of which the first counts, also where it is empty.
    Twice,
    EmptyFirst,
    /// An OBNA that isn't directly in the OBCD: in a container there, in a block there that is none, in the OBIM, in ROOM.
    Inner,
    Payload,
    OfImage,
    OfRoom,
    /// A tag that is wrong in this bit.
    Near(usize),
}

pub fn names() -> Vec<Name> {
    use Name::*;
    let mut names = vec![
        Missing, Empty, Nul, NulFirst, Ended, NulInside, Open, Filled, EveryByte, Huge, Twice, EmptyFirst, Inner, Payload, OfImage, OfRoom,
    ];
    names.extend((0..32).map(Near));
    names
}

/// A block of this tag without a payload, whether a container or not.
pub fn empty(tag: &[u8; 4]) -> Node {
    leaf(tag, vec![])
}

fn obna(text: &[u8]) -> Node {
    leaf(b"OBNA", text.to_vec())
}

impl Name {
    /// The blocks of the OBCD for it, and the name's length where the first of them is the one that counts.
    fn blocks(self) -> (Vec<Node>, Option<usize>) {
        let one = |text: &[u8], length: usize| (vec![obna(text)], Some(length));
        match self {
            Name::Missing | Name::OfImage | Name::OfRoom => (vec![], None),
            Name::Empty => one(b"", 0),
            Name::Nul => one(b"\0", 0),
            Name::NulFirst => one(b"\0late", 0),
            Name::Ended => one(b"key\0", 3),
            Name::NulInside => one(b"cup@\0old\0", 4),
            Name::Open => one(b"a", 1),
            Name::Filled => one(b"il pezzo di carne@@@@@@", 23),
            Name::EveryByte => one(&(1..=255).collect::<Vec<u8>>(), 255),
            Name::Huge => one(&[b'n'; 0x1_2345], 0x1_2345),
            Name::Twice => (vec![obna(b"first\0"), obna(b"the second\0")], Some(5)),
            Name::EmptyFirst => (vec![obna(b""), obna(b"the second\0")], Some(0)),
            Name::Inner => (vec![container(b"IM42", vec![obna(b"inner")])], None),
            Name::Payload => (vec![leaf(b"VERB", obna(b"inner").write())], None),
            Name::Near(bit) => {
                let mut block = obna(b"near");
                block.tag[bit / 8] ^= 1 << (bit % 8);
                (vec![block], None)
            }
        }
    }

    /// A block outside the OBCD for it: in the object's image, or in ROOM.
    pub fn outside(self) -> Option<Node> {
        matches!(self, Name::OfImage | Name::OfRoom).then(|| obna(b"outside"))
    }
}

/// An object of this id: CDHD and other blocks before or behind the name's.
pub fn thing(r: &mut Rng, id: u16, name: Name, states: u16) -> Thing {
    let ((blocks, length), cdhd) = (name.blocks(), [id.to_le_bytes().to_vec(), r.bytes(11)].concat());
    let mut before = vec![];
    for other in [leaf(b"CDHD", with_extra(r, cdhd.clone())), leaf(b"VERB", r.bytes(3))] {
        if r.once_in(2) {
            before.push(other);
        } else {
            before.insert(0, other);
        }
    }
    let behind = before.split_off(r.below(3));
    let row = Row { cdhd, name: length.map(|length| (before.len(), length)), states };
    Thing { obcd: container(b"OBCD", [before, blocks, behind].concat()), row }
}

/// An image of this id and numImages: IMHD and these blocks in any order. IMHD's size and place are any.
pub fn obim(r: &mut Rng, id: u16, images: usize, blocks: Vec<Node>) -> Node {
    let imhd = [u16s(&[id as usize, images]), r.bytes(12)].concat();
    let mut kids = [vec![leaf(b"IMHD", with_extra(r, imhd))], blocks].concat();
    r.shuffle(&mut kids);
    container(b"OBIM", kids)
}

/// The two lists as one, each in its own order.
fn merged(r: &mut Rng, one: Vec<Node>, other: Vec<Node>) -> Vec<Node> {
    let (mut one, mut other) = (one.into_iter().peekable(), other.into_iter().peekable());
    let mut all = vec![];
    while one.peek().is_some() || other.peek().is_some() {
        let next = if r.once_in(2) { one.next().or_else(|| other.next()) } else { other.next().or_else(|| one.next()) };
        all.extend(next);
    }
    all
}

/// A good small room with these objects, in this order, and these other blocks, in this order, among its own blocks.
pub fn made(r: &mut Rng, things: Vec<Thing>, others: Vec<Node>) -> Made {
    let (w, h, n) = (8 * r.range(1, 2), r.range(1, 3), r.below(3));
    let mut room = rooms::bare_room_of(r, w, h, n).root;
    let (objects, rows) = things.into_iter().map(|thing| (thing.obcd, thing.row)).unzip();
    let (own, all) = (std::mem::take(room.kids()), merged(r, objects, others));
    *room.kids() = merged(r, own, all);
    Made { room, rows }
}

/// Where the children of a container begin that begins itself at `start`.
fn starts(node: &mut Node, start: usize) -> Vec<usize> {
    let begin = |at: &mut usize, kid: &Node| {
        let here = *at;
        *at += kid.write().len();
        Some(here)
    };
    node.kids().iter().scan(start + 8, begin).collect()
}

impl Row {
    /// The row's 32 bytes, the name's block starting at `obna` of the room.
    fn bytes(&self, obna: Option<usize>) -> Vec<u8> {
        let (start, length) = (obna.map_or(0, |at| at + 8) as u32, self.name.map_or(0, |(_, length)| length) as u32);
        [&self.cdhd[..], &[0; 3], &start.to_le_bytes(), &length.to_le_bytes(), &self.states.to_le_bytes(), &[0; 6]].concat()
    }
}

impl Made {
    pub fn objects(&self) -> usize {
        self.rows.len()
    }

    /// The rows that the listing must give.
    pub fn wanted(&mut self) -> Vec<u8> {
        let (places, mut rows) = (starts(&mut self.room, 0), self.rows.iter());
        let objects = self.room.kids().iter_mut().zip(places).filter(|(kid, _)| &kid.tag == b"OBCD");
        let bytes = |(obcd, at): (&mut Node, usize)| {
            let row = rows.next().expect("a row for each object");
            let obna = row.name.map(|(i, _)| starts(obcd, at)[i]);
            row.bytes(obna)
        };
        objects.flat_map(bytes).collect()
    }
}

//! What is wrong with a room, and where. Numbers only, so that a refusal costs nothing to make; who wants to read it makes the words (host/checker).

use crate::block::Block;
use crate::{NEEDED, SHORT, SIZE, TABLE, TREE};

/// A refusal: the block at fault, where it begins and the size that its header says, and what is wrong with it.
#[derive(Clone, Copy, Debug, PartialEq, Eq)]
pub struct Fault {
    pub at: usize,
    pub size: usize,
    pub cause: Cause,
}

/// What is wrong. Places named `at` are bytes of the room.
#[derive(Clone, Copy, Debug, PartialEq, Eq)]
pub enum Cause {
    /// 1, of the whole room: over the size, shorter than a header (then it has no block), another tag, a size that isn't the room's.
    Long,
    Headless,
    Tag,
    Unequal,
    /// 1, of a block: its size is below 8, or passes the `left` bytes of its parent, or it stands at depth 7.
    Small,
    Passes {
        left: usize,
    },
    Deep,
    /// 1, of a container: `left` bytes at its end are too few for another header.
    Stray {
        at: usize,
        left: usize,
    },
    /// 2: the container has no such block, or the payload is shorter than its fixed fields.
    Missing {
        tag: [u8; 4],
    },
    Short {
        fields: usize,
    },
    /// 3
    Size {
        field: Field,
        value: usize,
        at: usize,
    },
    /// 4
    Lent,
    /// 5: no room for the table, whose offsets have `width` bytes each, or an offset of it, which stands at `at`.
    Table {
        strips: usize,
        width: usize,
    },
    Offset {
        strip: usize,
        width: usize,
        at: usize,
        value: usize,
        wrong: Wrong,
    },
    /// 6 to 8, in the strip whose body is `start..end` of the room.
    Strip {
        strip: usize,
        start: usize,
        end: usize,
        stop: Stop,
    },
}

#[derive(Clone, Copy, Debug, PartialEq, Eq)]
pub enum Field {
    Width,
    Height,
    Planes,
    Objects,
}

/// How an offset is wrong: in the table or before it, not below the block's size, or not above an earlier strip's.
#[derive(Clone, Copy, Debug, PartialEq, Eq)]
pub enum Wrong {
    Low { lowest: usize },
    High,
    Falls { strip: usize, value: usize },
}

/// Where the reading of a strip stops. Places are bits of the body: 8 × byte + bit.
#[derive(Clone, Copy, Debug, PartialEq, Eq)]
pub struct Stop {
    pub number: u32,
    pub part: Part,
    /// Counted from 1; 0 where there are none, or none yet.
    pub operation: usize,
    /// Where the operation begins; without one, the part.
    pub begins: usize,
    /// The place at fault: of 7 the first bit that is missing, otherwise `begins`.
    pub at: usize,
    /// How many pixels or rows come before, and how many the strip has.
    pub done: usize,
    pub all: usize,
    /// How many the operation gives, as far as that is known.
    pub gives: usize,
}

/// What of a body is being read.
#[derive(Clone, Copy, Debug, PartialEq, Eq)]
pub enum Part {
    Code,
    Colour,
    /// The pixels of code 01.
    Raw,
    /// The bits of an operation that tell its kind, and what follows them: an index, the third bit of `110` and `111`, the 3-bit d, a run's number.
    Kind,
    Index,
    Step,
    Change,
    Run,
    /// The operation byte of a mask, literal rows, copies of a row.
    Operation,
    Literal,
    Copies,
}

impl Fault {
    pub fn of(block: Block, cause: Cause) -> Fault {
        Fault { at: block.start, size: block.end - block.start, cause }
    }

    /// Document 01's number.
    pub fn number(&self) -> u32 {
        match self.cause {
            Cause::Missing { .. } | Cause::Short { .. } => NEEDED,
            Cause::Size { .. } => SIZE,
            Cause::Lent => SHORT,
            Cause::Table { .. } | Cause::Offset { .. } => TABLE,
            Cause::Strip { stop, .. } => stop.number,
            _ => TREE,
        }
    }

    /// The byte at fault and its bit, where there is one: of a strip the stop's, else where the block or the field begins.
    pub fn place(&self) -> (usize, usize) {
        match self.cause {
            Cause::Stray { at, .. } | Cause::Size { at, .. } | Cause::Offset { at, .. } => (at, 0),
            Cause::Strip { start, stop, .. } => (start + stop.at / 8, stop.at % 8),
            _ => (self.at, 0),
        }
    }
}

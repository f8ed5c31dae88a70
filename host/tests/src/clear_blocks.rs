//! Deliberate TRNS blocks (change request 9): how they stand in a room, and what follows from that, known from the making: the room's transparent index
//! ("clear", as include/kildegrom.h says) or 2. The scenes ask every call that takes a room about each of them, and a run of the tests that hasn't
//! fails (clear_count.rs).

use crate::clear_rooms::{ground_room, BLOCKS, COLOURS};
use crate::rng::Rng;
use crate::tree::{container, leaf, Node};
use reference::NEEDED;

/// A TRNS block's payload: no byte, the index alone, or others behind it.
#[derive(Clone, Copy, Debug, PartialEq, Eq, PartialOrd, Ord)]
pub enum Payload {
    Empty,
    One,
    Several,
}

const PAYLOADS: [Payload; 3] = [Payload::Empty, Payload::One, Payload::Several];

/// Where a TRNS block isn't looked for.
#[derive(Clone, Copy, Debug, PartialEq, Eq, PartialOrd, Ord)]
pub enum Within {
    Rmim,
    Im00,
    Obim,
    Im01,
    Obcd,
    /// A container directly under ROOM that no one looks into, and a ROOM there.
    Im42,
    Room,
    /// As deep as a block may stand.
    Deep,
    /// A block that is no container, whose payload looks like a TRNS block.
    Unknown,
}

const WITHIN: [Within; 9] =
    [Within::Rmim, Within::Im00, Within::Obim, Within::Im01, Within::Obcd, Within::Im42, Within::Room, Within::Deep, Within::Unknown];

/// Whether a room that has a block elsewhere has one directly under ROOM too.
#[derive(Clone, Copy, Debug, PartialEq, Eq, PartialOrd, Ord)]
pub enum Direct {
    No,
    First,
    Last,
}

#[derive(Clone, Copy, Debug, PartialEq, Eq, PartialOrd, Ord)]
pub enum Blocks {
    None,
    /// One directly under ROOM, before block number `at` of the room, or last.
    One {
        payload: Payload,
        at: usize,
    },
    /// Two there, in this order, with different bytes.
    Two {
        payloads: [Payload; 2],
        at: [usize; 2],
    },
    /// One in another container.
    Inside {
        within: Within,
        payload: Payload,
        direct: Direct,
    },
    /// One directly under ROOM whose tag is wrong in this bit.
    Near {
        bit: usize,
        payload: Payload,
    },
}

/// Every arrangement.
pub fn planned() -> Vec<Blocks> {
    use Payload::*;
    let mut planned = vec![Blocks::None];
    for at in 0..=BLOCKS {
        planned.extend(PAYLOADS.map(|payload| Blocks::One { payload, at }));
        for behind in at..=BLOCKS {
            let orders = [[One, One], [One, Empty], [Empty, One], [Empty, Empty], [Several, One]];
            planned.extend(orders.map(|payloads| Blocks::Two { payloads, at: [at, behind] }));
        }
    }
    for within in WITHIN {
        for direct in [Direct::No, Direct::First, Direct::Last] {
            planned.extend(PAYLOADS.map(|payload| Blocks::Inside { within, payload, direct }));
        }
    }
    planned.extend((0..32).flat_map(|bit| PAYLOADS.map(|payload| Blocks::Near { bit, payload })));
    planned
}

/// Two different colours of the small room's objects, and neither 255: one is the index, the other stands where it doesn't count.
fn two_colours(r: &mut Rng) -> [u8; 2] {
    let mut colours: Vec<u8> = COLOURS.into_iter().filter(|colour| *colour != 255).collect();
    r.shuffle(&mut colours);
    [colours[0], colours[1]]
}

/// The block. Behind the first byte stand others that aren't it.
fn trns(r: &mut Rng, payload: Payload, [first, behind]: [u8; 2]) -> Node {
    let others = vec![behind; r.range(1, 9)];
    leaf(
        b"TRNS",
        match payload {
            Payload::Empty => vec![],
            Payload::One => vec![first],
            Payload::Several => [vec![first], others].concat(),
        },
    )
}

/// Puts the block into the other container.
fn put_within(r: &mut Rng, room: &mut Node, within: Within, block: Node) {
    let path: &[&[u8; 4]] = match within {
        Within::Rmim => &[b"RMIM"],
        Within::Im00 => &[b"RMIM", b"IM00"],
        Within::Obim => &[b"OBIM"],
        Within::Im01 => &[b"OBIM", b"IM01"],
        Within::Obcd => &[b"OBCD"],
        _ => &[],
    };
    let block = match within {
        Within::Im42 => container(b"IM42", vec![block]),
        Within::Room => container(b"ROOM", vec![block]),
        Within::Deep => [b"IM01", b"OBCD", b"IM99", b"IM42"].into_iter().fold(block, |inner, tag| container(tag, vec![inner])),
        Within::Unknown => leaf(b"CLUT", block.write()),
        _ => block,
    };
    let kids = room.find(path).expect("a container").kids();
    let at = r.below(kids.len() + 1);
    kids.insert(at, block);
}

impl Blocks {
    /// The small room with these blocks, and the index that it has or its refusal.
    pub fn make(self, r: &mut Rng) -> (Node, Result<u8, u32>) {
        let ([clear, other], mut room) = (two_colours(r), ground_room());
        let given = |payload: Payload| if payload == Payload::Empty { Err(NEEDED) } else { Ok(clear) };
        let wanted = match self {
            Blocks::None => Ok(255),
            Blocks::One { payload, at } => {
                room.kids().insert(at, trns(r, payload, [clear, other]));
                given(payload)
            }
            Blocks::Two { payloads, at } => {
                room.kids().insert(at[1], trns(r, payloads[1], [other, clear]));
                room.kids().insert(at[0], trns(r, payloads[0], [clear, other]));
                given(payloads[0])
            }
            Blocks::Inside { within, payload, direct } => {
                let block = trns(r, payload, [other, other]);
                put_within(r, &mut room, within, block);
                let at = if direct == Direct::First { 0 } else { room.kids().len() };
                room.kids().splice(at..at, (direct != Direct::No).then(|| leaf(b"TRNS", vec![clear])));
                if direct == Direct::No {
                    Ok(255)
                } else {
                    Ok(clear)
                }
            }
            Blocks::Near { bit, payload } => {
                let (mut block, at) = (trns(r, payload, [other, other]), r.below(BLOCKS + 1));
                block.tag[bit / 8] ^= 1 << (bit % 8);
                room.kids().insert(at, block);
                Ok(255)
            }
        };
        (room, wanted)
    }
}

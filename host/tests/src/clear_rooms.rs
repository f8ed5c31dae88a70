//! The small room of the deliberate TRNS blocks and faults (clear_blocks.rs, clear_faults.rs), and what the calls must leave of it.

use crate::rooms::{least_room, u16s};
use crate::strips::Strips;
use crate::tree::{container, leaf, Body, Node};
use common::bits::Bits;

/// 16 by 2, one plane, two objects.
pub const W: usize = 16;
pub const H: usize = 2;
pub const OBJECTS: usize = 2;
/// How many blocks the room has: a TRNS block stands before one of them or last.
pub const BLOCKS: usize = 6;

/// The background's colour, and its plane's rows. Both objects are one row of these colours under a transparent code, and have these bits.
const GROUND: u8 = 9;
const ROWS: [u8; H] = [0xF0, 0x0F];
pub const COLOURS: [u8; 8] = [0, 5, 77, 255, 128, 254, 1, 200];
const BITS: u8 = 0x3C;

/// A block of strips: `width` is 4 in SMAP, 2 in ZP.
fn strips(tag: &[u8; 4], width: usize, h: usize, bodies: Vec<Vec<u8>>) -> Node {
    let strips = Strips::tight(width, h, bodies.into_iter().map(Some).collect());
    Node { tag: *tag, body: Body::Strips(strips), stray: vec![], size: None }
}

/// The colours under code 30: every one by a new index of 8 bits.
fn coloured() -> Vec<u8> {
    let mut bits = Bits::after(vec![0x30, COLOURS[0]]);
    COLOURS[1..].iter().for_each(|colour| bits.put(0b01 | (*colour as usize) << 2, 10));
    bits.bytes
}

/// OBIM and OBCD. The image is at (0, 0), the box one strip wide.
fn object(id: usize) -> [Node; 2] {
    let state = container(b"IM01", vec![strips(b"SMAP", 4, 1, vec![coloured()]), strips(b"ZP01", 2, 1, vec![vec![1, BITS]])]);
    let imhd = leaf(b"IMHD", u16s(&[id, 1, 0, 0, 0, 0, 8, 1]));
    [container(b"OBIM", vec![imhd, state]), container(b"OBCD", vec![leaf(b"CDHD", cdhd(id)), leaf(b"OBNA", b"key\0".to_vec())])]
}

fn cdhd(id: usize) -> Vec<u8> {
    [u16s(&[id]), vec![0, 0, 1, 1], vec![0; 7]].concat()
}

/// The room, its background under an opaque code. `colour` is the background's.
pub fn small_room(w: usize, colour: u8) -> Node {
    let flat = [vec![0x1C, colour], vec![0; H]].concat();
    let plane = [vec![H as u8], ROWS.to_vec()].concat();
    let image = vec![strips(b"SMAP", 4, H, vec![flat; w / 8]), strips(b"ZP01", 2, H, vec![plane; w / 8])];
    let mut room = least_room(w, H, 1, image);
    room.kids().extend([object(7), object(8)].into_iter().flatten());
    assert_eq!(room.kids().len(), BLOCKS);
    room
}

/// The room with the background's own colour.
pub fn ground_room() -> Node {
    small_room(W, GROUND)
}

/// The pixels and masks of a load.
pub fn loaded() -> [Vec<u8>; 2] {
    [vec![GROUND; W * H], ROWS.iter().flat_map(|row| [*row; W / 8]).collect()]
}

/// The same with an object drawn at strip position (a, 0): the pixels that aren't `clear`, and its bits. One of the colours is always the index, so that
/// the strip has a transparent pixel.
pub fn drawn(clear: u8, a: usize) -> [Vec<u8>; 2] {
    let [mut pixels, mut masks] = loaded();
    for (i, colour) in COLOURS.into_iter().enumerate().filter(|(_, colour)| *colour != clear) {
        pixels[8 * a + i] = colour;
    }
    masks[a] |= BITS;
    [pixels, masks]
}

/// The record.
pub fn recorded(clear: u8) -> Vec<u8> {
    [u16s(&[W, H, 1, OBJECTS]), vec![clear], vec![0; 7]].concat()
}

/// The rows of the listing, the names themselves in place of where they stand: of each object header, name and state 1.
pub fn listed() -> Vec<u8> {
    [7, 8].into_iter().flat_map(|id| [cdhd(id), vec![0; 3], b"key".to_vec(), vec![1, 0], vec![0; 6]].concat()).collect()
}

//! Rooms of every shape, all of them good.

use crate::rng::Rng;
use crate::strips;
use crate::tree::{container, leaf, Body, Node};

#[derive(Clone)]
pub struct Plan {
    pub w: usize,
    pub h: usize,
    pub n: usize,
    pub root: Node,
}

impl Plan {
    pub fn objects(&mut self) -> usize {
        self.root.kids().iter().filter(|kid| &kid.tag == b"OBCD").count()
    }

    /// The transparent index, as the room was made.
    pub fn clear(&mut self) -> u8 {
        match self.root.find(&[b"TRNS"]) {
            Some(Node { body: Body::Bytes(bytes), .. }) => bytes.first().copied().unwrap_or(255),
            _ => 255,
        }
    }
}

pub fn sizes(r: &mut Rng) -> (usize, usize) {
    match r.below(80) {
        0 => (8 * r.range(1, 128), r.range(1, 200)),
        1 => (r.pick(&[8, 1024]), r.pick(&[1, 200])),
        2 | 3 => (8 * r.range(1, 128), r.range(1, 3)),
        4 | 5 => (8 * r.range(1, 2), r.range(1, 200)),
        _ => (8 * r.range(1, 6), r.range(1, 24)),
    }
}

/// Tags that are passed over, wherever they stand.
pub const OTHER: [&[u8; 4]; 14] =
    [b"CLUT", b"TRNs", b"CYCL", b"SCAL", b"BOXD", b"IM0A", b"IM/0", b"IM:0", b"IM0:", b"IM0/", b"Im00", b"ZP05", b"ZP00", b"\0\xFF\0\0"];
pub const CONTAINERS: [&[u8; 4]; 9] = [b"ROOM", b"RMIM", b"OBIM", b"OBCD", b"IM00", b"IM01", b"IM09", b"IM90", b"IM99"];

fn some_bytes(r: &mut Rng, most: usize) -> Vec<u8> {
    let n = r.below(most + 1);
    r.bytes(n)
}

fn other(r: &mut Rng) -> Node {
    leaf(r.pick(&OTHER), some_bytes(r, 12))
}

/// The same for a place that isn't directly under ROOM: there a TRNS block is passed over too, an empty one as well.
fn other_within(r: &mut Rng) -> Node {
    if r.once_in(6) {
        leaf(b"TRNS", some_bytes(r, 2))
    } else {
        other(r)
    }
}

/// Any tree of containers, its deepest block `levels` below its own top (1 is a block alone).
pub fn nest(r: &mut Rng, levels: usize) -> Node {
    if levels == 1 {
        return if r.once_in(2) { other_within(r) } else { container(r.pick(&CONTAINERS), vec![]) };
    }
    let mut kids = vec![nest(r, levels - 1)];
    for _ in 0..r.below(3) {
        let levels = r.range(1, levels - 1);
        kids.push(nest(r, levels));
    }
    r.shuffle(&mut kids);
    container(r.pick(&CONTAINERS), kids)
}

/// A nest that may stand at `depth`; no OBCD, OBIM or TRNS at depth 2, where they count.
fn harmless(r: &mut Rng, depth: usize) -> Node {
    let levels = r.range(1, 7 - depth);
    let mut node = nest(r, levels);
    match &node.body {
        Body::Kids(_) if depth == 2 => node.tag = *r.pick(&[b"ROOM", b"IM00", b"IM42"]),
        Body::Bytes(_) if depth == 2 => node.tag = *r.pick(&OTHER),
        _ => (),
    }
    node
}

pub fn with_extra(r: &mut Rng, mut bytes: Vec<u8>) -> Vec<u8> {
    if r.once_in(4) {
        bytes.extend(some_bytes(r, 5));
    }
    bytes
}

pub fn cdhd(r: &mut Rng, id: u16) -> Node {
    let bytes = [id.to_le_bytes().to_vec(), r.bytes(11)].concat();
    leaf(b"CDHD", with_extra(r, bytes))
}

pub fn imhd(r: &mut Rng, id: u16) -> Node {
    let bytes = [id.to_le_bytes().to_vec(), vec![r.below(10) as u8, 0], r.bytes(12)].concat();
    leaf(b"IMHD", with_extra(r, bytes))
}

fn name(r: &mut Rng) -> Vec<u8> {
    match r.below(8) {
        0 => vec![],
        1 => b"\0".to_vec(),
        2 => b"\0late".to_vec(),
        3 => b"il pezzo di carne@@@@@@".to_vec(),
        4 => b"rusty cup@@\0@@".to_vec(),
        5 => b"@@@\0".to_vec(),
        6 => (0..r.below(9)).map(|_| r.byte() | 1).collect(),
        _ => b"key\0".to_vec(),
    }
}

pub fn obcd(r: &mut Rng, id: u16) -> Node {
    let mut kids = vec![cdhd(r, id)];
    if r.once_in(2) {
        kids.push(leaf(b"VERB", some_bytes(r, 9)));
    }
    if !r.once_in(4) {
        kids.push(leaf(b"OBNA", name(r)));
    }
    if r.once_in(6) {
        kids.push(harmless(r, 3));
    }
    r.shuffle(&mut kids);
    if r.once_in(6) {
        // Second ones aren't looked at.
        kids.push(leaf(b"OBNA", name(r)));
        kids.push(leaf(b"CDHD", some_bytes(r, 14)));
    }
    container(b"OBCD", kids)
}

fn obim(r: &mut Rng, id: u16) -> Node {
    let mut kids = vec![imhd(r, id)];
    for tag in [b"IM01", b"IM02", b"IM09", b"IM10"] {
        if r.once_in(3) {
            let smap = Node { tag: *b"SMAP", body: Body::Strips(strips::smap(r, 8, 2)), stray: vec![], size: None };
            kids.push(container(tag, vec![smap, leaf(b"ZP01", some_bytes(r, 9))]));
        }
    }
    if r.once_in(6) {
        kids.push(harmless(r, 3));
    }
    r.shuffle(&mut kids);
    if r.once_in(6) {
        kids.push(leaf(b"IMHD", some_bytes(r, 17)));
    }
    container(b"OBIM", kids)
}

pub fn u16s(numbers: &[usize]) -> Vec<u8> {
    numbers.iter().flat_map(|number| (*number as u16).to_le_bytes()).collect()
}

pub fn image(r: &mut Rng, w: usize, h: usize, n: usize) -> Node {
    let strips = |tag: [u8; 4], strips| Node { tag, body: Body::Strips(strips), stray: vec![], size: None };
    let mut kids = vec![strips(*b"SMAP", strips::smap(r, w, h))];
    for k in 1..=4u8 {
        let tag = [b'Z', b'P', b'0', b'0' + k];
        if k as usize > n {
            if r.once_in(4) {
                kids.push(leaf(&tag, some_bytes(r, 12)));
            }
        } else if !r.once_in(6) {
            kids.push(strips(tag, strips::plane(r, w, h)));
        }
    }
    if r.once_in(5) {
        kids.push(harmless(r, 4));
    }
    r.shuffle(&mut kids);
    if r.once_in(6) {
        kids.push(leaf(b"SMAP", some_bytes(r, 12)));
        if n > 0 && kids.iter().any(|kid| &kid.tag == b"ZP01") {
            kids.push(leaf(b"ZP01", some_bytes(r, 12)));
        }
    }
    container(b"IM00", kids)
}

/// A room of this image and no blocks but the needed ones.
pub fn least_room(w: usize, h: usize, n: usize, image: Vec<Node>) -> Node {
    let rmim = container(b"RMIM", vec![leaf(b"RMIH", u16s(&[n])), container(b"IM00", image)]);
    container(b"ROOM", vec![leaf(b"RMHD", u16s(&[w, h, 0])), rmim])
}

/// The blocks of an object at (0, 0) whose only state is this IM01 block.
pub fn object_of(r: &mut Rng, width: usize, h: usize, state: Node) -> [Node; 2] {
    let imhd = leaf(b"IMHD", u16s(&[7, 1, 0, 0, 0, 0, width, h]));
    [obcd(r, 7), container(b"OBIM", vec![imhd, state])]
}

/// A transparent index: any byte, 255 as without a block, 0, one that every code gives, or a colour of the background.
fn any_clear(r: &mut Rng, plan: &mut Plan) -> u8 {
    let colour = match plan.root.find(&[b"RMIM", b"IM00", b"SMAP"]) {
        Some(Node { body: Body::Strips(strips), .. }) => r.pick(&strips.bodies).and_then(|body| body.get(1).copied()),
        _ => None,
    };
    match r.below(6) {
        0 => 255,
        1 => 0,
        2 => r.below(16) as u8,
        3 => colour.unwrap_or(0),
        _ => r.byte(),
    }
}

/// A TRNS block at any place of the room that has none. It is the first; those behind it, empty ones too, aren't looked at.
fn put_trns(r: &mut Rng, plan: &mut Plan) {
    let clear = any_clear(r, plan);
    let (block, kids) = (leaf(b"TRNS", with_extra(r, vec![clear])), plan.root.kids());
    let at = r.below(kids.len() + 1);
    kids.insert(at, block);
    while r.once_in(6) {
        let behind = r.range(at + 1, kids.len());
        kids.insert(behind, leaf(b"TRNS", some_bytes(r, 2)));
    }
}

/// Another transparent index, or none; now and then an empty block, which is refused.
pub fn change_trns(r: &mut Rng, plan: &mut Plan) {
    plan.root.kids().retain(|kid| &kid.tag != b"TRNS");
    if !r.once_in(4) {
        put_trns(r, plan);
    }
    if r.once_in(8) {
        let (kids, empty) = (plan.root.kids(), leaf(b"TRNS", vec![]));
        let at = r.below(kids.len() + 1);
        kids.insert(at, empty);
    }
}

/// RMIM with RMIH and the image, in any order; second ones behind them aren't looked at.
fn rmim(r: &mut Rng, w: usize, h: usize, n: usize) -> Node {
    let rmih = u16s(&[n]);
    let mut kids = vec![leaf(b"RMIH", with_extra(r, rmih)), image(r, w, h, n)];
    if r.once_in(4) {
        kids.push(other_within(r));
    }
    r.shuffle(&mut kids);
    if r.once_in(6) {
        kids.push(container(b"IM00", vec![other_within(r)]));
        kids.push(leaf(b"RMIH", some_bytes(r, 3)));
    }
    if r.once_in(6) {
        kids.push(container(b"IM01", vec![harmless(r, 4)]));
    }
    container(b"RMIM", kids)
}

/// A good room of these sizes, half of them with a transparent index of their own.
pub fn room_of(r: &mut Rng, w: usize, h: usize, n: usize) -> Plan {
    let rmhd = u16s(&[w, h, r.below(70_000) % 65_536]);
    let mut kids = vec![leaf(b"RMHD", with_extra(r, rmhd)), rmim(r, w, h, n)];
    let objects = match r.below(60) {
        0 => r.range(120, 128),
        1..=20 => 0,
        _ => r.range(1, 5),
    };
    for _ in 0..objects {
        let id = r.below(objects * 2) as u16 * 257;
        kids.push(obcd(r, id));
        if r.once_in(2) {
            kids.push(obim(r, id));
        }
    }
    if r.once_in(3) {
        let orphan = r.below(65_536) as u16;
        kids.push(obim(r, orphan));
    }
    for _ in 0..r.below(3) {
        kids.push(if r.once_in(2) { other(r) } else { harmless(r, 2) });
    }
    r.shuffle(&mut kids);
    if r.once_in(6) {
        kids.push(leaf(b"RMHD", some_bytes(r, 7)));
        kids.push(container(b"RMIM", vec![other_within(r)]));
    }
    let mut plan = Plan { w, h, n, root: container(b"ROOM", kids) };
    if r.once_in(2) {
        put_trns(r, &mut plan);
    }
    plan
}

/// The same without objects, for a scene that puts its own there.
pub fn bare_room_of(r: &mut Rng, w: usize, h: usize, n: usize) -> Plan {
    let mut plan = room_of(r, w, h, n);
    plan.root.kids().retain(|kid| &kid.tag != b"OBCD" && &kid.tag != b"OBIM");
    plan
}

pub fn room(r: &mut Rng) -> Plan {
    let ((w, h), n) = (sizes(r), r.below(5));
    room_of(r, w, h, n)
}

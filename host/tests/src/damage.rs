//! Damage aimed at each refusal, at each place.

use crate::rng::Rng;
use crate::rooms::{self, Plan, CONTAINERS, OTHER};
use crate::shapes::any_shape;
use crate::strips::{any_code, known, mask_body, pixel_body, Fault, Strips};
use crate::tree::{leaf, Body, Node};

fn any_node<'a>(r: &mut Rng, plan: &'a mut Plan) -> &'a mut Node {
    let n = r.below(plan.root.count());
    plan.root.nth(n)
}

/// A size that is not the block's own.
fn wrong_size(r: &mut Rng, plan: &mut Plan) {
    let node = any_node(r, plan);
    let size = node.write().len() as u32;
    let near = size.wrapping_add(r.pick(&[1, 2, 8, 0xFFFF_FFFF, 0xFFFF_FFF8]));
    let sizes = [0, 1, 7, 8, 9, near, near, near, size.swap_bytes(), 0x7FFF_FFFF, 0x8000_0000, 0xFFFF_FFFF, 1_048_577];
    node.size = Some(r.pick(&sizes));
}

/// Down to depth 6 or 7, at any container.
fn deep(r: &mut Rng, plan: &mut Plan) {
    let depth = r.range(6, 7);
    let levels = depth - 1;
    let mut deep = rooms::nest(r, levels);
    if matches!(&deep.body, Body::Kids(_)) {
        deep.tag = *b"IM77";
    }
    let kids = plan.root.kids();
    let at = r.below(kids.len() + 1);
    kids.insert(at, deep);
}

/// A block of 4 to 7 bytes, with another that starts inside its header: only the size is wrong.
fn overlapped(r: &mut Rng, plan: &mut Plan) {
    let (size, inside) = (r.range(4, 7), r.below(5));
    let body = [r.bytes(size - 4), (8 + inside as u32).to_be_bytes().to_vec(), r.bytes(inside)].concat();
    let node = any_node(r, plan);
    if let Body::Kids(kids) = &mut node.body {
        let at = r.below(kids.len() + 1);
        kids.insert(at, Node { size: Some(size as u32), ..leaf(b"FILL", body) });
    }
}

/// 1: sizes, tags, depth, filling.
pub fn tree(r: &mut Rng, plan: &mut Plan) {
    match r.below(7) {
        0 | 1 => wrong_size(r, plan),
        2 => {
            // Bytes after the children, or after a leaf's body (harmless there).
            let stray = if r.once_in(3) { r.range(8, 20) } else { r.range(1, 7) };
            let stray = if r.once_in(2) { vec![0; stray] } else { r.bytes(stray) };
            any_node(r, plan).stray = stray;
        }
        3 => deep(r, plan),
        4 => overlapped(r, plan),
        5 => {
            any_node(r, plan).tag = match r.below(8) {
                0 => *b"TRNS",
                1..=4 => *r.pick(&OTHER),
                _ => *r.pick(&CONTAINERS),
            };
        }
        _ => {
            let node = any_node(r, plan);
            let at = r.below(4);
            node.tag[at] ^= 1 << r.below(8);
        }
    }
}

/// A needed block: the tags from the room to its parent, its own, the bytes of its fixed fields.
type Needed = (&'static [&'static [u8; 4]], &'static [u8; 4], usize);

/// TRNS, the first, isn't needed; but where there is one, it needs its first byte.
pub const NEEDED: [Needed; 8] = [
    (&[], b"TRNS", 1),
    (&[], b"RMHD", 6),
    (&[], b"RMIM", 0),
    (&[b"RMIM"], b"RMIH", 2),
    (&[b"RMIM"], b"IM00", 0),
    (&[b"RMIM", b"IM00"], b"SMAP", 0),
    (&[b"OBCD"], b"CDHD", 13),
    (&[b"OBIM"], b"IMHD", 16),
];

/// The block at the path's end: of several OBCDs or OBIMs, any.
fn parent<'a>(r: &mut Rng, plan: &'a mut Plan, path: &[&[u8; 4]]) -> Option<&'a mut Node> {
    let parents: Vec<usize> = match path.first() {
        Some(first) if path.len() == 1 => {
            plan.root.kids().iter().enumerate().filter(|(_, kid)| &kid.tag == *first).map(|(i, _)| i).collect()
        }
        _ => vec![],
    };
    match parents.len() {
        0 => plan.root.find(path),
        n => plan.root.kids().get_mut(parents[r.below(n)]),
    }
}

/// 2: a needed block missing, too short, or behind a bad one of its tag.
pub fn needed(r: &mut Rng, plan: &mut Plan) {
    let (path, tag, fields) = r.pick(&NEEDED);
    let Some(Node { body: Body::Kids(kids), .. }) = parent(r, plan, path) else { return };
    let Some(at) = kids.iter().position(|kid| &kid.tag == tag) else { return };
    match r.below(4) {
        0 => drop(kids.remove(at)),
        1 => {
            if let Body::Bytes(bytes) = &mut kids[at].body {
                bytes.truncate(if r.once_in(2) { fields.saturating_sub(1) } else { r.below(fields + 2) });
            } else {
                kids.remove(at);
            }
        }
        2 => {
            let length = if r.once_in(2) { fields.saturating_sub(1) } else { r.below(fields + 2) };
            let bytes = if fields == 0 { vec![] } else { r.bytes(length) };
            kids.insert(r.below(at + 1), leaf(tag, bytes));
        }
        _ => {
            // The same block one level up, where it doesn't count.
            let block = kids.remove(at);
            plan.root.kids().push(block);
        }
    }
}

/// 3: W, H, N, object count.
pub fn sizes(r: &mut Rng, plan: &mut Plan) {
    let widths = [0, 1, 4, 7, 9, 12, 15, 1020, 1025, 1032, 2048, 32768, 65528, 65535, plan.w + 8, plan.w.saturating_sub(8), plan.w + 1];
    let heights = [0, 201, 202, 256, 1000, 32768, 65535, plan.h + 1, plan.h.saturating_sub(1)];
    let (at, number) = match r.below(4) {
        0 => (0, r.pick(&widths) as u16),
        1 => (2, r.pick(&heights) as u16),
        2 => {
            let n = r.pick(&[5, 6, 255, 256, 260, 65535, (plan.n as u16 + 1) % 6, plan.n.saturating_sub(1) as u16]);
            if let Some(Node { body: Body::Bytes(bytes), .. }) = plan.root.find(&[b"RMIM", b"RMIH"]) {
                bytes.splice(..2.min(bytes.len()), n.to_le_bytes());
            }
            if n <= 4 {
                plan.n = n as usize;
            }
            return;
        }
        _ => {
            let want = r.pick(&[127, 128, 129, 129, 130, 257]);
            while plan.objects() < want {
                let object = rooms::obcd(r, 7);
                plan.root.kids().push(object);
            }
            return;
        }
    };
    if let Some(Node { body: Body::Bytes(bytes), .. }) = plan.root.find(&[b"RMHD"]) {
        if bytes.len() >= at + 2 {
            bytes.splice(at..at + 2, number.to_le_bytes());
        }
    }
    if number <= 1024 {
        *(if at == 0 { &mut plan.w } else { &mut plan.h }) = number as usize;
    }
}

/// The background's strips, or a plane's.
fn strips<'a>(r: &mut Rng, plan: &'a mut Plan) -> Option<&'a mut Strips> {
    let tag = r.pick(&[b"SMAP", b"SMAP", b"ZP01", b"ZP02", b"ZP03", b"ZP04"]);
    match &mut plan.root.find(&[b"RMIM", b"IM00", tag])?.body {
        Body::Strips(strips) => Some(strips),
        _ => None,
    }
}

/// 5: offsets and tables.
pub fn table(r: &mut Rng, plan: &mut Plan) {
    if let Some(strips) = strips(r, plan) {
        wrong_table(r, strips);
    }
}

pub fn wrong_table(r: &mut Rng, strips: &mut Strips) {
    let (lowest, size, offsets, count) = (strips.lowest(), 8 + strips.payload().len(), strips.offsets(), strips.bodies.len());
    if r.once_in(5) {
        let table = strips.width * count;
        strips.cut = Some(if r.once_in(2) { r.pick(&[0, table - 1, table, table + 1]) } else { r.below(table + 2) });
        if r.once_in(3) {
            strips.wrong = (0..count).map(|strip| (strip, 0)).collect();
        }
        return;
    }
    for _ in 0..r.range(1, 2) {
        let strip = r.below(count);
        let (mine, before, after) = (offsets[strip], offsets[strip.saturating_sub(1)], offsets[(strip + 1).min(count - 1)]);
        let edges = [
            0,
            1,
            7,
            8,
            lowest - 1,
            lowest,
            lowest + 1,
            size - 1,
            size,
            size + 1,
            before,
            before.wrapping_sub(1),
            after,
            after + 1,
            mine + 1,
            mine.wrapping_sub(1),
            0xFFFF,
            0x7FFF_FFFF,
            0x8000_0000,
            0xFFFF_FFFF,
        ];
        strips.wrong.push((strip, r.pick(&edges) & 0xFFFF_FFFF));
    }
}

/// 6, 7, 8: bodies.
pub fn body(r: &mut Rng, plan: &mut Plan) {
    if let Some(strips) = strips(r, plan) {
        wrong_body(r, strips);
    }
}

pub fn wrong_body(r: &mut Rng, strips: &mut Strips) {
    let h = strips.h;
    for _ in 0..r.range(1, 2) {
        let strip = r.below(strips.bodies.len());
        let fault = r.pick(&[Fault::Overrun, Fault::Cut]);
        strips.bodies[strip] = Some(if strips.width == 2 {
            mask_body(r, h, fault)
        } else if r.once_in(6) {
            any_shape(r, h)
        } else if r.once_in(4) {
            let mut body = strips.bodies[strip].clone().unwrap();
            let code = (0..).map(|_| r.byte()).find(|code| !known(*code)).unwrap();
            let near = r.pick(&[0, 2, 0x0D, 0x13, 0x17, 0x1D, 0x21, 0x27, 0x2B, 0x31, 0x3F, 0x45, 0x53, 0x59, 0x67, 0x6D, 0x7B, 0x81]);
            body[0] = if r.once_in(2) { code } else { near };
            body.truncate(if r.once_in(4) { 1 } else { body.len() });
            body
        } else {
            let code = if fault == Fault::Overrun { r.pick(&[0x40, 0x58, 0x69, 0x7F]) } else { any_code(r) };
            pixel_body(r, code, h, fault)
        });
    }
    if r.once_in(8) {
        // Arbitrary bodies.
        let strip = r.below(strips.bodies.len());
        let length = r.range(1, 20);
        let code = any_code(r);
        let mut bytes = r.bytes(length);
        bytes[0] = if strips.width == 4 { code } else { bytes[0] };
        strips.bodies[strip] = Some(bytes);
    }
}

/// Flips, cuts and stretches of the written bytes.
pub fn bytes(r: &mut Rng, room: &mut Vec<u8>) {
    match r.below(6) {
        0 => room.truncate(r.below(room.len() + 1)),
        1 => {
            let more = r.range(1, 9);
            room.extend(r.bytes(more));
        }
        2 => {
            // Cut, and the ROOM's size put right.
            room.truncate(r.range(8, room.len().max(9)).min(room.len()));
            if room.len() >= 8 {
                let size = room.len() as u32;
                room[4..8].copy_from_slice(&size.to_be_bytes());
            }
        }
        _ => {
            for _ in 0..r.range(1, 4) {
                if !room.is_empty() {
                    let at = r.below(room.len());
                    room[at] = if r.once_in(2) { r.byte() } else { room[at] ^ 1 << r.below(8) };
                }
            }
        }
    }
}

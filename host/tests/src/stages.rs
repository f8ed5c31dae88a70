//! Rooms made for sessions: objects with images of several states, in boxes that meet, and images that are spoilt.

use crate::damage::{wrong_body, wrong_table};
use crate::recode;
use crate::rng::Rng;
use crate::rooms::{self, u16s, with_extra, Plan};
use crate::tree::{container, leaf, Body, Node};

/// Sizes and places that images share, so that equal boxes are common, and the room's transparent index, which they hold.
struct Pool {
    room: (usize, usize),
    clear: u8,
    sizes: Vec<(usize, usize)>,
    places: Vec<(usize, usize)>,
}

fn pool(r: &mut Rng, plan: &mut Plan) -> Pool {
    let (w, h, clear) = (plan.w, plan.h, plan.clear());
    let strips = if r.once_in(6) { w / 8 } else { (w / 8).min(3) };
    let height = h.div_ceil(r.pick(&[1, 2, 2, 4]));
    let sizes = (0..r.range(1, 4)).map(|_| (8 * r.range(1, strips), if r.once_in(8) { h } else { r.range(1, height) })).collect();
    let places = (0..r.range(1, 8)).map(|_| (8 * r.below(w / 8), if r.once_in(3) { 0 } else { r.below(h) })).collect();
    Pool { room: (w, h), clear, sizes, places }
}

/// Sizes that 12 is for, and some that are only odd.
fn odd_size(r: &mut Rng, (w, h): (usize, usize)) -> (usize, usize) {
    r.pick(&[(0, h), (w, 0), (w + 4, h), (12, 2), (1, 1), (65_528, h), (w, 65_535), (8, 200), (1024, 1), (w + 8, h), (w, h + 1)])
}

fn odd_place(r: &mut Rng, (x, y): (usize, usize)) -> (usize, usize) {
    r.pick(&[(x + 4, y), (x + 1, y), (65_528, y), (x, 65_535), (65_535, 65_535), (x, y + 1), (x + 8, y), (32_768, 0)])
}

/// Spoils one state: its SMAP goes, comes second or moves away (2), or tables and bodies are wrong (5 to 8).
fn spoil(r: &mut Rng, state: &mut Node) {
    let kids = state.kids();
    match r.below(10) {
        0 => kids.retain(|kid| &kid.tag != b"SMAP"),
        1 => kids.insert(0, leaf(b"SMAP", vec![])),
        2 => {
            let length = r.below(12);
            kids.insert(0, leaf(r.pick(&[b"ZP01", b"ZP02", b"ZP03", b"ZP04", b"ZP05"]), r.bytes(length)));
        }
        _ => {
            let strips: Vec<usize> = (0..kids.len()).filter(|i| matches!(kids[*i].body, Body::Strips(_))).collect();
            for _ in 0..r.range(1, 2) {
                let which = r.pick(&strips);
                let Body::Strips(strips) = &mut kids[which].body else { unreachable!() };
                if r.once_in(3) {
                    wrong_table(r, strips);
                } else {
                    wrong_body(r, strips);
                }
            }
        }
    }
}

/// Changes an image of a room that a session was made for: a state spoilt or gone, or a number of IMHD.
pub fn change(r: &mut Rng, plan: &mut Plan) {
    let mut images: Vec<&mut Node> = plan.root.kids().iter_mut().filter(|kid| &kid.tag == b"OBIM").collect();
    if images.is_empty() {
        return;
    }
    let which = r.below(images.len());
    let kids = images[which].kids();
    let which = r.below(kids.len());
    match &mut kids[which].body {
        Body::Bytes(bytes) if bytes.len() >= 16 => {
            let at = r.pick(&[0, 2, 2, 8, 8, 10, 10, 12, 12, 14, 14]);
            bytes[at] = bytes[at].wrapping_add(r.pick(&[1, 8, 255, 248]));
        }
        Body::Kids(inner) if inner.iter().any(|kid| matches!(kid.body, Body::Strips(_))) && !r.once_in(4) => spoil(r, &mut kids[which]),
        _ => drop(kids.remove(which)),
    }
}

/// Pixels of a strip with many of the index, of 255 and of their neighbours, under `code`; none where it can't give them.
fn speckled(r: &mut Rng, code: u8, h: usize, clear: u8) -> Option<Vec<u8>> {
    let colours = [clear, clear, 255, 0, clear.wrapping_add(1), clear.wrapping_sub(1), r.byte()];
    // Now and then the index itself is left out.
    let few = if r.once_in(4) { &colours[2..] } else { &colours };
    let pixels: Vec<u8> = (0..8 * h).map(|_| r.pick(few)).collect();
    recode::pixel_body(r, code, &pixels)
}

/// The block IM0s: a picture in which 255 and the room's index are common, under codes of every kind.
fn state(r: &mut Rng, s: u8, (w, h): (usize, usize), n: usize, clear: u8) -> Node {
    let mut state = rooms::image(r, w, h, n);
    state.tag = [b'I', b'M', b'0', b'0' + s];
    for kid in state.kids().iter_mut().filter(|kid| &kid.tag == b"SMAP") {
        let Body::Strips(strips) = &mut kid.body else { continue };
        for body in strips.bodies.iter_mut().flatten() {
            body[1] = r.pick(&[255, clear, clear, body[1], body[1]]);
            if r.once_in(4) {
                *body = speckled(r, body[0], strips.h, clear).unwrap_or(std::mem::take(body));
            }
        }
    }
    if r.once_in(10) {
        spoil(r, &mut state);
    }
    state
}

fn obim(r: &mut Rng, id: usize, pool: &Pool, n: usize) -> Node {
    let (mut size, mut place) = (r.pick(&pool.sizes), r.pick(&pool.places));
    if !r.once_in(6) {
        place = (place.0.min(pool.room.0 - size.0), place.1.min(pool.room.1 - size.1));
    }
    // The picture is made for a size that stays small, whatever IMHD says afterwards.
    let made = if r.once_in(20) { (8, r.range(1, 9)) } else { size };
    if r.once_in(12) {
        size = odd_size(r, size);
    }
    if r.once_in(8) {
        place = odd_place(r, place);
    }
    let most = if r.once_in(10) { 9 } else { r.range(1, 4) };
    let images = match r.below(12) {
        0 => r.pick(&[0, 1, most - 1, most + 1, 9, 10, 255, 256, 65_535]),
        _ => most,
    };
    let imhd = u16s(&[id, images, r.below(65_536), r.below(65_536), place.0, place.1, size.0, size.1]);
    let mut kids = vec![leaf(b"IMHD", with_extra(r, imhd))];
    for s in 1..=most {
        if !r.once_in(15) {
            kids.push(state(r, s as u8, made, n, pool.clear));
        }
    }
    if r.once_in(6) {
        let mut ten = state(r, 1, made, n, pool.clear);
        ten.tag = *r.pick(&[b"IM10", b"IM00", b"IM11", b"IM0A"]);
        kids.push(ten);
    }
    r.shuffle(&mut kids);
    if r.once_in(8) {
        // Second ones aren't looked at.
        kids.push(state(r, 1, (8, 1), n, pool.clear));
        kids.push(leaf(b"IMHD", r.bytes(16)));
    }
    container(b"OBIM", kids)
}

/// How parents are given: of any kind, or in one chain through all objects that ends with the last or goes round.
#[derive(Clone, Copy, PartialEq)]
enum Parents {
    Any,
    Chain,
    Round,
}

fn parents(r: &mut Rng) -> Parents {
    match r.below(6) {
        0 => Parents::Chain,
        1 => Parents::Round,
        _ => Parents::Any,
    }
}

/// CDHD with a box that meets the room, any flags, and a parent of any kind: none, another, itself, none there.
fn obcd(r: &mut Rng, (id, number, count): (usize, usize, usize), parents: Parents, (w, h): (usize, usize)) -> Node {
    let mut node = rooms::obcd(r, id as u16);
    let Some(Body::Bytes(bytes)) = node.find(&[b"CDHD"]).map(|cdhd| &mut cdhd.body) else { unreachable!() };
    if r.once_in(12) {
        return node;
    }
    let place = [r.below(w / 8 + 1) as u8, r.below(h / 8 + 1) as u8, r.below(5) as u8, r.below(5) as u8];
    let next = if number < count { number + 1 } else { usize::from(parents == Parents::Round) };
    let parent = match r.below(12) {
        _ if parents != Parents::Any => next,
        0..=4 => 0,
        5 => number,
        6 => r.pick(&[count + 1, 127, 128, 129, 255]),
        _ => r.range(1, count),
    };
    if parents != Parents::Any && !r.once_in(20) {
        bytes[6] &= 0x7F;
    }
    bytes[2..6].copy_from_slice(&place);
    bytes[7] = parent as u8;
    node
}

fn sizes(r: &mut Rng) -> (usize, usize) {
    match r.below(150) {
        0 => (r.pick(&[512, 1024]), r.pick(&[160, 200])),
        1..=3 => (8 * r.range(1, 128), r.range(1, 6)),
        4..=6 => (8 * r.range(1, 3), r.range(100, 200)),
        _ => (8 * r.range(1, 8), if r.once_in(3) { 8 * r.range(1, 4) } else { r.range(2, 30) }),
    }
}

/// Many objects that share one small image, so that the shown list grows long.
fn crowd(r: &mut Rng) -> Plan {
    let (w, h, n) = (8 * if r.once_in(2) { r.range(20, 128) } else { r.range(64, 80) }, r.range(1, 12), r.below(3));
    let mut plan = rooms::bare_room_of(r, w, h, n);
    let (clear, sizes, count) = (plan.clear(), vec![(8, r.range(1, h))], r.range(64, 128));
    let pool = Pool { room: (w, h), clear, sizes, places: vec![(0, 0)] };
    let (mut blocks, parents) = (vec![obim(r, 257, &pool, n)], parents(r));
    blocks.extend((1..=count).map(|number| obcd(r, (257, number, count), parents, (w, h))));
    plan.root.kids().extend(blocks);
    plan
}

/// A good room with objects to draw; one that came out over the room's size is made again.
pub fn stage(r: &mut Rng) -> Plan {
    loop {
        let plan = if r.once_in(25) { crowd(r) } else { cast(r) };
        if plan.root.write().len() <= 1_048_576 {
            return plan;
        }
    }
}

/// A few objects, each with an image of its own.
fn cast(r: &mut Rng) -> Plan {
    let ((w, h), n) = (sizes(r), r.below(5));
    let mut plan = rooms::bare_room_of(r, w, h, n);
    let count = match r.below(60) {
        0 => r.range(100, 128),
        1 => 0,
        _ => r.range(2, 10),
    };
    let (pool, parents) = (pool(r, &mut plan), parents(r));
    let mut blocks = vec![];
    for number in 1..=count {
        // Ids are mostly an object's own; some objects share one, and some have no image.
        let id = if r.once_in(12) { r.range(1, count) } else { number };
        blocks.push(obcd(r, (257 * id, number, count), parents, (w, h)));
        if !r.once_in(12) && (number <= 12 || r.once_in(12)) {
            blocks.push(obim(r, 257 * number, &pool, n));
        }
    }
    if r.once_in(6) {
        let id = r.pick(&[257, 0, 514, 65_535]);
        blocks.push(obim(r, id, &pool, n));
    }
    if r.once_in(2) {
        r.shuffle(&mut blocks);
    }
    let kids = plan.root.kids();
    let at = r.below(kids.len() + 1);
    kids.splice(at..at, blocks);
    plan
}

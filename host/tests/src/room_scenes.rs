//! Scenes with rooms: good ones, damaged ones, arbitrary bytes.

use crate::comparison::Comparison;
use crate::rng::Rng;
use crate::rooms::{self, Plan};
use crate::strips::{any_code, mask_body, pixel_body, Fault, Strips};
use crate::tree::leaf;
use crate::{calls, compare_scenes, damage, list_scenes, session_scenes};

/// A buffer of about `need` bytes that holds anything: exactly as long, one shorter, longer or empty.
pub fn lent(r: &mut Rng, need: usize) -> Vec<u8> {
    let length = match r.below(12) {
        0 => need.saturating_sub(1),
        1 => need + 1,
        2 => need + r.below(40),
        3 if r.once_in(3) => 0,
        4 if r.once_in(3) => r.below(need + 1),
        _ => need,
    };
    let fill = r.byte();
    if need > 20_000 {
        (0..length).map(|i| fill.wrapping_add((i * 7) as u8)).collect()
    } else {
        r.bytes(length)
    }
}

/// Every call that takes a room's bytes.
fn ask(b: &mut Comparison, r: &mut Rng, room: &[u8], w: usize, h: usize, n: usize, objects: usize) {
    let (w, h) = (w.min(1032), h.min(201));
    let big = w * h > 20_000;
    for _ in 0..if big { 1 } else { 3 } {
        let (session, pixels, masks) = (lent(r, 450), lent(r, w * h), lent(r, n * (w / 8) * h));
        calls::load(b, room, &session, &pixels, &masks);
    }
    if big && !r.once_in(4) {
        return;
    }
    let record = lent(r, 16);
    calls::record(b, room, &record);
    let (record, rows) = (lent(r, 16), lent(r, 32 * objects));
    calls::list(b, room, &record, &rows);
    for _ in 0..if big { 1 } else { 3 } {
        let object = match r.below(8) {
            0 => r.pick(&[0, objects as u32 + 1, 128, 129, 255, 256, 257, 65_536, 0x8000_0000, 0xFFFF_FFFF]),
            _ => r.range(0, objects + 1) as u32,
        };
        let header = lent(r, 16);
        calls::header(b, room, &header, object);
        calls::name(b, room, object);
    }
}

fn ask_plan(b: &mut Comparison, r: &mut Rng, plan: &mut Plan, room: &[u8]) {
    let objects = plan.objects();
    ask(b, r, room, plan.w, plan.h, plan.n, objects);
}

pub fn good(b: &mut Comparison, r: &mut Rng) {
    let mut plan = rooms::room(r);
    let (room, w, h, n) = (plan.root.write(), plan.w, plan.h, plan.n);
    let (number, ..) = calls::load(b, &room, &[1; 450], &vec![2; w * h], &vec![3; n * (w / 8) * h]);
    if number != 0 {
        b.differ("load", "refuses a room that was made to be good", &format!("room of {w} by {h}, {n} planes: number {number}"));
    }
    ask_plan(b, r, &mut plan, &room);
}

pub fn damaged(b: &mut Comparison, r: &mut Rng) {
    let mut plan = rooms::room(r);
    let kinds = [damage::tree, damage::needed, damage::sizes, damage::table, damage::body];
    let first = r.pick(&kinds);
    first(r, &mut plan);
    while r.once_in(4) {
        let more = r.pick(&kinds);
        more(r, &mut plan);
    }
    let room = plan.root.write();
    ask_plan(b, r, &mut plan, &room);
}

/// Several bad tables and bodies at once: which one is named?
pub fn order(b: &mut Comparison, r: &mut Rng) {
    let (w, h, n) = (8 * r.range(1, 6), r.range(1, 20), r.range(0, 4));
    let mut plan = rooms::room_of(r, w, h, n);
    for _ in 0..r.range(1, 4) {
        if r.once_in(4) {
            damage::table(r, &mut plan)
        } else {
            damage::body(r, &mut plan)
        }
    }
    let room = plan.root.write();
    ask_plan(b, r, &mut plan, &room);
}

/// Small rooms whose bodies hold arbitrary bytes, and good bodies cut at every byte.
pub fn bodies(b: &mut Comparison, r: &mut Rng) {
    let (h, strips) = (r.range(1, 6), r.range(1, 2));
    let load = |b: &mut Comparison, pixels: Vec<Vec<u8>>, rows: Vec<Option<Vec<u8>>>| {
        let block = |width, bodies| Strips::tight(width, h, bodies).payload();
        let image = vec![leaf(b"SMAP", block(4, pixels.into_iter().map(Some).collect())), leaf(b"ZP01", block(2, rows))];
        let room = rooms::least_room(8 * strips, h, 1, image).write();
        calls::load(b, &room, &[1; 450], &vec![2; 8 * strips * h], &vec![3; strips * h]);
    };
    let codes = |r: &mut Rng| (0..strips).map(|_| any_code(r)).collect::<Vec<_>>();
    let fine = |r: &mut Rng| codes(r).into_iter().map(|code| pixel_body(r, code, h, Fault::None)).collect::<Vec<_>>();
    for _ in 0..30 {
        let mut pixels = fine(r);
        let strip = r.below(strips);
        let length = r.range(1, 3 + 2 * h);
        pixels[strip] = r.bytes(length);
        pixels[strip][0] = if r.once_in(6) { r.byte() } else { any_code(r) };
        load(b, pixels, vec![None; strips]);
        let mut rows = vec![None; strips];
        let (strip, length) = (r.below(strips), r.range(1, 3 + h));
        rows[strip] = Some((0..length).map(|_| if r.once_in(6) { r.byte() } else { r.below(h + 2) as u8 | (r.byte() & 0x80) }).collect());
        load(b, fine(r), rows);
    }
    let (pixels, rows) = (fine(r), mask_body(r, h, Fault::None));
    for length in 1..pixels[strips - 1].len() {
        let mut cut = pixels.clone();
        cut[strips - 1].truncate(length);
        load(b, cut, vec![None; strips]);
    }
    for length in 1..rows.len() {
        load(b, pixels.clone(), vec![Some(rows[..length].to_vec()); strips]);
    }
}

/// Flips and cuts: several on one room.
pub fn flipped(b: &mut Comparison, r: &mut Rng) {
    let (w, h, n) = (8 * r.range(1, 4), r.range(1, 8), r.below(4));
    let mut plan = rooms::room_of(r, w, h, n);
    let whole = plan.root.write();
    for _ in 0..8 {
        let mut room = whole.clone();
        damage::bytes(r, &mut room);
        ask_plan(b, r, &mut plan, &room);
    }
}

/// Every cut of a small room, and every size field at every edge.
pub fn every_cut(b: &mut Comparison, r: &mut Rng) {
    let mut plan = rooms::room_of(r, 8, 1, 1);
    let whole = plan.root.write();
    for length in 0..whole.len().min(400) {
        let mut room = whole[..length].to_vec();
        if length >= 8 && r.once_in(2) {
            room[4..8].copy_from_slice(&(length as u32).to_be_bytes());
        }
        calls::load(b, &room, &[1; 450], &[2; 8], &[3; 1]);
    }
    for node in 0..plan.root.count() {
        let real = plan.root.nth(node).write().len() as u32;
        for size in [0, 1, 7, 8, 9, real - 1, real, real + 1, real + 8, real.swap_bytes(), 0x8000_0000, 0xFFFF_FFFF] {
            plan.root.nth(node).size = Some(size);
            let room = plan.root.write();
            calls::load(b, &room, &[1; 450], &[2; 8], &[3; 1]);
        }
        plan.root.nth(node).size = None;
    }
}

/// Arbitrary bytes and arbitrary trees as rooms.
pub fn arbitrary(b: &mut Comparison, r: &mut Rng) {
    for _ in 0..10 {
        let length = r.below(60);
        let mut room = r.bytes(length);
        if r.once_in(2) && length >= 8 {
            room[..8].copy_from_slice(b"ROOM\0\0\0\0");
            room[7] = length as u8;
        }
        ask(b, r, &room, 8, 2, 1, 1);
        let levels = r.range(1, 7);
        let mut tree = rooms::nest(r, levels);
        tree.tag = *b"ROOM";
        let room = tree.write();
        ask(b, r, &room, 8, 2, 1, 1);
    }
}

/// A room from a file, with every object's number and some more.
pub fn given(b: &mut Comparison, room: &[u8]) {
    calls::record(b, room, &[1; 16]);
    calls::load(b, room, &[1; 450], &[2; 1024 * 200], &[3; 4 * 128 * 200]);
    for object in 0..130 {
        calls::header(b, room, &[1; 16], object);
        calls::name(b, room, object);
    }
    list_scenes::given(b, room);
    compare_scenes::given(b, room);
    session_scenes::given(b, room);
}

/// The room's largest size, and one byte more.
pub fn at_the_limit(b: &mut Comparison, r: &mut Rng) {
    let mut plan = rooms::room_of(r, 8, 2, 1);
    let size = plan.root.write().len();
    for limit in [1_048_575, 1_048_576, 1_048_577] {
        plan.root.kids().push(leaf(b"FILL", vec![0x5A; limit - size - 8]));
        let room = plan.root.write();
        assert_eq!(room.len(), limit);
        let objects = plan.objects();
        calls::load(b, &room, &[1; 450], &[2; 16], &[3; 2]);
        calls::record(b, &room, &[1; 16]);
        calls::list(b, &room, &[1; 16], &vec![2; 32 * objects]);
        calls::name(b, &room, objects as u32);
        plan.root.kids().pop();
    }
}

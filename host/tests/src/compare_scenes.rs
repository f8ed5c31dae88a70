//! Scenes with two rooms: deliberate pairs (pairs.rs), versions of one room, and rooms that have nothing to do with each other.

use crate::calls;
use crate::comparison::Comparison;
use crate::damage;
use crate::pair_count::{cases, Case};
use crate::pair_rooms::Made;
use crate::pairs::{self, Difference, Pair};
use crate::planned::Case as _;
use crate::rng::Rng;
use crate::room_scenes::lent;
use crate::rooms::{self, Plan};
use crate::stages;
use crate::strips::{any_code, mask_body, pixel_body, Fault};
use crate::tree::{Body, Node};
use reference::{compare, SHORT};

/// A place's bytes (docs/LAYOUTS.md).
fn place((strip, pixels, planes): &Difference) -> [u8; 8] {
    let number = (*strip as u64) | (*pixels as u64) << 16 | (*planes as u64) << 32;
    number.to_le_bytes()
}

/// What a pair must give: number, value and the list afterwards.
fn wanted(made: &Made, case: Case, list: &[u8]) -> (u32, usize, Vec<u8>) {
    match &made.wanted {
        Err(number) => (*number, 0, list.to_vec()),
        Ok(differences) if case.length.short(differences.len()) => (SHORT, 0, list.to_vec()),
        Ok(differences) => {
            let filled: Vec<u8> = differences.iter().flat_map(place).collect();
            (0, differences.len(), [&filled, &list[filled.len()..]].concat())
        }
    }
}

/// Compares a pair as the case says: counted if number, value and list are the pair's.
fn check(b: &mut Comparison, r: &mut Rng, case: Case, made: &Made) {
    let places = made.wanted.as_ref().map_or(3, Vec::len);
    let length = case.length.bytes(r, places);
    let list = r.bytes(length);
    let (one, other) = if case.turned { (&made.b, &made.a) } else { (&made.a, &made.b) };
    let given = match case.pair {
        Pair::Itself => calls::compare_itself(b, one, &list),
        _ => calls::compare(b, one, other, &list),
    };
    let wanted = wanted(made, case, &list);
    if given == wanted {
        return b.pairs.reached(case);
    }
    let text = format!("{}: number {} with {} places, wanted {} with {}", case.name(), given.0, given.1, wanted.0, wanted.1);
    b.differ("compare", "compares a deliberate pair otherwise", &text);
}

fn compare_pair(b: &mut Comparison, r: &mut Rng, pair: Pair) {
    let made = pair.make(b, r);
    cases(pair).into_iter().for_each(|case| check(b, r, case, &made));
}

/// A planned pair, numbered from 0 on.
pub fn planned(b: &mut Comparison, r: &mut Rng, which: usize) {
    let pairs = pairs::planned();
    compare_pair(b, r, pairs[which % pairs.len()]);
}

/// Two rooms with a list of about the length that they need, in one order or the other.
fn ask(b: &mut Comparison, r: &mut Rng, one: &[u8], other: &[u8]) {
    let (one, other) = if r.once_in(2) { (one, other) } else { (other, one) };
    let need = 8 * compare::compare(one, other, &mut [0; 1024]).unwrap_or(r.below(3));
    let list = match r.below(8) {
        0 => r.bytes(need.saturating_sub(8)),
        1 => r.bytes(need + 8),
        _ => lent(r, need),
    };
    calls::compare(b, one, other, &list);
}

/// Another body for one strip of the background or a plane. It may give what the old one gave.
fn redraw(r: &mut Rng, plan: &mut Plan) {
    let tag = r.pick(&[b"SMAP", b"SMAP", b"ZP01", b"ZP02", b"ZP03", b"ZP04"]);
    let Some(Node { body: Body::Strips(strips), .. }) = plan.root.find(&[b"RMIM", b"IM00", tag]) else { return };
    let (which, h) = (r.below(strips.bodies.len()), strips.h);
    let body = &mut strips.bodies[which];
    match body {
        // The first colour, which those that follow may depend on; in a raw strip it is one pixel.
        Some(bytes) if strips.width == 4 && r.once_in(3) => bytes[1] ^= 1 << r.below(8),
        _ if strips.width == 4 => {
            let code = any_code(r);
            *body = Some(pixel_body(r, code, h, Fault::None));
        }
        _ => *body = (!r.once_in(4)).then(|| mask_body(r, h, Fault::None)),
    }
}

/// Another N, a plane's block gone, another transparent index, or an object changed.
fn rearrange(r: &mut Rng, plan: &mut Plan) {
    match r.below(4) {
        0 => {
            let n = r.below(5) as u8;
            if let Some(Node { body: Body::Bytes(bytes), .. }) = plan.root.find(&[b"RMIM", b"RMIH"]) {
                bytes[0] = n;
            }
        }
        1 => {
            let tag = r.pick(&[b"ZP01", b"ZP02", b"ZP03", b"ZP04"]);
            plan.root.find(&[b"RMIM", b"IM00"]).expect("an image").kids().retain(|kid| kid.tag != *tag);
        }
        2 => rooms::change_trns(r, plan),
        _ => stages::change(r, plan),
    }
}

/// Damage that mostly has a refusal.
fn spoil(r: &mut Rng, plan: &mut Plan) {
    r.pick(&[damage::tree, damage::needed, damage::sizes, damage::table, damage::body])(r, plan);
}

/// A room and changed copies of it: mostly good ones, some damaged. Some of the deliberate pairs again, made anew.
pub fn versions(b: &mut Comparison, r: &mut Rng) {
    if r.once_in(3) {
        let pair = r.pick(&pairs::planned());
        return compare_pair(b, r, pair);
    }
    let plan = if r.once_in(6) { stages::stage(r) } else { rooms::room(r) };
    let (room, big) = (plan.root.write(), plan.w * plan.h > 20_000);
    for _ in 0..if big { 2 } else { 8 } {
        let mut other = plan.clone();
        for _ in 0..r.below(4) {
            redraw(r, &mut other);
        }
        match r.below(12) {
            0 => spoil(r, &mut other),
            1..=4 => rearrange(r, &mut other),
            _ => (),
        }
        let mut bytes = other.root.write();
        if r.once_in(8) {
            damage::bytes(r, &mut bytes);
        }
        ask(b, r, &room, &bytes);
    }
}

/// Rooms of which neither comes from the other: of the same sizes, nearly so, of any, and arbitrary bytes.
pub fn strangers(b: &mut Comparison, r: &mut Rng) {
    let ((w, h), n) = (rooms::sizes(r), r.below(5));
    let mut one = rooms::room_of(r, w, h, n);
    let room = one.root.write();
    for _ in 0..if w * h > 20_000 { 1 } else { 4 } {
        let n = r.below(5);
        let mut other = match r.below(6) {
            0 => rooms::room_of(r, if w < 1024 { w + 8 } else { w - 8 }, h, n),
            1 => rooms::room_of(r, w, if h < 200 { h + 1 } else { h - 1 }, n),
            2 => rooms::room(r),
            _ => rooms::room_of(r, w, h, n),
        };
        if r.once_in(4) {
            spoil(r, &mut other);
        }
        ask(b, r, &room, &other.root.write());
    }
    let length = r.below(40);
    let bytes = r.bytes(length);
    ask(b, r, &room, &bytes);
    spoil(r, &mut one);
    ask(b, r, &one.root.write(), &bytes);
}

/// A room from a file: against itself, and against itself with a byte of its end changed.
pub fn given(b: &mut Comparison, room: &[u8]) {
    calls::compare_itself(b, room, &[4; 8]);
    calls::compare(b, room, room, &[4; 8]);
    for back in 1..=room.len().min(200) {
        let mut other = room.to_vec();
        other[room.len() - back] ^= 1;
        calls::compare(b, room, &other, &[4; 1024]);
    }
}

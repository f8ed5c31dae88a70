//! Scenes with deliberate ends of bodies (ends.rs): each body whole, longer and cut, in a background and in an object's image, before another body and at
//! the very end of a room that ends with its page. The reference says what the library must give, and the body itself says what both must.

use crate::calls::{self, Turn};
use crate::comparison::{Comparison, Place};
use crate::end_count::{Case, Spot, SPOTS};
use crate::ends::{codes, ends_of, method, End, Ending, Size, ANY, LONG, SHORT};
use crate::rng::Rng;
use crate::strips::{any_code, pixel_body, Fault, Strips};
use crate::tree::{container, leaf, Node};
use crate::{place_scenes, rooms};
use reference::fault::Cause;

/// Good bodies beside the deliberate one: one before it, or none, and one that a reader comes to if it goes on behind it.
struct Beside {
    before: Option<Vec<u8>>,
    behind: Vec<u8>,
}

impl Beside {
    fn new(r: &mut Rng, h: usize) -> Beside {
        let good = |r: &mut Rng| {
            let code = any_code(r);
            pixel_body(r, code, h, Fault::None)
        };
        Beside { before: r.once_in(4).then(|| good(r)), behind: good(r) }
    }
}

/// A room that ends with these strips. A block that no one reads moves them by `pad`, and the one plane is full, so that an image shows in it.
fn room(r: &mut Rng, place: Place, strips: &Strips, pad: usize) -> Node {
    let (count, h) = (strips.bodies.len(), strips.h);
    let block = |tag, width, body: Vec<u8>| leaf(tag, Strips::tight(width, h, vec![Some(body); count]).payload());
    let (plane, smap) = (block(b"ZP01", 2, vec![0x80 + h as u8, 0xFF]), leaf(b"SMAP", strips.payload()));
    let (width, unread) = (8 * count, leaf(b"FILL", vec![0x5A; pad]));
    match place {
        Place::Background => {
            let mut room = rooms::least_room(width, h, 1, vec![plane, smap]);
            room.kids().insert(1, unread);
            room
        }
        Place::Image => {
            let flat = block(b"SMAP", 4, [vec![0x1C, 5], vec![0; h]].concat());
            let mut room = rooms::least_room(width, h, 1, vec![plane, flat]);
            room.kids().push(unread);
            room.kids().extend(rooms::object_of(r, width, h, container(b"IM01", vec![smap])));
            room
        }
    }
}

/// Reads strips of so many rows in all by a load or a draw: the call's name, its number, and what it leaves of pixels and masks.
fn read(b: &mut Comparison, r: &mut Rng, place: Place, room: &[u8], rows: usize) -> (&'static str, u32, [Vec<u8>; 2]) {
    let lent = [vec![0; 450], vec![2; 8 * rows], vec![3; rows]];
    let (object, state) = (1, 1);
    let turn = if r.once_in(2) { Turn::DrawLast { object, state } } else { Turn::DrawAt { object, state, a: 0, b: 0 } };
    let (call, (number, [_, pixels, masks])) = match place {
        Place::Background => ("load", calls::load(b, room, &lent[0], &lent[1], &lent[2])),
        Place::Image => (turn.name(), calls::turn(b, turn, room, &lent)),
    };
    (call, number, [pixels, masks])
}

/// A deliberate body at a spot.
struct Scene<'a> {
    end: End,
    ending: &'a Ending,
    beside: &'a Beside,
    spot: Spot,
    /// Pixels and masks that the body gave when it was read first.
    painted: Option<[Vec<u8>; 2]>,
}

impl Scene<'_> {
    fn strips(&self, body: &[u8]) -> Strips {
        let behind = self.spot.followed.then(|| self.beside.behind.clone());
        let bodies = [self.beside.before.clone(), Some(body.to_vec()), behind];
        Strips::tight(4, self.ending.h, bodies.into_iter().filter(Option::is_some).collect())
    }

    /// Reads the body so changed. Its number must be the end's, and unused bytes must change nothing that is painted.
    fn check(&mut self, b: &mut Comparison, r: &mut Rng, change: i32, pad: usize) {
        let (end, spot) = (self.end, self.spot);
        let Some(body) = self.ending.changed(change) else { return };
        let strips = self.strips(body);
        let room = room(r, spot.place, &strips, pad).write();
        b.room_at_page_end = !spot.followed;
        let (call, number, painted) = read(b, r, spot.place, &room, strips.bodies.len() * strips.h);
        let text = || format!("{}, {} bytes, change {change}, {spot:?}: number {number}", end.name(), body.len());
        if number != end.number(change) {
            return b.differ(call, "reads a deliberate end otherwise", &text());
        }
        if number != 0 && self.told(&room) != self.ending.stops_in(body.len()) {
            return b.differ(call, "has another operation told than the one that a deliberate end stops in", &text());
        }
        if number == 0 && *self.painted.get_or_insert_with(|| painted.clone()) != painted {
            return b.differ(call, "paints unused bytes", &text());
        }
        self.count(b, body.len(), change, room.len());
    }

    /// The operation that the reference tells, and the bit at which it begins.
    fn told(&self, room: &[u8]) -> Option<(usize, usize)> {
        match place_scenes::first_fault(room)?.cause {
            Cause::Strip { stop, .. } if stop.operation > 0 => Some((stop.operation, stop.begins)),
            _ => None,
        }
    }

    /// Counts a body that was read as it must be.
    fn count(&self, b: &mut Comparison, bytes: usize, change: i32, room: usize) {
        let (End { code, .. }, Spot { place, followed }, cut) = (self.end, self.spot, change < 0);
        let method = method(code);
        b.ends.reached(Case::Read { end: self.end, change, spot: self.spot });
        if let (true, Some((operation, bits))) = (cut, self.ending.broken(bytes)) {
            b.ends.reached(Case::Broken { code, operation, bits });
        }
        if change == 0 {
            b.ends.reached(Case::Length { method, bytes });
        }
        if change <= 0 && !followed {
            let at = b.room_address();
            assert!((at + room).is_multiple_of(4096), "the room was to end with its page");
            b.ends.reached(Case::Begun { method, place, cut, in_room: (room - bytes) % 8, in_memory: at % 8 });
        }
    }
}

/// Every change at every spot; the whole body first, and at all places modulo 8 where the room ends with it.
fn read_end(b: &mut Comparison, r: &mut Rng, end: End, size: &Size) {
    let ending = end.body(r, size);
    let beside = Beside::new(r, ending.h);
    for spot in SPOTS {
        let mut scene = Scene { end, ending: &ending, beside: &beside, spot, painted: None };
        for pad in 0..if spot.followed { 1 } else { 8 } {
            scene.check(b, r, 0, pad);
        }
        for change in spot.changes().filter(|change| *change != 0) {
            let pad = r.below(8);
            scene.check(b, r, change, pad);
        }
    }
}

/// The planned ends of a code, short and long. The codes are numbered from 0 on.
pub fn planned(b: &mut Comparison, r: &mut Rng, code: usize) {
    let codes = codes();
    for end in ends_of(codes[code % codes.len()]) {
        read_end(b, r, end, &SHORT);
        read_end(b, r, end, &LONG);
    }
}

pub fn any_end(b: &mut Comparison, r: &mut Rng) {
    let code = r.pick(&codes());
    let end = r.pick(&ends_of(code));
    read_end(b, r, end, &ANY);
}

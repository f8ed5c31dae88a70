//! Scenes with deliberate bodies (shapes.rs): each in one strip of a background and of an object's image, in rooms that are good but for it, so that
//! the call's number is the body's.

use crate::calls::{self, Turn};
use crate::comparison::{Comparison, Place};
use crate::rng::Rng;
use crate::rooms::{self, Plan};
use crate::shapes::{shapes, Shape};
use crate::tree::{Body, Node};

/// Puts the shape into one strip of the block.
fn put(r: &mut Rng, smap: Option<&mut Node>, shape: Shape) {
    let Some(Node { body: Body::Strips(strips), .. }) = smap else { panic!("an SMAP of strips was expected") };
    let strip = r.below(strips.bodies.len());
    strips.bodies[strip] = Some(shape.body(r, strips.h));
}

/// Loads the room: its number, and session, pixels and masks afterwards.
fn load(b: &mut Comparison, plan: &Plan, room: &[u8]) -> (u32, [Vec<u8>; 3]) {
    let (w, h, n) = (plan.w, plan.h, plan.n);
    calls::load(b, room, &[1; 450], &vec![2; w * h], &vec![3; n * (w / 8) * h])
}

fn in_background(b: &mut Comparison, r: &mut Rng, shape: Shape) {
    let (w, h, n) = (8 * r.range(1, 3), shape.height(r), r.below(3));
    let mut plan = rooms::room_of(r, w, h, n);
    put(r, plan.root.find(&[b"RMIM", b"IM00", b"SMAP"]), shape);
    let room = plan.root.write();
    let (number, _) = load(b, &plan, &room);
    b.read("load", shape, Place::Background, number);
}

/// A room of one object, whose only state has the shape in one of its strips.
fn with_image(r: &mut Rng, shape: Shape) -> Plan {
    let (width, h, n) = (8 * r.range(1, 3), shape.height(r), r.below(3));
    let (w, high) = (width + 8 * r.below(2), (h + r.below(3)).min(200));
    let mut plan = rooms::bare_room_of(r, w, high, n);
    let mut state = rooms::image(r, width, h, n);
    state.tag = *b"IM01";
    put(r, state.find(&[b"SMAP"]), shape);
    plan.root.kids().extend(rooms::object_of(r, width, h, state));
    plan
}

/// The draw must give the image's number, and a take-back the load's surfaces, or 13 where the draw was refused.
fn in_image(b: &mut Comparison, r: &mut Rng, shape: Shape) {
    let plan = with_image(r, shape);
    let room = plan.root.write();
    let (number, lent) = load(b, &plan, &room);
    if number != 0 {
        return b.differ("load", "refuses a room that was made to be good", &format!("{}: number {number}", shape.name()));
    }
    let (object, state) = (1, 1);
    let turn = if r.once_in(2) { Turn::DrawLast { object, state } } else { Turn::DrawAt { object, state, a: 0, b: 0 } };
    let (number, lent) = calls::turn(b, turn, &room, &lent);
    b.read(turn.name(), shape, Place::Image, number);
    calls::turn(b, Turn::TakeBack, &room, &lent);
}

pub fn every_shape(b: &mut Comparison, r: &mut Rng) {
    for shape in shapes() {
        in_background(b, r, shape);
        in_image(b, r, shape);
    }
}

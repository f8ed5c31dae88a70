//! The calls beside the load: the whole test, draws, hides, take-backs, points and hidden pixels.

use crate::calls::{header, hidden, name, object_at, record, turn, Hidden, Side, Stage, Turn, SIDES};
use crate::clock::{best, timed, Effort};
use crate::goal::{Goal, Goals};
use crate::loads::alike;
use crate::room::{Room, Spec};
use std::cell::RefCell;
use std::hint::black_box;

/// Rooms with planes and objects.
pub const ROOMS: [(usize, usize, usize, usize); 3] = [(320, 144, 1, 12), (640, 200, 4, 24), (1024, 200, 4, 48)];
/// Steps in the history before the measured one.
pub const STEPS: usize = 8;
/// A transparent index other than 255, for the rows that show whether it costs anything (change request 9).
pub const OTHER: u8 = 7;

/// Nanoseconds of a call, and of the whole test of its room.
#[derive(Clone, Copy)]
pub struct Call {
    pub library: f64,
    pub reference: f64,
    pub test: f64,
}

/// A draw at the place of draw number i of a history. State 1 is a transparent one, 2 an opaque one.
pub fn draw_state(room: &Room, i: usize, state: usize) -> Turn {
    let (a, b) = room.spec.place(i + 1);
    Turn::DrawAt([i % room.spec.objects + 1, state, a, b].map(|number| number as u32))
}

/// Draw number i of a history: states in turn.
pub fn draw(room: &Room, i: usize) -> Turn {
    draw_state(room, i, 1 + i % 2)
}

/// What a turn makes of a stage, on both sides alike.
pub fn after(room: &Room, before: &Stage, what: Turn) -> Stage {
    let [library, reference] = SIDES.map(|side| {
        let mut stage = before.clone();
        turn(side, what, room, &mut stage);
        stage
    });
    assert!(library == reference, "library and reference take a step differently");
    library
}

/// A loaded room after so many draws.
pub fn played(room: &Room, steps: usize) -> Stage {
    (0..steps).fold(alike(room), |stage, i| after(room, &stage, draw(room, i)))
}

/// The times of a turn on this stage. Each side starts from a stage that was copied anew.
pub fn step(effort: Effort, room: &Room, before: &Stage, what: Turn) -> Call {
    let stage = &RefCell::new(after(room, before, what));
    let side = |run: &dyn Fn(&mut Stage)| {
        let stage = &mut stage.borrow_mut();
        stage.become_like(before);
        timed(|| run(stage))
    };
    let ([library, test], [reference]) = best(
        effort,
        1,
        [&mut |_| side(&|stage| turn(Side::Library, what, room, stage)), &mut |_| side(&|_| (record(Side::Library, room.bytes()), ()).1)],
        [&mut |_| side(&|stage| turn(Side::Reference, what, room, stage))],
    );
    Call { library, reference, test }
}

/// The times of a question that changes nothing.
fn question<T: PartialEq>(effort: Effort, room: &Room, ask: impl Fn(Side) -> T) -> Call {
    assert!(ask(Side::Library) == ask(Side::Reference), "library and reference answer differently");
    let ([library, test], [reference]) = best(
        effort,
        1,
        [&mut |_| timed(|| ask(Side::Library)), &mut |_| timed(|| record(Side::Library, room.bytes()))],
        [&mut |_| timed(|| ask(Side::Reference))],
    );
    Call { library, reference, test }
}

fn row(room: &Room, name: &str, call: Call) {
    let Spec { w, h, n, objects, .. } = room.spec;
    let (size, micros, pixel) = (format!("{w}x{h}"), call.library / 1e3, call.library / room.pixels() as f64);
    let [test, reference] = [call.test, call.reference].map(|other| call.library / other);
    println!("{size:<9} {n:>6} {objects:>7}  {name:<10} {micros:>9.1} {pixel:>7.2} {test:>7.2} {reference:>7.2}");
}

fn room_calls(effort: Effort, goals: &mut Goals, (w, h, n, objects): (usize, usize, usize, usize)) {
    let spec = Spec::furnished(w, h, n, objects);
    let (room, other) = (&spec.make(), &Spec { clear: OTHER, ..spec }.make());
    let (before, next) = (played(room, STEPS), draw(room, STEPS));
    let drawn = after(room, &before, next);
    let newest = (STEPS % objects + 1) as u32;
    let (flags, point) = (vec![0; objects], (w as u32 / 2, h as u32 / 2));
    let mut call = |name: &str, times: Call| {
        goals.see(Goal::Reference, times.library / times.reference, &format!("{name}, {w}x{h}"));
        row(room, name, times);
    };
    call("load", step(effort, room, &before, Turn::Load));
    call("record", question(effort, room, |side| record(side, room.bytes())));
    call("header", question(effort, room, |side| header(side, room.bytes(), newest)));
    call("name", question(effort, room, |side| name(side, room.bytes(), newest)));
    call("draw", step(effort, room, &before, next));
    call(&format!("draw, {OTHER}"), step(effort, other, &played(other, STEPS), next));
    call("draw solid", step(effort, room, &before, draw_state(room, STEPS, 2)));
    call("take back", step(effort, room, &drawn, Turn::TakeBack));
    call("hide", step(effort, room, &drawn, Turn::Hide(newest)));
    call("object at", question(effort, room, |side| object_at(side, room.bytes(), &drawn.session, &flags, point)));
}

/// A question for every point of the room at clip level 1: how many are hidden.
fn questions(room: &Room, masks: &[u8], ask: Hidden) -> usize {
    let [w, h, n] = [room.spec.w, room.spec.h, room.spec.n].map(|number| number as u32);
    let points = (0..h).flat_map(|y| (0..w).map(move |x| (x, y)));
    points.filter(|(x, y)| unsafe { ask(masks.as_ptr(), masks.len(), w, h, n, 1, *x, *y) } == 1 << 32).count()
}

fn hidden_row(effort: Effort, goals: &mut Goals) {
    let room = &Spec::furnished(320, 144, 4, 12).make();
    let masks = played(room, STEPS).masks;
    let call = question(effort, room, |side| questions(room, &masks, black_box(hidden(side))));
    goals.see(Goal::Reference, call.library / call.reference, "hidden");
    let (nanos, ratio) = (call.library / room.pixels() as f64, call.library / call.reference);
    println!("\nThe hidden-pixel question at every point of a 320x144 room with 4 planes: {nanos:.2} ns each, {ratio:.2} of the reference's time.");
}

pub fn tables(effort: Effort, goals: &mut Goals) {
    println!("Calls on a room, strips under three methods in turn, {STEPS} draws in the history. ns: a pixel of the room. : test: as a multiple of the");
    println!(
        "whole test. Draw: an object of 32x40 in a state with transparent pixels; with {OTHER}: in a room whose transparent index that is;"
    );
    println!("solid: in a state without.\n");
    println!("{:<9} {:>6} {:>7}  {:<10} {:>9} {:>7} {:>7} {:>7}", "room", "planes", "objects", "call", "us", "ns", ": test", ": ref");
    ROOMS.iter().for_each(|room| room_calls(effort, goals, *room));
    hidden_row(effort, goals);
    println!();
}

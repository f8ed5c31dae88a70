//! Draws and take-backs of a door of three strips in a room of 1024x200, beside the room's whole test: the first draw, and one after 63 others.

use crate::calls::{record, turn, Side, Stage, Turn};
use crate::clock::{best, timed, Effort};
use crate::goal::{Goal, Goals};
use crate::loads::alike;
use crate::picture::Picture;
use crate::room::{Room, Spec, MIXED};
use crate::steps::after;
use std::cell::RefCell;

const DOOR: (usize, usize) = (24, 80);
/// A draw is refused where the history holds 64 steps: after 63 it makes the last one.
const BEFORE: usize = 63;
const ROOMS: [(usize, Picture); 4] = [(0, Picture::Painting), (1, Picture::Painting), (4, Picture::Painting), (4, Picture::Textured)];

/// What was drawn before the draw that is measured.
#[derive(Clone, Copy, PartialEq)]
enum History {
    Empty,
    /// A few doors, opened and closed again and again.
    Few,
    /// As many doors as draws.
    Many,
}

const HISTORIES: [History; 3] = [History::Empty, History::Few, History::Many];

impl History {
    fn name(self) -> &'static str {
        match self {
            History::Empty => "empty",
            History::Few => "63 draws of 4 doors",
            History::Many => "63 draws of 63 doors",
        }
    }

    fn draws(self) -> usize {
        if self == History::Empty {
            0
        } else {
            BEFORE
        }
    }

    /// Draw number i: states in turn, a transparent one and an opaque one.
    fn draw(self, room: &Room, i: usize) -> Turn {
        let (door, state) = if self == History::Few { (i % 4, 1 + i / 4 % 2) } else { (i, 1 + i % 2) };
        let (a, b) = room.spec.place(door);
        Turn::DrawAt([door + 1, state, a, b].map(|number| number as u32))
    }
}

/// A take-back leaves the surfaces as they were before the draw. In the session bytes of the dropped step may stay, behind those that count.
fn painted_alike(stage: &Stage, before: &Stage) {
    assert!(stage.pixels == before.pixels && stage.masks == before.masks, "a take-back leaves other surfaces");
    assert!(stage.session[..2] == before.session[..2], "a take-back leaves another history or list");
}

/// The times of the room's test, of a draw and of its take-back, and the reference's draw.
fn times(effort: Effort, room: &Room, before: &Stage, draw: Turn) -> ([f64; 3], f64) {
    painted_alike(&after(room, &after(room, before, draw), Turn::TakeBack), before);
    let stage = &RefCell::new(before.clone());
    let go = |side: Side, what: Turn| turn(side, what, room, &mut stage.borrow_mut());
    let both = |side: Side| {
        let draws = timed(|| go(side, draw));
        (draws, timed(|| go(side, Turn::TakeBack)))
    };
    let (times, [reference]) = best(
        effort,
        1,
        [&mut |_| timed(|| record(Side::Library, room.bytes())), &mut |_| both(Side::Library).0, &mut |_| both(Side::Library).1],
        [&mut |_| both(Side::Reference).0],
    );
    painted_alike(&stage.borrow(), before);
    (times, reference)
}

fn row(effort: Effort, goals: &mut Goals, room: &Room, history: History) {
    let draws = history.draws();
    let mut before = alike(room);
    (0..draws).for_each(|i| turn(Side::Library, history.draw(room, i), room, &mut before));
    let ([test, draw, back], reference) = times(effort, room, &before, history.draw(room, draws));
    let (n, picture, name) = (room.spec.n, room.spec.picture.name(), history.name());
    print!("{n:>6}  {picture:<9} {name:<20} | {:>7.1}", test / 1e3);
    for (what, time) in [("draw", draw), ("take-back", back)] {
        let (over, tests, place) = ((time - test) / 1e3, time / test, format!("{what}, {n} planes, {picture}"));
        match history {
            History::Empty => goals.see(Goal::Draw, over, &place),
            _ => goals.see(Goal::LongDraw, tests, &format!("{place}, {name}")),
        }
        print!(" | {:>7.1} {over:>7.1} {tests:>6.2}", time / 1e3);
    }
    goals.see(Goal::Reference, draw / reference, &format!("draw of a door, {n} planes, {picture}, history: {name}"));
    println!(" | {:>6.2}", draw / reference);
}

pub fn tables(effort: Effort, goals: &mut Goals) {
    let (width, height) = DOOR;
    println!("Draws of a door of {width}x{height} in a room of 1024x200 with 64 of them, strips under three methods in turn, and their take-backs. us: of");
    println!("the whole test, the draw and the take-back. over: us more than the test. tests: as a multiple of it. : ref: of the reference's draw.\n");
    let (step, columns) = (format!("{:<22}", "draw"), format!("{:>7} {:>7} {:>6}", "us", "over", "tests"));
    println!("{:<38} | {:>7} | {step} | {:<22} |", "", "test", "take-back");
    println!("{:>6}  {:<9} {:<20} | {:>7} | {columns} | {columns} | {:>6}", "planes", "picture", "history", "us", ": ref");
    for (n, picture) in ROOMS {
        let room = &Spec { objects: 64, image: DOOR, ..Spec::background(1024, 200, n, picture, &MIXED) }.make();
        HISTORIES.iter().for_each(|history| row(effort, goals, room, *history));
    }
    println!();
}

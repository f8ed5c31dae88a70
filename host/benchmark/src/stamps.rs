//! Stamps: the library, a plain loop in C that tests the mask bit of each pixel, and the reference; in the frame and partly outside.

use crate::calls::{stamp, Side, Stage};
use crate::clock::{best, timed, Effort};
use crate::goal::{Goal, Goals};
use crate::partners;
use crate::picture::shape;
use crate::room::{Room, Spec};
use crate::steps::{played, OTHER, STEPS};
use reference::actor::Actor;
use std::cell::RefCell;

/// Narrow and wide pictures.
const SIZES: [(u32, u32); 4] = [(5, 40), (24, 40), (64, 100), (128, 144)];
/// For `--instructions`, and with the other transparent index: width, height and clip level.
pub const ACTORS: [(u32, u32, u32); 4] = [(24, 40, 0), (24, 40, 1), (128, 144, 0), (128, 144, 1)];
/// Stamps in one timing, each at a place of its own.
const MANY: usize = 64;

#[derive(Clone, Copy, PartialEq)]
enum Place {
    Inside,
    Outside,
}

impl Place {
    fn name(self) -> &'static str {
        match self {
            Place::Inside => "in the frame",
            Place::Outside => "partly outside",
        }
    }

    /// Corner number i of a picture. Outside, the four sides of the frame in turn cut off between a quarter and three quarters.
    fn corner(self, i: usize, (width, height): (u32, u32), room: &Room) -> (i32, i32) {
        let (w, h) = (room.spec.w as i32, room.spec.h as i32);
        let (width, height, i) = (width as i32, height as i32, i as i32);
        let (x, y) = (37 * i % (w - width + 1), 11 * i % (h - height + 1));
        let (cut_x, cut_y) = (width / 4 + 5 * i % (width / 2 + 1), height / 4 + 7 * i % (height / 2 + 1));
        match (self, i % 4) {
            (Place::Inside, _) => (x, y),
            (Place::Outside, 0) => (-cut_x, y),
            (Place::Outside, 1) => (w - cut_x, y),
            (Place::Outside, 2) => (x, -cut_y),
            (Place::Outside, _) => (x, h - cut_y),
        }
    }
}

pub fn name((width, height, clip): (u32, u32, u32)) -> String {
    format!("stamp {width}x{height}, clip level {clip}")
}

/// One stamp on a frame.
type Stamp<'a> = &'a dyn Fn(&mut [u8], &Actor);

/// The times of library, loop and reference, which leave the same frame.
fn times(effort: Effort, room: &Room, stage: &Stage, actors: &[Actor]) -> [f64; 3] {
    let library = |frame: &mut [u8], a: &Actor| stamp(Side::Library, room, frame, &stage.masks, a);
    let plain = |frame: &mut [u8], a: &Actor| partners::stamp(room, frame, &stage.masks, a);
    let reference = |frame: &mut [u8], a: &Actor| stamp(Side::Reference, room, frame, &stage.masks, a);
    let all = |side: Stamp, frame: &mut [u8]| actors.iter().for_each(|a| side(frame, a));
    let frames = [&library as Stamp, &plain, &reference].map(|side| {
        let mut frame = stage.pixels.clone();
        all(side, &mut frame);
        frame
    });
    assert!(frames[0] != stage.pixels && frames.iter().all(|frame| *frame == frames[0]), "library, loop and reference stamp differently");
    let frame = &RefCell::new(stage.pixels.clone());
    let side = |side| timed(|| all(side, &mut frame.borrow_mut()));
    let ([library, plain], [reference]) = best(effort, 1, [&mut |_| side(&library), &mut |_| side(&plain)], [&mut |_| side(&reference)]);
    [library, plain, reference]
}

fn row(effort: Effort, goals: &mut Goals, (room, stage): (&Room, &Stage), (width, height, clip): (u32, u32, u32), place: Place, clear: u8) {
    let pictures: Vec<Vec<u8>> = (0..MANY).map(|i| shape(width as usize, height as usize, 7 * i, clear)).collect();
    let actor = |i: usize| {
        let (x, y) = place.corner(i, (width, height), room);
        Actor { picture: &pictures[i], width, height, x, y, clip, clear }
    };
    let [library, plain, reference] = times(effort, room, stage, &(0..MANY).map(actor).collect::<Vec<Actor>>());
    let (name, pixels) = (format!("{}, {clear}, {}", name((width, height, clip)), place.name()), (MANY as u32 * width * height) as f64);
    if clip > 0 {
        goals.see(Goal::Stamp, library / plain, &name);
    }
    goals.see(Goal::Reference, library / reference, &name);
    let size = format!("{width}x{height}");
    let (nanos, of_loop, of_reference, place) = (library / pixels, library / plain, library / reference, place.name());
    println!("{size:<8} {clip:>4} {clear:>6}  {place:<15} {nanos:>7.2} {of_loop:>7.2} {of_reference:>7.2}");
}

pub fn tables(effort: Effort, goals: &mut Goals) {
    println!("Stamps on the surfaces of a 320x144 room with 4 planes, {MANY} pictures at {MANY} places. ns: a pixel of the pictures. clear: the index that");
    println!("isn't painted. : loop: as a multiple of a plain C loop over the part in the frame, which tests each pixel's mask bit behind a plane.\n");
    println!("{:<8} {:>4} {:>6}  {:<15} {:>7} {:>7} {:>7}", "picture", "clip", "clear", "place", "ns", ": loop", ": ref");
    let room = &Spec::furnished(320, 144, 4, 12).make();
    let on = (room, &played(room, STEPS));
    for (clip, place) in [0, 1].iter().flat_map(|clip| [Place::Inside, Place::Outside].map(|place| (*clip, place))) {
        SIZES.iter().for_each(|(width, height)| row(effort, goals, on, (*width, *height, clip), place, 255));
    }
    ACTORS.iter().for_each(|actor| row(effort, goals, on, *actor, Place::Inside, OTHER));
    println!();
}

//! The images of a room's objects, which only a draw judges: each state as a draw at IMHD's place in a fresh session would find it.

use crate::block::{first, Block};
use crate::fault::Fault;
use crate::image::{self, Image, Object};
use crate::object::name_of;
use crate::room::Room;
use crate::step::allowed;
use crate::{u16_at, NO_OBJECT, PLACE};

/// An object in OBCD order, counted from 1, with its id, the place of its name in the room (start, length), and its image, if it has one.
pub struct Inspected {
    pub object: usize,
    pub id: usize,
    pub name: (usize, usize),
    pub image: Option<Header>,
    pub states: Vec<State>,
}

/// What IMHD says of an image.
pub struct Header {
    pub imhd: Block,
    pub place: (usize, usize),
    pub size: (usize, usize),
}

/// A state that numImages promises.
pub struct State {
    pub state: usize,
    pub verdict: Verdict,
}

pub enum Verdict {
    /// There is no block IM0s, so 11.
    Absent,
    /// Its size isn't allowed anywhere in the room: 12 at every place, and the image isn't read.
    Nowhere,
    /// The image was read. Its own place may be one that isn't allowed (12); it can be drawn elsewhere, as at (0, 0).
    Read { allowed: bool, fault: Option<Fault> },
}

impl Verdict {
    /// The number of a draw at the object's own place, and of one at (0, 0).
    pub fn numbers(&self) -> (u32, u32) {
        match self {
            Verdict::Absent => (NO_OBJECT, NO_OBJECT),
            Verdict::Nowhere => (PLACE, PLACE),
            Verdict::Read { allowed, fault } => {
                let number = fault.map_or(0, |fault| fault.number());
                (if *allowed { number } else { PLACE }, number)
            }
        }
    }
}

fn verdict(bytes: &[u8], room: &Room, image: &Image, state: usize) -> Verdict {
    match image.state(bytes, state) {
        None => Verdict::Absent,
        Some(_) if !allowed(room, (0, 0), image.size()) => Verdict::Nowhere,
        Some(im) => {
            let fault = image::read(bytes, room, im, image.size()).err();
            Verdict::Read { allowed: allowed(room, image.place(), image.size()), fault }
        }
    }
}

fn header(bytes: &[u8], image: &Image) -> Header {
    let imhd = first(bytes, image.obim, b"IMHD").expect("a tested room");
    Header { imhd, place: image.place(), size: image.size() }
}

/// The objects of an accepted room.
pub fn objects(bytes: &[u8], room: &Room) -> Vec<Inspected> {
    let inspected = |(i, Object { cdhd, image }): (usize, Object)| Inspected {
        object: i + 1,
        id: u16_at(cdhd, 0),
        name: name_of(bytes, room.objects[i]),
        states: image.iter().flat_map(|image| states(bytes, room, image)).collect(),
        image: image.map(|image| header(bytes, &image)),
    };
    image::objects(bytes, room).into_iter().enumerate().map(inspected).collect()
}

/// "state s (1 to 9, up to numImages"
fn states(bytes: &[u8], room: &Room, image: &Image) -> Vec<State> {
    (1..=image.images().min(9)).map(|state| State { state, verdict: verdict(bytes, room, image, state) }).collect()
}

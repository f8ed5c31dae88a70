//! The calls that are measured, each on both sides: the library over its C interface (include/kildegrom.h), and the reference.

use crate::room::Room;
use common::calls::*;
use reference::cast::{self as casts, Record};
use reference::{actor, compare as compares, load as loads, object, point, session as sessions};

#[derive(Clone, Copy, PartialEq)]
pub enum Side {
    Library,
    Reference,
}

pub const SIDES: [Side; 2] = [Side::Library, Side::Reference];

/// What a load fills and the session calls change.
#[derive(Clone, PartialEq)]
pub struct Stage {
    pub session: Vec<u8>,
    pub pixels: Vec<u8>,
    pub masks: Vec<u8>,
}

impl Stage {
    pub fn new(room: &Room) -> Stage {
        Stage { session: vec![0; loads::SESSION], pixels: vec![0; room.pixels()], masks: vec![0; room.masks()] }
    }

    pub fn become_like(&mut self, other: &Stage) {
        self.session.copy_from_slice(&other.session);
        self.pixels.copy_from_slice(&other.pixels);
        self.masks.copy_from_slice(&other.masks);
    }
}

/// A call that changes the session.
#[derive(Clone, Copy)]
pub enum Turn {
    Load,
    /// Object, state, a, b.
    DrawAt([u32; 4]),
    Hide(u32),
    TakeBack,
}

/// A turn that must be accepted.
pub fn turn(side: Side, turn: Turn, room: &Room, stage: &mut Stage) {
    let Stage { session, pixels, masks } = stage;
    let bytes = room.bytes();
    let number = match side {
        Side::Reference => match turn {
            Turn::Load => loads::load(bytes, session, pixels, masks),
            Turn::DrawAt(numbers) => sessions::draw_at(bytes, session, pixels, masks, numbers),
            Turn::Hide(object) => sessions::hide(bytes, session, pixels, masks, object),
            Turn::TakeBack => sessions::take_back(bytes, session, pixels, masks),
        },
        Side::Library => {
            let ((r, rn), (sn, pn, mn)) = ((bytes.as_ptr(), bytes.len()), (session.len(), pixels.len(), masks.len()));
            let (s, p, m) = (session.as_mut_ptr(), pixels.as_mut_ptr(), masks.as_mut_ptr());
            unsafe {
                match turn {
                    Turn::Load => kg_load(r, rn, s, sn, p, pn, m, mn),
                    Turn::DrawAt([object, state, a, b]) => kg_draw_at(r, rn, s, sn, p, pn, m, mn, object, state, a, b),
                    Turn::Hide(object) => kg_hide(r, rn, s, sn, p, pn, m, mn, object),
                    Turn::TakeBack => kg_take_back(r, rn, s, sn, p, pn, m, mn),
                }
            }
        }
    };
    assert_eq!(number, 0, "a call was refused");
}

pub fn record(side: Side, room: &[u8]) -> [u8; 16] {
    let mut out = [0; loads::RECORD];
    let number = match side {
        Side::Library => unsafe { kg_record(room.as_ptr(), room.len(), out.as_mut_ptr(), out.len()) },
        Side::Reference => loads::record(room, &mut out),
    };
    assert_eq!(number, 0, "a record was refused");
    out
}

pub fn header(side: Side, room: &[u8], which: u32) -> [u8; 16] {
    let mut out = [0; object::HEADER];
    let number = match side {
        Side::Library => unsafe { kg_header(room.as_ptr(), room.len(), out.as_mut_ptr(), out.len(), which) },
        Side::Reference => object::header(room, &mut out, which),
    };
    assert_eq!(number, 0, "a header was refused");
    out
}

/// Where the name starts and how long it is.
pub fn name(side: Side, room: &[u8], which: u32) -> (usize, usize) {
    match side {
        Side::Library => {
            let answer = unsafe { kg_name(room.as_ptr(), room.len(), which) };
            (answer as u32 as usize, (answer >> 32) as usize)
        }
        Side::Reference => {
            let (_, start, length) = object::name(room, which);
            (start, length)
        }
    }
}

/// The object's number, 0 for none.
pub fn object_at(side: Side, room: &[u8], session: &[u8], flags: &[u8], (x, y): (u32, u32)) -> usize {
    match side {
        Side::Library => {
            let (s, f) = (session.as_ptr(), flags.as_ptr());
            let answer = unsafe { kg_object_at(room.as_ptr(), room.len(), s, session.len(), f, flags.len(), x, y) };
            assert_eq!(answer as u32, 0, "a point was refused");
            (answer >> 32) as usize
        }
        Side::Reference => point::object_at(room, session, flags, x, y).expect("a point"),
    }
}

/// Two rooms compared: how many places of the list are filled.
pub fn compare(side: Side, [a, b]: &[Room; 2], list: &mut [u8]) -> usize {
    let (a, b) = (a.bytes(), b.bytes());
    match side {
        Side::Library => {
            let answer = unsafe { kg_compare(a.as_ptr(), a.len(), b.as_ptr(), b.len(), list.as_mut_ptr(), list.len()) };
            assert_eq!(answer as u32, 0, "a comparison was refused");
            (answer >> 32) as usize
        }
        Side::Reference => compares::compare(a, b, list).expect("a comparison"),
    }
}

/// Masks and their size, W, H, N, clip, x, y.
pub type Hidden = unsafe extern "C" fn(*const u8, usize, u32, u32, u32, u32, u32, u32) -> u64;

unsafe extern "C" fn reference_hidden(masks: *const u8, masks_size: usize, w: u32, h: u32, n: u32, clip: u32, x: u32, y: u32) -> u64 {
    let masks = std::slice::from_raw_parts(masks, masks_size);
    match actor::hidden(masks, w, h, n, clip, x, y) {
        Ok(hidden) => (hidden as u64) << 32,
        Err(number) => number as u64,
    }
}

/// The question as a C host asks it, so that neither side is melted into the loop that asks.
pub fn hidden(side: Side) -> Hidden {
    match side {
        Side::Library => kg_hidden,
        Side::Reference => reference_hidden,
    }
}

/// The actor's stamp on a room's surfaces.
pub fn stamp(side: Side, room: &Room, frame: &mut [u8], masks: &[u8], a: &actor::Actor) {
    let [w, h, n] = [room.spec.w, room.spec.h, room.spec.n].map(|number| number as u32);
    let number = match side {
        Side::Reference => actor::stamp(frame, masks, w, h, n, a),
        Side::Library => {
            let ((f, m), (p, pn)) = ((frame.as_mut_ptr(), masks.as_ptr()), (a.picture.as_ptr(), a.picture.len()));
            unsafe { kg_stamp(f, frame.len(), m, masks.len(), p, pn, w, h, n, a.width, a.height, a.x, a.y, a.clip, a.clear) }
        }
    };
    assert_eq!(number, 0, "a stamp was refused");
}

/// What a cast is painted with, beside its list and its frame.
pub struct Scenery<'a> {
    pub masks: &'a [u8],
    pub pictures: &'a [u8],
    pub sizes: [u32; 3],
    pub clear: u8,
}

pub fn cast(side: Side, list: &mut [Record], frame: &mut [u8], scenery: &Scenery) {
    let Scenery { masks, pictures, sizes: [w, h, n], clear } = *scenery;
    let number = match side {
        Side::Reference => casts::cast(list, frame, masks, pictures, [w, h, n], clear),
        Side::Library => {
            let ((l, f), (m, p)) = ((list.as_mut_ptr().cast(), frame.as_mut_ptr()), (masks.as_ptr(), pictures.as_ptr()));
            unsafe { kg_cast(l, list.len(), f, frame.len(), m, masks.len(), p, pictures.len(), w, h, n, clear) }
        }
    };
    assert_eq!(number, 0, "a cast was refused");
}

/// The library's stamp of one actor of a cast.
pub fn stamp_record(a: &Record, frame: &mut [u8], scenery: &Scenery) {
    let Scenery { masks, pictures, sizes: [w, h, n], clear } = *scenery;
    let picture = &pictures[a.start as usize..(a.start + a.width * a.height) as usize];
    let ((f, m), (p, pn)) = ((frame.as_mut_ptr(), masks.as_ptr()), (picture.as_ptr(), picture.len()));
    let number = unsafe { kg_stamp(f, frame.len(), m, masks.len(), p, pn, w, h, n, a.width, a.height, a.left, a.top, a.clip, clear) };
    assert_eq!(number, 0, "a stamp was refused");
}

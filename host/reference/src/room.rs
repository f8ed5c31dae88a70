//! The whole test of a room, as every call that takes room bytes makes it (document 01, "Numbered refusals" and "Blocks").

use crate::block::{children, first, root, Block};
use crate::fault::{Cause, Fault, Field};
use crate::{height_ok, mask, planes_ok, strip, u16_at, width_ok};

/// A room's numbers, its transparent index and its objects' OBCD blocks.
pub struct Room {
    pub w: usize,
    pub h: usize,
    pub n: usize,
    pub clear: u8,
    pub objects: Vec<Block>,
}

impl Room {
    pub fn pixels(&self) -> usize {
        self.w * self.h
    }

    pub fn masks(&self) -> usize {
        self.n * (self.w / 8) * self.h
    }
}

/// What an accepted room holds: its numbers, its background and its planes.
pub struct Painted {
    pub room: Room,
    pub pixels: Vec<u8>,
    pub masks: Vec<u8>,
}

/// A needed block with its fixed fields, or refusal 2.
pub fn needed(bytes: &[u8], parent: Block, tag: &[u8; 4], fields: usize) -> Result<Block, Fault> {
    match first(bytes, parent, tag) {
        None => Err(Fault::of(parent, Cause::Missing { tag: *tag })),
        Some(block) if block.payload(bytes).len() < fields => Err(Fault::of(block, Cause::Short { fields })),
        Some(block) => Ok(block),
    }
}

/// "A ROOM may hold a TRNS block, whose first byte is the room's transparent index; without one it is 255. … 2 for an empty TRNS payload"
/// (change request 9). As of every block that is looked for, it is the first, even where that is empty and another follows.
fn transparent_index(bytes: &[u8], root: Block) -> Result<u8, Fault> {
    match first(bytes, root, b"TRNS") {
        Some(trns) => trns.payload(bytes).first().copied().ok_or(Fault::of(trns, Cause::Short { fields: 1 })),
        None => Ok(255),
    }
}

/// Planes 1 to N of an accepted head: "a missing plane is all zero, planes above N aren't looked at".
fn planes(bytes: &[u8], im00: Block, room: &Room) -> Result<Vec<u8>, Fault> {
    let mut masks = Vec::new();
    for k in 1..=room.n {
        match first(bytes, im00, format!("ZP0{k}").as_bytes()) {
            Some(plane) => masks.extend(mask::plane(bytes, plane, room.w / 8, room.h)?),
            None => masks.extend(vec![0; room.w / 8 * room.h]),
        }
    }
    Ok(masks)
}

/// 3: the numbers of RMHD and RMIH and the object count, each in its block and at its byte of it.
fn sized(bytes: &[u8], root: Block, rmhd: Block, rmih: Block, objects: usize) -> Result<[usize; 3], Fault> {
    let [w, h, n] = [(rmhd, 0), (rmhd, 2), (rmih, 0)].map(|(block, at)| u16_at(block.payload(bytes), at));
    let fields = [
        (Field::Width, w, width_ok(w), rmhd, 8),
        (Field::Height, h, height_ok(h), rmhd, 10),
        (Field::Planes, n, planes_ok(n), rmih, 8),
        (Field::Objects, objects, objects <= 128, root, 0),
    ];
    match fields.into_iter().find(|(_, _, right, ..)| !right) {
        Some((field, value, _, block, at)) => Err(Fault::of(block, Cause::Size { field, value, at: block.start + at })),
        None => Ok([w, h, n]),
    }
}

/// "Order: 1, 2, 3, 4 for the room; then the background and planes 1 to N". `lent` says whether the call's buffers are long enough.
pub fn judge(bytes: &[u8], lent: impl FnOnce(&Room) -> bool) -> Result<Painted, Fault> {
    // 1
    let root = root(bytes)?;
    // 2
    let rmhd = needed(bytes, root, b"RMHD", 6)?;
    let rmim = needed(bytes, root, b"RMIM", 0)?;
    let rmih = needed(bytes, rmim, b"RMIH", 2)?;
    let im00 = needed(bytes, rmim, b"IM00", 0)?;
    let smap = needed(bytes, im00, b"SMAP", 0)?;
    let clear = transparent_index(bytes, root)?;
    let objects = children(bytes, root, b"OBCD");
    for obcd in &objects {
        needed(bytes, *obcd, b"CDHD", 13)?;
    }
    for obim in children(bytes, root, b"OBIM") {
        needed(bytes, obim, b"IMHD", 16)?;
    }
    // 3
    let [w, h, n] = sized(bytes, root, rmhd, rmih, objects.len())?;
    // 4
    let room = Room { w, h, n, clear, objects };
    if !lent(&room) {
        return Err(Fault::of(root, Cause::Lent));
    }
    // 5 to 8: the background, then the planes
    let pixels = strip::picture(bytes, smap, w, h)?;
    let masks = planes(bytes, im00, &room)?;
    Ok(Painted { room, pixels, masks })
}

/// The same with the number alone.
pub fn test(bytes: &[u8], lent: impl FnOnce(&Room) -> bool) -> Result<Painted, u32> {
    judge(bytes, lent).map_err(|fault| fault.number())
}

//! An object's header and name (document 01, "Blocks"; source 003 for CDHD; docs/LAYOUTS.md).

use crate::block::{first, Block};
use crate::room::{test, Room};
use crate::NO_OBJECT;

pub const HEADER: usize = 16;

/// "Objects are numbered from 1 in OBCD order."
fn object_at(room: &Room, object: u32) -> Result<Block, u32> {
    (object as usize).checked_sub(1).and_then(|i| room.objects.get(i)).copied().ok_or(NO_OBJECT)
}

/// CDHD's 13 bytes, then zeros.
pub fn header_of(room: &[u8], obcd: Block) -> [u8; HEADER] {
    let (cdhd, mut header) = (first(room, obcd, b"CDHD").expect("a tested room"), [0; HEADER]);
    header[..13].copy_from_slice(&cdhd.payload(room)[..13]);
    header
}

/// An object's header.
pub fn header(room: &[u8], header: &mut [u8], object: u32) -> u32 {
    match test(room, |_| header.len() >= HEADER).and_then(|painted| object_at(&painted.room, object)) {
        Err(number) => number,
        Ok(obcd) => {
            header[..HEADER].copy_from_slice(&header_of(room, obcd));
            0
        }
    }
}

/// "OBNA up to its first NUL or its end, `@` kept, empty if there is no OBNA": start and length. An empty name without OBNA is 0 and 0; one with OBNA
/// stands where OBNA's payload does.
pub fn name_of(room: &[u8], obcd: Block) -> (usize, usize) {
    match first(room, obcd, b"OBNA") {
        None => (0, 0),
        Some(obna) => {
            let text = obna.payload(room);
            (obna.start + 8, text.iter().position(|byte| *byte == 0).unwrap_or(text.len()))
        }
    }
}

/// The name's number, start and length; 0 and 0 where it is refused.
pub fn name(room: &[u8], object: u32) -> (u32, usize, usize) {
    match test(room, |_| true).and_then(|painted| object_at(&painted.room, object)) {
        Err(number) => (number, 0, 0),
        Ok(obcd) => {
            let (start, length) = name_of(room, obcd);
            (0, start, length)
        }
    }
}

//! The load and the room's record (document 01, "Sizes" and "Sessions": "A load empties it"; docs/LAYOUTS.md).

use crate::fault::Fault;
use crate::room::{judge, Room};

pub const RECORD: usize = 16;
pub const SESSION: usize = 450;

/// The record's bytes: W, H, N, objects as u16, the transparent index ("The room's record carries it", change request 9), zeros.
pub fn record_of(room: &Room) -> [u8; RECORD] {
    let mut record = [0; RECORD];
    for (i, number) in [room.w, room.h, room.n, room.objects.len()].into_iter().enumerate() {
        record[2 * i..2 * i + 2].copy_from_slice(&(number as u16).to_le_bytes());
    }
    record[8] = room.clear;
    record
}

/// The room's record.
pub fn try_record(room: &[u8], record: &mut [u8]) -> Result<(), Fault> {
    let painted = judge(room, |_| record.len() >= RECORD)?;
    record[..RECORD].copy_from_slice(&record_of(&painted.room));
    Ok(())
}

/// Pixels, masks and the emptied session.
pub fn try_load(room: &[u8], session: &mut [u8], pixels: &mut [u8], masks: &mut [u8]) -> Result<(), Fault> {
    let lent = |room: &Room| session.len() >= SESSION && pixels.len() >= room.pixels() && masks.len() >= room.masks();
    let painted = judge(room, lent)?;
    session[..SESSION].fill(0);
    pixels[..painted.pixels.len()].copy_from_slice(&painted.pixels);
    masks[..painted.masks.len()].copy_from_slice(&painted.masks);
    Ok(())
}

/// Both with the number alone.
pub fn record(room: &[u8], record: &mut [u8]) -> u32 {
    number(try_record(room, record))
}

pub fn load(room: &[u8], session: &mut [u8], pixels: &mut [u8], masks: &mut [u8]) -> u32 {
    number(try_load(room, session, pixels, masks))
}

/// 0, or the fault's.
pub fn number(judged: Result<(), Fault>) -> u32 {
    judged.map_or_else(|fault| fault.number(), |()| 0)
}

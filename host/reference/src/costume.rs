//! Costumes (document 01, "Actors, points, limbs"; source 004 for the record; docs/LAYOUTS.md for a limb's 16 bytes).

use crate::{u16_at, u32_at, ANIMATION, SHORT};
use std::ops::Range;

pub const LIMBS: usize = 256;

// Where a limb's bytes stand.
const ACTIVE: usize = 0;
const STOPPED: usize = 1;
const NO_LOOP: usize = 2;
const HAS_PICTURE: usize = 3;
const PICTURE: usize = 4;
const LENGTH: usize = 5;
const START: usize = 8;
const PLACE: usize = 12;

/// "a stored v means payload byte v − 6, and the stream runs to the end"; an empty stream is one too.
fn stream(payload: &[u8], command: u32) -> Result<&[u8], u32> {
    (command as usize).checked_sub(6).and_then(|at| payload.get(at..)).ok_or(ANIMATION)
}

/// A limb's window: length bytes from its start on. In 64 bits, because a start is any u32 and the sum must not wrap.
fn window(limb: &[u8]) -> Range<u64> {
    let start = u32_at(limb, START) as u64;
    start..start + limb[LENGTH] as u64
}

/// "a lent active limb whose length isn't 1 to 128 … or whose place is outside its window" is wrong, whatever the stream; an idle one never is.
fn limb_ok(limb: &[u8]) -> bool {
    limb[ACTIVE] == 0 || ((1..=128).contains(&limb[LENGTH]) && window(limb).contains(&(u32_at(limb, PLACE) as u64)))
}

/// The same where a stream is lent, with "whose window passes the stream".
fn limb_ok_in(limb: &[u8], stream: &[u8]) -> bool {
    limb_ok(limb) && (limb[ACTIVE] == 0 || window(limb).end <= stream.len() as u64)
}

/// One wrong limb of the 16 is enough, whichever a call is about.
fn all_limbs(limbs: &[u8], ok: impl Fn(&[u8]) -> bool) -> Result<(), u32> {
    limbs[..LIMBS].chunks(16).all(ok).then_some(()).ok_or(ANIMATION)
}

/// "Starting a limb sets its place to the start and forgets its picture; its stopped bit stays".
fn start_limb(limb: &mut [u8], start: usize, length_and_flag: u8) {
    limb[ACTIVE] = 1;
    limb[NO_LOOP] = length_and_flag >> 7;
    limb[HAS_PICTURE] = 0;
    limb[PICTURE] = 0;
    limb[LENGTH] = length_and_flag % 128 + 1;
    limb[START..START + 4].copy_from_slice(&(start as u32).to_le_bytes());
    limb[PLACE..PLACE + 4].copy_from_slice(&(start as u32).to_le_bytes());
}

/// "start FFFF makes the limb idle, its window, place and picture forgotten … its stopped bit stays, on idling too".
fn idle_limb(limb: &mut [u8]) {
    for at in [ACTIVE, NO_LOOP, HAS_PICTURE, PICTURE, LENGTH] {
        limb[at] = 0;
    }
    limb[START..PLACE + 4].fill(0);
}

/// Starts an animation: true, or false where it is "not defined" and nothing changes.
pub fn start(payload: &[u8], limbs: &mut [u8], table: u32, count: u32, command: u32, chore: u32, direction: u32) -> Result<bool, u32> {
    if limbs.len() < LIMBS {
        return Err(SHORT);
    }
    let stream = stream(payload, command)?;
    all_limbs(limbs, |limb| limb_ok_in(limb, stream))?;
    if chore > 243 || direction > 3 || 4 * chore + direction >= count {
        return Err(ANIMATION);
    }
    let table = payload.get(table as usize..table as usize + 2 * count as usize).ok_or(ANIMATION)?;
    let stored = u16_at(table, 2 * (4 * chore + direction) as usize);
    if stored == 0 || stored == 0xFFFF {
        return Ok(false);
    }
    // The record: u16 mask, limb i = bit 15 − i; then for each set bit a u16 start and, unless that is FFFF, a length byte.
    let mut record = stored.checked_sub(6).and_then(|at| payload.get(at..)).ok_or(ANIMATION)?.iter();
    let mut byte = || record.next().copied().ok_or(ANIMATION);
    let mask = u16::from_le_bytes([byte()?, byte()?]);
    let mut after = limbs[..LIMBS].to_vec();
    for (_, limb) in after.chunks_mut(16).enumerate().filter(|(i, _)| mask >> (15 - i) & 1 == 1) {
        match u16::from_le_bytes([byte()?, byte()?]) {
            0xFFFF => idle_limb(limb),
            start => {
                start_limb(limb, start as usize, byte()?);
                if !limb_ok_in(limb, stream) {
                    return Err(ANIMATION);
                }
            }
        }
    }
    limbs[..LIMBS].copy_from_slice(&after);
    Ok(mask != 0)
}

/// "A tick, for each active limb, reads its byte: 79 stops, 7A un-stops, others of 71–7C do nothing, else it is the picture; then the
/// place moves on, looping, or staying at the last byte with no-loop."
pub fn tick(payload: &[u8], limbs: &mut [u8], command: u32) -> u32 {
    if limbs.len() < LIMBS {
        return SHORT;
    }
    let Ok(stream) = stream(payload, command) else { return ANIMATION };
    if all_limbs(limbs, |limb| limb_ok_in(limb, stream)).is_err() {
        return ANIMATION;
    }
    for limb in limbs[..LIMBS].chunks_mut(16).filter(|limb| limb[ACTIVE] != 0) {
        let (length, start, place) = (limb[LENGTH] as usize, u32_at(limb, START), u32_at(limb, PLACE));
        match stream[place] {
            0x79 => limb[STOPPED] = 1,
            0x7A => limb[STOPPED] = 0,
            0x71..=0x7C => (),
            picture => (limb[HAS_PICTURE], limb[PICTURE]) = (1, picture),
        }
        let next = match (place + 1 == start + length, limb[NO_LOOP] != 0) {
            (false, _) => place + 1,
            (true, false) => start,
            (true, true) => place,
        };
        limb[PLACE..PLACE + 4].copy_from_slice(&(next as u32).to_le_bytes());
    }
    0
}

/// "A limb draws if active, not stopped, with a picture": the picture, if it does. A limb number above 15 is 15, and so is a wrong limb, be it
/// the one asked or another. The call is lent no stream, so a window's end is not judged.
pub fn limb_draws(limbs: &[u8], limb: u32) -> Result<Option<u8>, u32> {
    if limbs.len() < LIMBS {
        return Err(SHORT);
    }
    let asked = limbs[..LIMBS].chunks(16).nth(limb as usize).ok_or(ANIMATION)?;
    all_limbs(limbs, limb_ok)?;
    Ok((asked[ACTIVE] != 0 && asked[STOPPED] == 0 && asked[HAS_PICTURE] != 0).then_some(asked[PICTURE]))
}

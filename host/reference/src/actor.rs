//! Actors (document 01, "Actors, points, limbs", and demand 2's last sentence).

use crate::{sizes_ok, OUTSIDE, SHORT, SIZE};

/// "Clip 0 or above N hides nothing"; otherwise the bit of plane `clip` at a point of the room.
fn hides(masks: &[u8], w: usize, h: usize, n: usize, clip: usize, x: usize, y: usize) -> bool {
    clip >= 1 && clip <= n && masks[((clip - 1) * h + y) * (w / 8) + x / 8] >> (7 - x % 8) & 1 == 1
}

/// The hidden-pixel question: 3, then 4, then 14, whatever the clip.
pub fn hidden(masks: &[u8], w: u32, h: u32, n: u32, clip: u32, x: u32, y: u32) -> Result<bool, u32> {
    let [w, h, n, clip, x, y] = [w, h, n, clip, x, y].map(|number| number as usize);
    if !sizes_ok(w, h, n) {
        return Err(SIZE);
    }
    if masks.len() < n * (w / 8) * h {
        return Err(SHORT);
    }
    if x >= w || y >= h {
        return Err(OUTSIDE);
    }
    Ok(hides(masks, w, h, n, clip, x, y))
}

/// An actor's picture: its bytes, its size, its corner, its clip level and the colour that isn't painted.
pub struct Actor<'a> {
    pub picture: &'a [u8],
    pub width: u32,
    pub height: u32,
    pub x: i32,
    pub y: i32,
    pub clip: u32,
    pub clear: u8,
}

/// The stamp: "pixels other than 255, in the frame and not hidden, at signed (x + column, y + row) … the sums exact". For 255 it takes "the index as
/// a byte from the caller" (change request 9).
pub fn stamp(frame: &mut [u8], masks: &[u8], w: u32, h: u32, n: u32, actor: &Actor) -> u32 {
    let [w, h, n, clip] = [w, h, n, actor.clip].map(|number| number as usize);
    if !sizes_ok(w, h, n) || !(1..=128).contains(&actor.width) || !(1..=200).contains(&actor.height) {
        return SIZE;
    }
    let (width, height) = (actor.width as usize, actor.height as usize);
    if frame.len() < w * h || masks.len() < n * (w / 8) * h || actor.picture.len() < width * height {
        return SHORT;
    }
    for row in 0..height {
        for column in 0..width {
            let (x, y) = (actor.x as i64 + column as i64, actor.y as i64 + row as i64);
            let pixel = actor.picture[row * width + column];
            let inside = x >= 0 && x < w as i64 && y >= 0 && y < h as i64;
            if pixel != actor.clear && inside && !hides(masks, w, h, n, clip, x as usize, y as usize) {
                frame[y as usize * w + x as usize] = pixel;
            }
        }
    }
    0
}

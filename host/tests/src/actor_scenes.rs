//! Scenes with actors: hidden pixels and stamps.

use crate::calls;
use crate::comparison::Comparison;
use crate::rng::{Rng, H, N, W, WIDTH};
use crate::room_scenes::lent;
use crate::rooms::sizes;
use reference::actor::Actor;

pub const EDGES: [i32; 12] = [i32::MIN, i32::MIN + 1, -129, -128, -1, 0, 1, 127, 200, 1024, i32::MAX - 1, i32::MAX];

/// Every point of a small room and its rim, under every clip.
pub fn every_point(b: &mut Comparison, r: &mut Rng) {
    let (w, h, n) = (8 * r.range(1, 3), r.range(1, 4), r.below(5));
    let masks = r.bytes(n * (w / 8) * h);
    for clip in [0, 1, 2, 3, 4, 5, 0x8000_0000, 0xFFFF_FFFF] {
        for y in 0..=h {
            for x in 0..=w {
                calls::hidden(b, &masks, [w as u32, h as u32, n as u32], clip, (x as u32, y as u32));
            }
        }
    }
}

/// Questions with strange numbers and buffers.
pub fn questions(b: &mut Comparison, r: &mut Rng) {
    let ((w, h), n) = (sizes(r), r.below(5));
    let good = lent(r, n * (w / 8) * h);
    for _ in 0..60 {
        let masks = if r.once_in(6) { lent(r, n * (w / 8) * h) } else { good.clone() };
        let (x, y, clip) = (r.below(w) as u32, r.below(h) as u32, r.below(6) as u32);
        let (w, h, n) = (r.near(w as u32, &W), r.near(h as u32, &H), r.near(n as u32, &N));
        let (x, y, clip) = (r.wild(x), r.wild(y), r.wild(clip));
        calls::hidden(b, &masks, [w, h, n], clip, (x, y));
    }
}

/// The colour that isn't painted: 255 as in a room that says nothing else, 0, or any.
pub fn any_clear(r: &mut Rng) -> u8 {
    match r.below(4) {
        0 => 255,
        1 => 0,
        _ => r.byte(),
    }
}

/// A picture with many pixels that aren't painted, many of 255 and of 0.
pub fn picture(r: &mut Rng, size: usize, clear: u8) -> Vec<u8> {
    let (holes, ends) = (r.pick(&[1, 2, 3, 50]), r.pick(&[2, 4, 50]));
    let pixel = |r: &mut Rng| if r.once_in(ends) { r.pick(&[255, 0]) } else { r.byte() };
    (0..size).map(|_| if r.once_in(holes) { clear } else { pixel(r) }).collect()
}

/// A small picture at every offset, under every clip.
pub fn every_offset(b: &mut Comparison, r: &mut Rng) {
    let (w, h, n) = (8 * r.range(1, 2), r.range(1, 5), r.below(5));
    let (width, height) = (r.range(1, 9), r.range(1, 4));
    let (frame, masks, clear) = (r.bytes(w * h), r.bytes(n * (w / 8) * h), any_clear(r));
    let picture = picture(r, width * height, clear);
    for clip in 0..=n as u32 + 1 {
        for y in -(height as i32) - 1..=h as i32 {
            for x in -(width as i32) - 1..=w as i32 {
                let actor = Actor { picture: &picture, width: width as u32, height: height as u32, x, y, clip, clear };
                calls::stamp(b, &frame, &masks, [w as u32, h as u32, n as u32], &actor);
            }
        }
    }
}

/// Stamps of any size anywhere, with strange numbers and buffers.
pub fn stamps(b: &mut Comparison, r: &mut Rng) {
    let ((w, h), n) = (sizes(r), r.below(5));
    let (width, height) = match r.below(8) {
        0 => (r.range(1, 128), r.range(1, 200)),
        1 => (r.pick(&[1, 128]), r.pick(&[1, 200])),
        _ => (r.range(1, 12), r.range(1, 12)),
    };
    let holes = any_clear(r);
    let picture = picture(r, width * height, holes);
    for _ in 0..20 {
        let clear = if r.once_in(4) { any_clear(r) } else { holes };
        let (frame, masks) = (lent(r, w * h), lent(r, n * (w / 8) * h));
        let shown = match r.below(14) {
            0 => &picture[..picture.len() - 1],
            1 => &picture[..r.below(picture.len() + 1)],
            _ => &picture[..],
        };
        let near = |r: &mut Rng, length: usize, own: usize| r.below(length + 2 * own + 2) as i32 - own as i32 - 1;
        let x = if r.once_in(5) { r.pick(&EDGES) } else { near(r, w, width) };
        let y = if r.once_in(5) { r.pick(&EDGES) } else { near(r, h, height) };
        let wild = r.once_in(3);
        let mut number = |good: usize, limits: &[u32]| if wild { r.near(good as u32, limits) } else { good as u32 };
        let (w, h, n) = (number(w, &W), number(h, &H), number(n, &N));
        let (width, height) = (number(width, &WIDTH), number(height, &H));
        let clip = r.below(6) as u32;
        let clip = r.wild(clip);
        calls::stamp(b, &frame, &masks, [w, h, n], &Actor { picture: shown, width, height, x, y, clip, clear });
    }
}

//! Painting afresh, and rebuilding the strips of a step (document 01, "Sessions").

use crate::step::{Entry, Scene};

/// One entry over what is there already, strip by strip.
fn paint(scene: &Scene, entry: &Entry, pixels: &mut [u8], masks: &mut [u8]) {
    let (w, h) = (scene.ground.room.w, scene.ground.room.h);
    let (x, y) = entry.place;
    for (s, strip) in entry.strips.iter().enumerate() {
        for (i, pixel) in strip.pixels.iter().enumerate() {
            if let Some(pixel) = pixel {
                pixels[(y + i / 8) * w + x + 8 * s + i % 8] = *pixel;
            }
        }
        // "A strip with no transparent pixel replaces the mask rows it covers in planes 1 to N … another strip ORs its bits".
        let replaces = strip.pixels.iter().all(Option::is_some);
        for (k, plane) in strip.planes.iter().enumerate() {
            for (row, bits) in plane.iter().enumerate() {
                let at = (k * h + y + row) * (w / 8) + x / 8 + s;
                masks[at] = if replaces { *bits } else { masks[at] | bits };
            }
        }
    }
}

/// "background (all its pixels) and planes, then each entry in order": the whole surfaces.
pub fn afresh(scene: &Scene, shown: &[Entry]) -> (Vec<u8>, Vec<u8>) {
    let (mut pixels, mut masks) = (scene.ground.pixels.clone(), scene.ground.masks.clone());
    for entry in shown {
        paint(scene, entry, &mut pixels, &mut masks);
    }
    (pixels, masks)
}

/// Whether a touched entry covers strip s.
fn covers(touched: &[Entry], s: usize) -> bool {
    touched.iter().any(|entry| entry.place.0 <= 8 * s && 8 * s < entry.place.0 + entry.size.0)
}

/// "An accepted step rebuilds, over their full height, the strips covered by entries it removed or added, from room and list; every other
/// surface byte stays."
pub fn rebuild(scene: &Scene, shown: &[Entry], touched: &[Entry], pixels: &mut [u8], masks: &mut [u8]) {
    let (w, strips) = (scene.ground.room.w, scene.ground.room.w / 8);
    let (fresh_pixels, fresh_masks) = afresh(scene, shown);
    for (at, pixel) in fresh_pixels.into_iter().enumerate() {
        if covers(touched, at % w / 8) {
            pixels[at] = pixel;
        }
    }
    for (at, bits) in fresh_masks.into_iter().enumerate() {
        if covers(touched, at % strips) {
            masks[at] = bits;
        }
    }
}

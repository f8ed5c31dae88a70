//! Two rooms compared strip by strip (change request 1; docs/LAYOUTS.md, "List of differences, 8 bytes a place").

use crate::room::{test, Painted};
use crate::{SHORT, UNEQUAL};

/// The bytes of a place of the list.
pub const PLACE: usize = 8;

/// What differs in a strip: how many pixels, and which planes, bit k − 1 for plane k.
struct Difference {
    strip: usize,
    pixels: usize,
    planes: u8,
}

/// Plane k's row y in strip s, "an undeclared plane reading as zero".
fn row(painted: &Painted, k: usize, s: usize, y: usize) -> u8 {
    let (w, h, n) = (painted.room.w, painted.room.h, painted.room.n);
    if k <= n {
        painted.masks[((k - 1) * h + y) * (w / 8) + s]
    } else {
        0
    }
}

/// Strip s of two rooms of one size. "Two planes are compared up to the larger N".
fn difference(a: &Painted, b: &Painted, s: usize) -> Difference {
    let (w, h) = (a.room.w, a.room.h);
    let places = (0..8 * h).map(|i| i / 8 * w + 8 * s + i % 8);
    let differs = |k: &usize| (0..h).any(|y| row(a, *k, s, y) != row(b, *k, s, y));
    Difference {
        strip: s,
        pixels: places.filter(|at| a.pixels[*at] != b.pixels[*at]).count(),
        planes: (1..=a.room.n.max(b.room.n)).filter(differs).map(|k| 1 << (k - 1)).sum(),
    }
}

/// A place: strip and pixels as u16, planes, zeros.
fn place(difference: &Difference) -> [u8; PLACE] {
    let [strip, pixels] = [difference.strip, difference.pixels].map(|number| (number as u16).to_le_bytes());
    [strip[0], strip[1], pixels[0], pixels[1], difference.planes, 0, 0, 0]
}

/// "a list by strip, left to right: for each strip whose pixels or whose rows in any plane differ": how many places it fills. "Refusals:
/// room A's first, then room B's, then 16 when W or H differs, then 4"; the rooms' own have no 4, as nothing is lent for them.
pub fn compare(a: &[u8], b: &[u8], list: &mut [u8]) -> Result<usize, u32> {
    let a = test(a, |_| true)?;
    let b = test(b, |_| true)?;
    if a.room.w != b.room.w || a.room.h != b.room.h {
        return Err(UNEQUAL);
    }
    let strips = (0..a.room.w / 8).map(|s| difference(&a, &b, s));
    let differences: Vec<Difference> = strips.filter(|strip| strip.pixels > 0 || strip.planes > 0).collect();
    if list.len() / PLACE < differences.len() {
        return Err(SHORT);
    }
    for (i, difference) in differences.iter().enumerate() {
        list[PLACE * i..PLACE * (i + 1)].copy_from_slice(&place(difference));
    }
    Ok(differences.len())
}

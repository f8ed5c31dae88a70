//! Deliberate strips with a room's transparent index (change request 9), in backgrounds and in objects' images, under every code; and the surfaces that
//! follow, known from the making: the index decides which pixels are painted, and whether a strip has a transparent one.

use crate::ends::{method, Method};
use crate::recode::Picture;
use crate::rng::Rng;
use crate::strips::index_bits;
use crate::tree::Node;

/// A room's index: 255 because there is no TRNS block or because it says so, 0, one that every code gives, or any other.
#[derive(Clone, Copy, Debug, PartialEq, Eq, PartialOrd, Ord)]
pub enum Index {
    Missing,
    Given255,
    Zero,
    Low,
    High,
}

pub const INDEXES: [Index; 5] = [Index::Missing, Index::Given255, Index::Zero, Index::Low, Index::High];

/// Which pixels of a strip are of the index, as its code puts them in order.
#[derive(Clone, Copy, Debug, PartialEq, Eq, PartialOrd, Ord)]
pub enum Spot {
    First,
    Last,
    Some,
    All,
    None,
}

const SPOTS: [Spot; 5] = [Spot::First, Spot::Last, Spot::Some, Spot::All, Spot::None];

/// A strip to be made. `white`: it has 255 too, as a colour like any other.
#[derive(Clone, Copy, Debug, PartialEq, Eq, PartialOrd, Ord)]
pub struct Look {
    pub code: u8,
    pub index: Index,
    pub spot: Spot,
    pub white: bool,
}

/// The bits of a new index; a raw strip's pixels have 8 too.
fn bits(code: u8) -> usize {
    if code == 1 {
        8
    } else {
        index_bits(code)
    }
}

/// "22–26 vertical transparent …, 2C–30 horizontal transparent …, 54–58 transparent …, 68–6C transparent".
fn is_transparent(code: u8) -> bool {
    [0x22, 0x2C, 0x54, 0x68].iter().any(|start| (*start..start + 5).contains(&code))
}

/// The looks of a room's strips under one code. Codes of 4 bits come to a high index only as a strip's first colour.
pub fn looks(index: Index, code: u8) -> Vec<Look> {
    let reached = |spot: Spot| index != Index::High || bits(code) > 4 || !matches!(spot, Spot::Last | Spot::Some);
    let with_255 = |spot: Spot| spot != Spot::All && !matches!(index, Index::Missing | Index::Given255);
    let spots = SPOTS.into_iter().filter(|spot| reached(*spot));
    let looks = spots.flat_map(|spot| [false, true].map(|white| Look { code, index, spot, white }));
    looks.filter(|look| !look.white || with_255(look.spot)).collect()
}

impl Index {
    /// A value for a room whose strips are under this code.
    pub fn value(self, r: &mut Rng, code: u8) -> u8 {
        match self {
            Index::Missing | Index::Given255 => 255,
            Index::Zero => 0,
            Index::Low => r.range(1, 15) as u8,
            Index::High if bits(code) == 4 => r.range(16, 254) as u8,
            Index::High => r.range(16, (1 << bits(code)) - 2) as u8,
        }
    }
}

/// A code of few bits comes to 255 from 0, as one less. So a 0 goes before each 255 that isn't the first colour.
fn lead_to_255(pixels: &mut [u8]) {
    for i in 1..pixels.len() {
        if pixels[i] == 255 && pixels[i - 1] != 255 {
            pixels[i - 1] = 0;
        }
    }
}

impl Look {
    /// 255 as a colour like others: the first one, or behind the index that is first; under a code of 8 bits anywhere.
    fn put_255(self, r: &mut Rng, clear: u8, pixels: &mut [u8]) {
        match self.spot {
            Spot::First if clear == 0 => pixels[1] = 255,
            Spot::First => pixels[1..3].copy_from_slice(&[0, 255]),
            _ => pixels[0] = 255,
        }
        let last = pixels.len() - 1;
        for pixel in pixels[3..last].iter_mut().filter(|pixel| bits(self.code) == 8 && **pixel != clear) {
            *pixel = if r.once_in(4) { 255 } else { *pixel };
        }
    }

    /// The strip's pixels in the order of its code. Other colours are below 16, which every code gives.
    fn coded(self, r: &mut Rng, clear: u8, count: usize) -> Vec<u8> {
        let others: Vec<u8> = (0..16).filter(|colour| *colour != clear).collect();
        let mut pixels: Vec<u8> = (0..count).map(|_| r.pick(&others)).collect();
        let inside = r.range(3, count - 2);
        match self.spot {
            Spot::First => pixels[0] = clear,
            Spot::Last => pixels[count - 1] = clear,
            Spot::Some => pixels[inside..count - 1].iter_mut().step_by(r.range(1, 3)).for_each(|pixel| *pixel = clear),
            Spot::All => pixels.fill(clear),
            Spot::None => (),
        }
        if clear == 255 {
            lead_to_255(&mut pixels);
        }
        if self.white {
            self.put_255(r, clear, &mut pixels);
        }
        pixels
    }

    /// The strip's pixels by rows.
    fn pixels(self, r: &mut Rng, clear: u8, h: usize) -> Vec<u8> {
        let coded = self.coded(r, clear, 8 * h);
        let vertical = self.code != 1 && method(self.code) == Method::FirstVertical;
        (0..8 * h).map(|i| coded[if vertical { i % 8 * h + i / 8 } else { i }]).collect()
    }
}

/// Strips side by side under these codes, with planes: a background, or an object's image.
pub struct Image {
    pub codes: Vec<u8>,
    pub picture: Picture,
}

/// A plane's rows: those of a background have bits 7 and 0, those of an object have bits 4 and 3 and none of the other two. So a row that is kept, one
/// that is joined and one that is replaced are three. Some strips of objects have zero rows.
fn plane(r: &mut Rng, ground: bool, strips: usize, h: usize) -> Vec<u8> {
    let empty: Vec<bool> = (0..strips).map(|_| !ground && r.once_in(3)).collect();
    let row = |r: &mut Rng, s: usize| match ground {
        true => r.byte() & 0x66 | 0x81,
        false if empty[s] => 0,
        false => r.byte() & 0x66 | 0x18,
    };
    (0..strips * h).map(|at| row(r, at % strips)).collect()
}

impl Image {
    /// A strip of each look.
    pub fn new(r: &mut Rng, ground: bool, looks: &[Look], clear: u8, h: usize, n: usize) -> Image {
        let strips: Vec<(u8, Vec<u8>)> = looks.iter().map(|look| (look.code, look.pixels(r, clear, h))).collect();
        Image::of(r, ground, strips, n)
    }

    /// Strips of these codes and pixels by rows.
    pub fn of(r: &mut Rng, ground: bool, strips: Vec<(u8, Vec<u8>)>, n: usize) -> Image {
        let (w, h) = (8 * strips.len(), strips[0].1.len() / 8);
        let pixels = (0..w * h).map(|at| strips[at % w / 8].1[at / w * 8 + at % 8]).collect();
        let planes = (0..n).map(|_| plane(r, ground, strips.len(), h)).collect();
        Image { codes: strips.into_iter().map(|(code, _)| code).collect(), picture: Picture::of(w, h, pixels, planes) }
    }

    /// SMAP and the planes.
    pub fn blocks(&self, r: &mut Rng) -> Vec<Node> {
        self.picture.image(r, |_, s| self.codes[s])
    }

    pub fn size(&self) -> (usize, usize) {
        (self.picture.w, self.picture.h)
    }

    fn column_has(&self, s: usize, clear: u8) -> bool {
        let (w, h) = self.size();
        (0..8 * h).any(|i| self.picture.pixels[i / 8 * w + 8 * s + i % 8] == clear)
    }
}

/// A room's surfaces.
#[derive(Clone, PartialEq)]
pub struct Surfaces {
    pub pixels: Vec<u8>,
    pub masks: Vec<u8>,
}

impl Surfaces {
    /// What a load leaves: all pixels, whatever the index.
    pub fn of(ground: &Image) -> Surfaces {
        Surfaces { pixels: ground.picture.pixels.clone(), masks: ground.picture.planes.concat() }
    }

    /// The same with an image on them, its upper left corner at (x, y).
    pub fn with(&self, ground: &Image, image: &Image, clear: u8, (x, y): (usize, usize)) -> Surfaces {
        let (mut after, (w, h), (width, height)) = (self.clone(), ground.size(), image.size());
        for (s, code) in image.codes.iter().enumerate() {
            let transparent = is_transparent(*code);
            for (row, column) in (0..8 * height).map(|i| (i / 8, 8 * s + i % 8)) {
                let pixel = image.picture.pixels[row * width + column];
                if !transparent || pixel != clear {
                    after.pixels[(y + row) * w + x + column] = pixel;
                }
            }
            let joins = transparent && image.column_has(s, clear);
            for (k, row) in (0..ground.picture.planes.len() * height).map(|i| (i / height, i % height)) {
                let (at, bits) = ((k * h + y + row) * (w / 8) + x / 8 + s, image.picture.planes[k][row * (width / 8) + s]);
                after.masks[at] = if joins { after.masks[at] | bits } else { bits };
            }
        }
        after
    }
}

#[cfg(test)]
mod tests {
    use super::*;
    use crate::pairs::codes;
    use crate::recode::pixel_body;

    /// What the scenes count on: every look can be coded, and has the index and 255 as it says.
    #[test]
    fn looks_are_as_told() {
        let r = &mut Rng::new(1);
        for (index, code) in INDEXES.into_iter().flat_map(|index| codes().into_iter().map(move |code| (index, code))) {
            for (look, h) in looks(index, code).into_iter().flat_map(|look| [(look, 1), (look, 2), (look, 9)]) {
                let clear = index.value(r, code);
                let (pixels, last) = (look.pixels(r, clear, h), 8 * h - 1);
                assert!(pixel_body(r, code, &pixels).is_some(), "{look:?}, index {clear}");
                let places: Vec<usize> = (0..8 * h).filter(|i| pixels[*i] == clear).collect();
                let right = match look.spot {
                    Spot::First => places == [0],
                    Spot::Last => places == [last],
                    Spot::Some => !places.is_empty() && places[0] > 0 && !places.contains(&last),
                    Spot::All => places.len() == 8 * h,
                    Spot::None => places.is_empty(),
                };
                assert!(right, "{look:?}, index {clear}, at {places:?}");
                assert!(clear == 255 || pixels.contains(&255) == look.white, "{look:?}, index {clear}");
            }
        }
    }
}

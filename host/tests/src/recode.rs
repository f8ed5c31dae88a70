//! Pictures that are coded as rooms in any way that the rules have: each pixel by an operation that chance picks of those that give it. So
//! two rooms decode alike although their strips' bytes differ, and what differs between two rooms is known from their making.

use crate::ends::{method, Method};
use crate::rng::Rng;
use crate::rooms::{self, Plan};
use crate::strips::{any_code, index_bits, is_second, Strips};
use crate::tree::{Body, Node};
use common::bits::Bits;

/// An operation: its bits, how many pixels it gives, and the first method's step after it.
#[derive(Clone)]
struct Choice {
    number: usize,
    bits: usize,
    pixels: usize,
    step: u8,
}

/// The operations under `code` that give the first of the pixels that are left.
fn choices(r: &mut Rng, code: u8, colour: u8, step: u8, left: &[u8]) -> Vec<Choice> {
    let (next, width, mut choices) = (left[0], index_bits(code), vec![]);
    let mut choice = |number: usize, bits: usize, pixels: usize, step: u8| choices.push(Choice { number, bits, pixels, step });
    if next == colour {
        choice(0, 1, 1, step);
    }
    if (next as usize) < 1 << width {
        choice(0b01 | (next as usize) << 2, 2 + width, 1, 1);
    }
    if is_second(code) {
        let same = left.iter().take_while(|pixel| **pixel == colour).count().min(256);
        match next.wrapping_sub(colour).wrapping_add(4) as usize {
            4 => {
                let run = if r.once_in(2) { same } else { r.range(1, same) };
                choice(0b11 | 4 << 2 | (run % 256) << 5, 13, run, step);
            }
            d if d < 8 => choice(0b11 | d << 2, 5, 1, step),
            _ => (),
        }
    } else if next == colour.wrapping_sub(step) {
        choice(0b011, 3, 1, step);
    } else if next == colour.wrapping_add(step) {
        choice(0b111, 3, 1, step.wrapping_neg());
    }
    choices
}

/// A body of 8 × h pixels, given by rows; none where the code has no operation for one of them.
pub fn pixel_body(r: &mut Rng, code: u8, pixels: &[u8]) -> Option<Vec<u8>> {
    if code == 1 {
        return Some([&[1], pixels].concat());
    }
    let h = pixels.len() / 8;
    let vertical = method(code) == Method::FirstVertical;
    let pixels: Vec<u8> = (0..8 * h).map(|i| pixels[if vertical { i % h * 8 + i / h } else { i }]).collect();
    let (mut bits, mut step, mut made) = (Bits::after(vec![code, pixels[0]]), 1, 1);
    while made < pixels.len() {
        let choices = choices(r, code, pixels[made - 1], step, &pixels[made..]);
        if choices.is_empty() {
            return None;
        }
        let choice = r.pick(&choices);
        bits.put(choice.number, choice.bits);
        (step, made) = (choice.step, made + choice.pixels);
    }
    Some(bits.bytes)
}

/// A body of mask rows: literals, runs and zero counts.
fn mask_body(r: &mut Rng, rows: &[u8]) -> Vec<u8> {
    let (mut body, mut y) = (vec![], 0);
    while y < rows.len() {
        let left = &rows[y..];
        let same = left.iter().take_while(|row| **row == left[0]).count().min(127);
        let literal = r.range(1, left.len().min(127));
        match r.below(10) {
            0 => body.push(0),
            1 => body.extend([0x80, r.byte()]),
            2..=5 => {
                body.push(literal as u8);
                body.extend(&left[..literal]);
                y += literal;
            }
            _ => {
                let run = if r.once_in(2) { same } else { r.range(1, same) };
                body.extend([0x80 + run as u8, left[0]]);
                y += run;
            }
        }
    }
    body
}

/// Unused bytes behind some bodies, and some between the table and the first.
fn loosen(r: &mut Rng, mut strips: Strips) -> Strips {
    for body in strips.bodies.iter_mut().flatten() {
        let unused = if r.once_in(3) { r.below(5) } else { 0 };
        body.extend(r.bytes(unused));
    }
    let gap = if r.once_in(3) { r.below(9) } else { 0 };
    strips.gap = r.bytes(gap);
    strips
}

fn node(tag: [u8; 4], strips: Strips) -> Node {
    Node { tag, body: Body::Strips(strips), stray: vec![], size: None }
}

/// The tag of plane k's block.
pub fn plane_tag(k: usize) -> [u8; 4] {
    [b'Z', b'P', b'0', b'0' + k as u8]
}

/// What a room decodes to.
#[derive(Clone)]
pub struct Picture {
    pub w: usize,
    pub h: usize,
    /// Pixels are below this: 16, which every code can give, or 256.
    colours: usize,
    /// By rows.
    pub pixels: Vec<u8>,
    /// Each of S × H rows, as a load has them.
    pub planes: Vec<Vec<u8>>,
}

impl Picture {
    /// The picture of these pixels and planes.
    pub fn of(w: usize, h: usize, pixels: Vec<u8>, planes: Vec<Vec<u8>>) -> Picture {
        Picture { w, h, colours: 256, pixels, planes }
    }

    /// Any picture. Equal and neighbouring pixels are common, so that every operation has its turn; so are equal rows.
    pub fn any(r: &mut Rng, (w, h): (usize, usize), n: usize, colours: usize) -> Picture {
        let mut last = r.below(colours);
        let mut pixel = || {
            last = match r.below(6) {
                0..=2 => last,
                3 => (last + 1) % colours,
                4 => (last + colours - 1) % colours,
                _ => r.below(colours),
            };
            last as u8
        };
        let pixels = (0..w * h).map(|_| pixel()).collect();
        let rows = |r: &mut Rng| (0..w / 8 * h).map(|_| if r.once_in(3) { r.byte() } else { r.pick(&[0, 0, 0xFF, 1, 0x80]) }).collect();
        Picture { w, h, colours, pixels, planes: (0..n).map(|_| rows(r)).collect() }
    }

    /// The same picture with zero rows in plane k.
    pub fn emptied(mut self, k: usize) -> Picture {
        self.planes[k - 1].fill(0);
        self
    }

    /// Another colour at (x, y).
    pub fn repaint(&mut self, r: &mut Rng, x: usize, y: usize) {
        let pixel = &mut self.pixels[y * self.w + x];
        *pixel = ((*pixel as usize + r.range(1, self.colours - 1)) % self.colours) as u8;
    }

    /// One bit of plane k, row y, strip s.
    pub fn flip(&mut self, r: &mut Rng, k: usize, s: usize, y: usize) {
        self.planes[k - 1][y * (self.w / 8) + s] ^= 1 << r.below(8);
    }

    /// Other colours in so many pixels of strip s, and some other rows in these of its planes, bit k − 1 for plane k.
    pub fn change(&mut self, r: &mut Rng, s: usize, pixels: usize, planes: u8) {
        let mut places: Vec<usize> = (0..8 * self.h).collect();
        r.shuffle(&mut places);
        places[..pixels].iter().for_each(|place| self.repaint(r, 8 * s + place % 8, place / 8));
        for k in (1..=4).filter(|k| planes >> (k - 1) & 1 == 1) {
            let (y, more) = (r.below(self.h), r.below(self.h));
            self.flip(r, k, s, y);
            if more > y {
                self.flip(r, k, s, more);
            }
        }
    }

    fn strip(&self, s: usize) -> Vec<u8> {
        (0..8 * self.h).map(|i| self.pixels[i / 8 * self.w + 8 * s + i % 8]).collect()
    }

    /// SMAP, strip s under code(s) where that can give it and else under any that can.
    fn smap(&self, r: &mut Rng, code: impl Fn(&mut Rng, usize) -> u8) -> Node {
        let body = |r: &mut Rng, s: usize| {
            let (first, strip) = (code(r, s), self.strip(s));
            pixel_body(r, first, &strip).unwrap_or_else(|| loop {
                let code = any_code(r);
                if let Some(body) = pixel_body(r, code, &strip) {
                    return body;
                }
            })
        };
        let bodies = (0..self.w / 8).map(|s| Some(body(r, s))).collect();
        node(*b"SMAP", loosen(r, Strips::tight(4, self.h, bodies)))
    }

    /// Plane k's block. A strip of zero rows has offset 0, or a body all the same.
    pub fn plane(&self, r: &mut Rng, k: usize) -> Node {
        let (strips, plane) = (self.w / 8, &self.planes[k - 1]);
        let body = |s: usize| {
            let rows: Vec<u8> = (0..self.h).map(|y| plane[y * strips + s]).collect();
            (rows.iter().any(|row| *row != 0) || r.once_in(3)).then(|| mask_body(r, &rows))
        };
        let bodies = (0..strips).map(body).collect();
        node(plane_tag(k), loosen(r, Strips::tight(2, self.h, bodies)))
    }

    /// SMAP and the planes in any order. A plane of zero rows is often missing.
    pub fn image(&self, r: &mut Rng, code: impl Fn(&mut Rng, usize) -> u8) -> Vec<Node> {
        let mut image = vec![self.smap(r, code)];
        for k in 1..=self.planes.len() {
            if self.planes[k - 1].iter().any(|row| *row != 0) || r.once_in(2) {
                image.push(self.plane(r, k));
            }
        }
        r.shuffle(&mut image);
        image
    }

    fn plan(&self, root: Node) -> Plan {
        Plan { w: self.w, h: self.h, n: self.planes.len(), root }
    }

    /// A room of the needed blocks, strip s under code(s) where that can give it.
    pub fn plain(&self, r: &mut Rng, code: impl Fn(&mut Rng, usize) -> u8) -> Plan {
        let image = self.image(r, code);
        self.plan(rooms::least_room(self.w, self.h, self.planes.len(), image))
    }

    /// The same picture in a room with objects and blocks that aren't looked at, under any codes.
    pub fn framed(&self, r: &mut Rng) -> Plan {
        let mut plan = rooms::room_of(r, self.w, self.h, self.planes.len());
        let mut image = self.image(r, |r, _| any_code(r));
        let kids = plan.root.find(&[b"RMIM", b"IM00"]).expect("an image").kids();
        // The blocks that stood there come second and aren't looked at; a plane that is missing here must not be found there.
        let declared = |tag: &[u8; 4]| (1..=self.planes.len()).any(|k| plane_tag(k) == *tag);
        kids.retain(|kid| !declared(&kid.tag) || image.iter().any(|own| own.tag == kid.tag));
        image.append(kids);
        *kids = image;
        plan
    }

    /// One of the two.
    pub fn room(&self, r: &mut Rng) -> Plan {
        if r.once_in(2) {
            self.framed(r)
        } else {
            self.plain(r, |r, _| any_code(r))
        }
    }
}

#[cfg(test)]
mod tests {
    use super::*;
    use crate::pairs::codes;
    use reference::{room, strip};

    /// What the scenes count on: every code gives every strip of 16 colours, and a room decodes to the picture that it was made of.
    #[test]
    fn pictures_read_back() {
        let r = &mut Rng::new(1);
        for i in 0..600 {
            let (size, n, colours) = ((8 * r.range(1, 5), r.range(1, 40)), r.below(5), r.pick(&[16, 256]));
            let picture = Picture::any(r, size, n, colours);
            let (code, pixels) = (codes()[i % 41], picture.strip(0));
            let body = pixel_body(r, code, &pixels);
            assert!(body.as_ref().is_none_or(|body| strip::pixels(body, size.1) == Ok(pixels)), "code {code:02X}");
            assert!(body.is_some() || colours == 256, "code {code:02X}");
            let read = room::test(&picture.room(r).root.write(), |_| true).expect("a good room");
            assert!(read.pixels == picture.pixels && read.masks == picture.planes.concat(), "{size:?}, {n} planes");
        }
    }

    /// So many pixels and these planes differ after a change, and nothing else.
    #[test]
    fn changes_are_as_told() {
        let r = &mut Rng::new(2);
        for _ in 0..600 {
            let (s, h, planes) = (r.below(3), r.range(1, 20), r.below(16) as u8);
            let (before, pixels) = (Picture::any(r, (24, h), 4, 16), r.below(8 * h + 1));
            let mut after = before.clone();
            after.change(r, s, pixels, planes);
            let other = |at: &usize| before.pixels[*at] != after.pixels[*at];
            let places: Vec<usize> = (0..24 * h).filter(other).collect();
            assert!(places.len() == pixels && places.iter().all(|at| at % 24 / 8 == s));
            for k in 0..4 {
                let rows: Vec<usize> = (0..3 * h).filter(|at| before.planes[k][*at] != after.planes[k][*at]).collect();
                assert!(rows.is_empty() == (planes >> k & 1 == 0) && rows.iter().all(|at| at % 3 == s));
            }
        }
    }
}

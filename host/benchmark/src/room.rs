//! Writes the measured rooms: a background under given coding methods, planes, and objects with two states.

use crate::picture::{plane, shape, Picture};
use common::bits::Bits;
use reference::write;

#[derive(Clone, Copy, PartialEq)]
pub enum Method {
    Horizontal,
    Vertical,
    Second,
    Raw,
}

pub const METHODS: [Method; 4] = [Method::Horizontal, Method::Vertical, Method::Second, Method::Raw];
/// One strip each, in turn.
pub const MIXED: [Method; 3] = [Method::Horizontal, Method::Vertical, Method::Second];

impl Method {
    pub fn name(self) -> &'static str {
        match self {
            Method::Horizontal => "first horizontal",
            Method::Vertical => "first vertical",
            Method::Second => "second",
            Method::Raw => "raw",
        }
    }

    /// The opaque code, indexes of 8 bits.
    fn code(self) -> u8 {
        match self {
            Method::Horizontal => 0x1C,
            Method::Vertical => 0x12,
            Method::Second => 0x44,
            Method::Raw => 0x01,
        }
    }
}

/// Transparent codes, indexes of 8 bits.
const HORIZONTAL_TRANSPARENT: u8 = 0x30;
const SECOND_TRANSPARENT: u8 = 0x6C;

/// The second method's operations: a run where it is shorter than keeps (13 bits), else keep, a difference of −4 to 3, a new index.
fn second(pixels: &[u8]) -> Vec<u8> {
    let (mut bits, mut colour, mut i) = (Bits::after(vec![Method::Second.code(), pixels[0]]), pixels[0], 1);
    while i < pixels.len() {
        let run = pixels[i..].iter().take_while(|pixel| **pixel == colour).count().min(256);
        if run > 13 {
            bits.put_run(run);
            i += run;
            continue;
        }
        let difference = pixels[i].wrapping_sub(colour).wrapping_add(4) as usize;
        match difference {
            4 => bits.put(0, 1),
            0..=7 => bits.put(0b11 | difference << 2, 5),
            _ => bits.put(0b01 | (pixels[i] as usize) << 2, 10),
        }
        colour = pixels[i];
        i += 1;
    }
    bits.bytes
}

/// A body of 8 × h pixels given by rows.
fn body(method: Method, pixels: &[u8]) -> Vec<u8> {
    let h = pixels.len() / 8;
    let mut body = match method {
        Method::Horizontal => write::strip(pixels),
        Method::Vertical => write::strip(&(0..8 * h).map(|i| pixels[i % h * 8 + i / h]).collect::<Vec<u8>>()),
        Method::Second => second(pixels),
        Method::Raw => [&[0], pixels].concat(),
    };
    body[0] = method.code();
    body
}

fn block(tag: &str, payload: &[u8]) -> Vec<u8> {
    [tag.as_bytes(), &(8 + payload.len() as u32).to_be_bytes(), payload].concat()
}

fn u16s(numbers: &[usize]) -> Vec<u8> {
    numbers.iter().flat_map(|number| (*number as u16).to_le_bytes()).collect()
}

fn smap(bodies: &[Vec<u8>]) -> Vec<u8> {
    let (mut table, mut at) = (vec![], 8 + 4 * bodies.len() as u32);
    for body in bodies {
        table.extend(at.to_le_bytes());
        at += body.len() as u32;
    }
    block("SMAP", &[table, bodies.concat()].concat())
}

/// The strips of W × H pixels, each 8 × h by rows.
fn strips(pixels: &[u8], w: usize) -> Vec<Vec<u8>> {
    (0..w / 8).map(|s| pixels.chunks(w).flat_map(|row| row[8 * s..8 * s + 8].to_vec()).collect()).collect()
}

fn zp(k: usize, w: usize, h: usize, rows: &[u8]) -> Vec<u8> {
    let mut out = vec![0; 60_000];
    let length = write::plane(rows, &mut out, w as u32, h as u32, k as u32).expect("a plane");
    out[..length].to_vec()
}

/// A room to be made.
#[derive(Clone, Copy)]
pub struct Spec {
    pub w: usize,
    pub h: usize,
    pub n: usize,
    pub picture: Picture,
    pub methods: &'static [Method],
    pub objects: usize,
    /// Width and height of the objects' images.
    pub image: (usize, usize),
    /// The transparent index. A TRNS block gives it where it isn't 255.
    pub clear: u8,
    /// Which of the pictures of its kind it shows.
    pub number: usize,
    /// Whether the background's planes are zero everywhere.
    pub empty: bool,
}

impl Spec {
    pub fn background(w: usize, h: usize, n: usize, picture: Picture, methods: &'static [Method]) -> Spec {
        Spec { w, h, n, picture, methods, objects: 0, image: (0, 0), clear: 255, number: 0, empty: false }
    }

    /// A room as a game has it, all methods in turn and objects of 32 by 40.
    pub fn furnished(w: usize, h: usize, n: usize, objects: usize) -> Spec {
        Spec { objects, image: (32, 40), ..Spec::background(w, h, n, Picture::Gradient, &MIXED) }
    }

    /// Strip position number i of an image; far from number i − 1.
    pub fn place(&self, i: usize) -> (usize, usize) {
        ((7 * i) % ((self.w - self.image.0) / 8 + 1), (5 * i) % ((self.h - self.image.1) / 8 + 1))
    }

    /// State 1 is a transparent shape under both methods in turn, state 2 an opaque picture.
    fn state(&self, object: usize, state: usize) -> Vec<u8> {
        let (width, height) = self.image;
        let pixels = if state == 1 { shape(width, height, 16 * object, self.clear) } else { self.picture.pixels(width, height, object) };
        let mut bodies = vec![];
        for (s, strip) in strips(&pixels, width).iter().enumerate() {
            let method = if s % 2 == 0 { Method::Horizontal } else { Method::Second };
            let mut body = body(method, strip);
            if state == 1 {
                body[0] = if s % 2 == 0 { HORIZONTAL_TRANSPARENT } else { SECOND_TRANSPARENT };
            }
            bodies.push(body);
        }
        let planes: Vec<Vec<u8>> = (1..=self.n).map(|k| zp(k, width, height, &plane(k, width, height))).collect();
        block(&format!("IM0{state}"), &[smap(&bodies), planes.concat()].concat())
    }

    /// OBIM and OBCD of object i, counted from 0.
    fn object(&self, i: usize) -> Vec<u8> {
        let ((a, b), (width, height)) = (self.place(i), self.image);
        let imhd = block("IMHD", &u16s(&[100 + i, 2, 0, 0, 8 * a, 8 * b, width, height]));
        let obim = block("OBIM", &[imhd, self.state(i, 1), self.state(i, 2)].concat());
        let numbers = [a, b, width / 8, height / 8, 0, 0].map(|number| number as u8);
        let cdhd = block("CDHD", &[u16s(&[100 + i]), numbers.to_vec(), u16s(&[8 * a, 8 * b]), vec![0]].concat());
        let obna = block("OBNA", format!("thing {}@@@\0", i + 1).as_bytes());
        [obim, block("OBCD", &[cdhd, obna].concat())].concat()
    }

    /// The rows of the background's plane k. Each room of a class has posts of its own.
    fn plane(&self, k: usize) -> Vec<u8> {
        if self.empty {
            return vec![0; self.w / 8 * self.h];
        }
        plane(k + 4 * self.number, self.w, self.h)
    }

    pub fn make(self) -> Room {
        let strips = strips(&self.picture.pixels(self.w, self.h, self.number), self.w);
        let bodies: Vec<Vec<u8>> = strips.iter().enumerate().map(|(s, strip)| body(self.methods[s % self.methods.len()], strip)).collect();
        let planes: Vec<Vec<u8>> = (1..=self.n).map(|k| zp(k, self.w, self.h, &self.plane(k))).collect();
        let im00 = block("IM00", &[smap(&bodies), planes.concat()].concat());
        let rmim = block("RMIM", &[block("RMIH", &u16s(&[self.n])), im00].concat());
        let rmhd = block("RMHD", &u16s(&[self.w, self.h, self.objects]));
        let trns = if self.clear == 255 { vec![] } else { block("TRNS", &[self.clear]) };
        let objects: Vec<Vec<u8>> = (0..self.objects).map(|i| self.object(i)).collect();
        Room::new(self, block("ROOM", &[rmhd, trns, rmim, objects.concat()].concat()))
    }
}

/// A room's bytes, with a few spare ones behind them that the unchecked pass may read.
pub struct Room {
    pub spec: Spec,
    bytes: Vec<u8>,
    size: usize,
}

impl Room {
    pub fn new(spec: Spec, mut bytes: Vec<u8>) -> Room {
        let size = bytes.len();
        bytes.extend([0; 16]);
        Room { spec, bytes, size }
    }

    pub fn bytes(&self) -> &[u8] {
        &self.bytes[..self.size]
    }

    pub fn pixels(&self) -> usize {
        self.spec.w * self.spec.h
    }

    pub fn masks(&self) -> usize {
        self.spec.n * (self.spec.w / 8) * self.spec.h
    }
}

#[cfg(test)]
mod tests {
    use super::*;
    use crate::picture::PICTURES;
    use reference::strip;

    /// Every strip of every picture, under every method.
    #[test]
    fn bodies_read_back() {
        let (w, h) = (64, 33);
        for (picture, method) in PICTURES.iter().flat_map(|picture| METHODS.map(|method| (picture, method))) {
            for pixels in strips(&picture.pixels(w, h, 3), w) {
                assert_eq!(strip::pixels(&body(method, &pixels), h), Ok(pixels), "{}", picture.name());
            }
        }
    }

    /// The shortest runs that are coded as such and those around 256 pixels, the longest that one operation gives, with its number 0.
    #[test]
    fn runs_read_back() {
        for run in [13, 14, 15, 254, 255, 256, 257, 270, 512] {
            let pixels = [vec![7; 1 + run], vec![200; 16 - (1 + run) % 8]].concat();
            assert_eq!(strip::pixels(&second(&pixels), pixels.len() / 8), Ok(pixels), "a run of {run}");
        }
        assert_eq!(second(&[7; 264])[..4], [0x44, 7, 0x13, 0]);
    }
}

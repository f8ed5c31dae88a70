//! Strips of pixels (document 01, "Strips of pixels (SMAP)", its rules for code 01 and d = 4 as change request 5 changed them), refusals 5 to 8.

use crate::block::Block;
use crate::fault::{Cause, Fault, Part, Stop};
use crate::{table, CODE, CUT, PAST};
use std::ops::Range;

/// A strip code: its method, the order of its pixels and the bits of an index.
pub struct Code {
    pub method: Method,
    pub vertical: bool,
    pub bits: u32,
}

pub enum Method {
    Raw,
    First,
    Second,
}

/// "Codes", all hexadecimal.
pub fn code(byte: u8) -> Option<Code> {
    use Method::*;
    let (method, vertical, subtracted) = match byte {
        0x01 => (Raw, false, 0),
        0x0E..=0x12 => (First, true, 0x0A),
        0x18..=0x1C => (First, false, 0x14),
        0x22..=0x26 => (First, true, 0x1E),
        0x2C..=0x30 => (First, false, 0x28),
        0x40..=0x44 => (Second, false, 0x3C),
        0x54..=0x58 => (Second, false, 0x50),
        0x68..=0x6C => (Second, false, 0x64),
        0x7C..=0x80 => (Second, false, 0x78),
        _ => return None,
    };
    Some(Code { method, vertical, bits: (byte - subtracted) as u32 })
}

/// The codes that are called transparent.
pub fn is_transparent(code: u8) -> bool {
    matches!(code, 0x22..=0x26 | 0x2C..=0x30 | 0x54..=0x58 | 0x68..=0x6C)
}

/// A body being read: "bits read from bit 0 up; an n-bit number comes low bit first"; 7 where they run out. It knows what is being read, so that it can
/// say where.
struct Reader<'a> {
    body: &'a [u8],
    /// The next bit.
    at: usize,
    part: Part,
    operation: usize,
    begins: usize,
    done: usize,
    gives: usize,
}

impl Reader<'_> {
    /// A part that is whole bytes: so many of them.
    fn bytes(&mut self, part: Part, count: usize) -> Result<&[u8], u32> {
        (self.part, self.begins) = (part, self.at);
        let bytes = self.body.get(self.at / 8..self.at / 8 + count).ok_or(CUT)?;
        self.at += 8 * count;
        Ok(bytes)
    }

    /// An operation, with so many pixels before it.
    fn begin(&mut self, done: usize) {
        (self.part, self.begins, self.done, self.gives) = (Part::Kind, self.at, done, 1);
        self.operation += 1;
    }

    fn bit(&mut self) -> Result<u8, u32> {
        let byte = self.body.get(self.at / 8).ok_or(CUT)?;
        self.at += 1;
        Ok(byte >> ((self.at - 1) % 8) & 1)
    }

    fn number(&mut self, part: Part, bits: u32) -> Result<u8, u32> {
        self.part = part;
        let mut number = 0;
        for i in 0..bits {
            number |= self.bit()? << i;
        }
        Ok(number)
    }

    /// Where it stands, for a refusal in a strip of `all` pixels.
    fn stop(&self, number: u32, all: usize) -> Stop {
        let Reader { part, operation, begins, gives, .. } = *self;
        // Pixel bytes that are there come before those that are missing.
        let done = if matches!(part, Part::Raw) { self.body.len() - 1 } else { self.done };
        let at = if number == CUT { 8 * self.body.len() } else { begins };
        Stop { number, part, operation, begins, at, done, all, gives }
    }
}

/// First method: `count` pixels of what follows the code.
fn first_method(reader: &mut Reader, width: u32, count: usize) -> Result<Vec<u8>, u32> {
    let (mut colour, mut step) = (reader.bytes(Part::Colour, 1)?[0], 1u8);
    let mut pixels = vec![colour];
    while pixels.len() < count {
        reader.begin(pixels.len());
        if reader.bit()? == 1 {
            if reader.bit()? == 0 {
                colour = reader.number(Part::Index, width)?;
                step = 1;
            } else {
                if reader.number(Part::Step, 1)? == 1 {
                    step = step.wrapping_neg();
                }
                colour = colour.wrapping_sub(step);
            }
        }
        pixels.push(colour);
    }
    Ok(pixels)
}

/// "a second-method run of n gives n pixels, with 0 meaning 256".
fn run_of(n: u8) -> usize {
    match n {
        0 => 256,
        n => n as usize,
    }
}

/// Second method. "The number's bits are looked for (7) before its run is measured (8)."
fn second_method(reader: &mut Reader, width: u32, count: usize) -> Result<Vec<u8>, u32> {
    let mut colour = reader.bytes(Part::Colour, 1)?[0];
    let mut pixels = vec![colour];
    while pixels.len() < count {
        reader.begin(pixels.len());
        if reader.bit()? == 1 {
            if reader.bit()? == 0 {
                colour = reader.number(Part::Index, width)?;
            } else {
                match reader.number(Part::Change, 3)? {
                    4 => reader.gives = run_of(reader.number(Part::Run, 8)?),
                    d => colour = colour.wrapping_add(d).wrapping_sub(4),
                }
            }
        }
        if pixels.len() + reader.gives > count {
            return Err(PAST);
        }
        pixels.extend(vec![colour; reader.gives]);
    }
    Ok(pixels)
}

/// The pixels in the order in which the code gives them.
fn in_order(reader: &mut Reader, h: usize) -> Result<Vec<u8>, u32> {
    let byte = reader.bytes(Part::Code, 1)?[0];
    let code = code(byte).ok_or(CODE)?;
    let pixels = match code.method {
        // "there is no colour byte: … the 8H pixels follow the code directly".
        Method::Raw => reader.bytes(Part::Raw, 8 * h)?.to_vec(),
        Method::First => first_method(reader, code.bits, 8 * h)?,
        Method::Second => second_method(reader, code.bits, 8 * h)?,
    };
    if code.vertical {
        // "Pixel i lies at … vertical at column i / H, row i mod H."
        return Ok((0..8 * h).map(|place| pixels[place % 8 * h + place / 8]).collect());
    }
    Ok(pixels)
}

/// A strip's pixels by rows, pixel (column, row) at 8 × row + column, or where they stop.
pub fn read(body: &[u8], h: usize) -> Result<Vec<u8>, Stop> {
    let mut reader = Reader { body, at: 0, part: Part::Code, operation: 0, begins: 0, done: 0, gives: 0 };
    in_order(&mut reader, h).map_err(|number| reader.stop(number, 8 * h))
}

/// The same with the number alone.
pub fn pixels(body: &[u8], h: usize) -> Result<Vec<u8>, u32> {
    read(body, h).map_err(|stop| stop.number)
}

/// The strips of an SMAP block, its table first, then each from the left: its code and its pixels.
pub fn strips(room: &[u8], smap: Block, strips: usize, h: usize) -> Result<Vec<(u8, Vec<u8>)>, Fault> {
    let read = |(strip, body): (usize, Option<Range<usize>>)| {
        let Range { start, end } = body.expect("every SMAP strip has a body");
        let pixels = read(&room[start..end], h).map_err(|stop| Fault::of(smap, Cause::Strip { strip, start, end, stop }))?;
        Ok((room[start], pixels))
    };
    table::bodies(room, smap, strips, 4)?.into_iter().enumerate().map(read).collect()
}

/// A whole SMAP block as W × H pixels.
pub fn picture(room: &[u8], smap: Block, w: usize, h: usize) -> Result<Vec<u8>, Fault> {
    let mut picture = vec![0; w * h];
    for (s, (_, pixels)) in strips(room, smap, w / 8, h)?.into_iter().enumerate() {
        for (i, pixel) in pixels.into_iter().enumerate() {
            picture[i / 8 * w + 8 * s + i % 8] = pixel;
        }
    }
    Ok(picture)
}

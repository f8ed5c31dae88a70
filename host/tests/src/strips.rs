//! Strip tables and bodies: operations drawn at random and encoded, so that they decode; or spoilt at one place.

use crate::rng::Rng;
use common::bits::Bits;

/// A block of strips: `width` is the bytes of an offset, 4 in SMAP, 2 in ZP; a strip without body has offset 0.
#[derive(Clone)]
pub struct Strips {
    pub width: usize,
    pub h: usize,
    pub bodies: Vec<Option<Vec<u8>>>,
    /// Bytes between table and first body.
    pub gap: Vec<u8>,
    /// Offsets to be written instead of the true ones.
    pub wrong: Vec<(usize, usize)>,
    /// What is left of the payload.
    pub cut: Option<usize>,
}

impl Strips {
    /// The bodies one behind the other, right behind the table.
    pub fn tight(width: usize, h: usize, bodies: Vec<Option<Vec<u8>>>) -> Strips {
        Strips { width, h, bodies, gap: vec![], wrong: vec![], cut: None }
    }

    pub fn lowest(&self) -> usize {
        8 + self.width * self.bodies.len()
    }

    pub fn offsets(&self) -> Vec<usize> {
        let mut at = self.lowest() + self.gap.len();
        self.bodies.iter().map(|body| body.as_ref().map_or(0, |body| (at, at += body.len()).0)).collect()
    }

    pub fn payload(&self) -> Vec<u8> {
        let mut offsets = self.offsets();
        self.wrong.iter().for_each(|(strip, offset)| offsets[*strip] = *offset);
        let mut out: Vec<u8> = offsets.iter().flat_map(|offset| (*offset as u32).to_le_bytes()[..self.width].to_vec()).collect();
        out.extend(&self.gap);
        self.bodies.iter().flatten().for_each(|body| out.extend(body));
        out.truncate(self.cut.unwrap_or(out.len()));
        out
    }
}

/// How a body is spoilt.
#[derive(Clone, Copy, PartialEq)]
pub enum Fault {
    None,
    /// An operation passes the strip's end (second method and masks; elsewhere none).
    Overrun,
    /// No unused bytes, and the last ones are missing.
    Cut,
}

pub const STARTS: [u8; 8] = [0x0E, 0x18, 0x22, 0x2C, 0x40, 0x54, 0x68, 0x7C];

pub fn known(code: u8) -> bool {
    code == 1 || STARTS.iter().any(|start| (*start..start + 5).contains(&code))
}

pub fn is_second(code: u8) -> bool {
    known(code) && code >= 0x40
}

pub fn any_code(r: &mut Rng) -> u8 {
    if r.once_in(12) {
        1
    } else {
        r.pick(&STARTS) + r.below(5) as u8
    }
}

fn finish(r: &mut Rng, mut body: Vec<u8>, fault: Fault) -> Vec<u8> {
    if fault == Fault::Cut {
        let most = body.len() - 1;
        let cut = if r.once_in(2) { 1 } else { r.range(1, most.max(1)) };
        body.truncate((body.len() - cut.min(most)).max(1));
    } else if r.once_in(3) {
        let unused = r.below(5);
        body.extend(r.bytes(unused));
    }
    body
}

/// What an operation does. A step is a walk of the first method (`110`, `111`) and a change of the second (d ≠ 4).
#[derive(Clone, Copy, Debug, PartialEq, Eq, PartialOrd, Ord)]
pub enum Operation {
    Keep,
    Index,
    Step,
    Run,
}

/// The shares of keeps, new indexes, steps and runs. The first method has steps for runs.
const SHARES: [[usize; 4]; 6] = [[1, 1, 1, 1], [20, 1, 1, 1], [1, 20, 1, 0], [1, 1, 20, 0], [0, 0, 1, 0], [2, 1, 2, 12]];

/// The bits of an index under `code`.
pub fn index_bits(code: u8) -> usize {
    let start = STARTS.into_iter().find(|start| (*start..start + 5).contains(&code)).expect("a code with operations");
    (code - start) as usize + 4
}

/// One operation under `code`, where `left` pixels are to be made: how many of them it makes.
pub fn put_operation(r: &mut Rng, bits: &mut Bits, code: u8, operation: Operation, left: usize) -> usize {
    let mut pixels = 1;
    match (operation, is_second(code)) {
        (Operation::Keep, _) => bits.put(0, 1),
        (Operation::Index, _) => {
            bits.put(0b01, 2);
            bits.put(r.byte() as usize, index_bits(code));
        }
        (Operation::Step, false) => bits.put(if r.once_in(3) { 0b111 } else { 0b011 }, 3),
        (Operation::Step, true) => {
            let d = r.pick(&[0, 1, 2, 3, 5, 6, 7]);
            bits.put(d << 2 | 0b11, 5);
        }
        (Operation::Run, _) => {
            let most = left.min(256);
            pixels = if r.once_in(3) { most } else { r.range(1, most) };
            bits.put_run(pixels);
        }
    }
    pixels
}

/// Operations under `code` that make the pixels after the first one, exactly until there are `count`: the bit at which each begins, and what it is.
pub fn put_operations(r: &mut Rng, bits: &mut Bits, code: u8, count: usize) -> Vec<(usize, Operation)> {
    use Operation::*;
    let kinds = [Keep, Index, Step, if is_second(code) { Run } else { Step }];
    let (share, mut made, mut put) = (r.pick(&SHARES), 1, vec![]);
    while made < count {
        let operation = kinds[r.share(&share)];
        put.push((bits.used, operation));
        made += put_operation(r, bits, code, operation, count - made);
    }
    put
}

/// A body that ends with a run past the strip's end, where at most 255 pixels are left.
fn overrun(r: &mut Rng, mut bits: Bits, left: usize) -> Vec<u8> {
    bits.put_run(if r.once_in(2) { left + 1 } else { r.range(left + 1, 256) });
    if r.once_in(4) {
        // The number's own bits are missing: then it is 7, not 8.
        bits.bytes.pop();
        return bits.bytes;
    }
    let unused = r.below(4);
    [bits.bytes, r.bytes(unused)].concat()
}

/// A body of pixels under `code` for 8 × h pixels.
pub fn pixel_body(r: &mut Rng, code: u8, h: usize, fault: Fault) -> Vec<u8> {
    if code == 1 {
        let pixels = r.bytes(8 * h);
        return finish(r, [vec![1], pixels].concat(), fault);
    }
    let mut bits = Bits::after(vec![code, r.byte()]);
    if fault == Fault::Overrun && is_second(code) {
        let made = r.range((8 * h).saturating_sub(255).max(1), 8 * h - 1);
        put_operations(r, &mut bits, code, made);
        return overrun(r, bits, 8 * h - made);
    }
    put_operations(r, &mut bits, code, 8 * h);
    // The last byte's unused bits may hold anything.
    if !bits.used.is_multiple_of(8) && r.once_in(2) {
        let free = 8 - bits.used % 8;
        let number = r.byte() as usize;
        bits.put(number, free);
    }
    finish(r, bits.bytes, fault)
}

/// A body of mask rows.
pub fn mask_body(r: &mut Rng, h: usize, fault: Fault) -> Vec<u8> {
    let (mut body, mut made) = (vec![], 0);
    let spoil_at = r.below(h);
    while made < h {
        let left = h - made;
        if fault == Fault::Overrun && left < 127 && (made >= spoil_at || left < 4) {
            let count = if r.once_in(2) { left + 1 } else { r.range(left + 1, 127) };
            let run = r.once_in(2);
            body.push(count as u8 + if run { 0x80 } else { 0 });
            let data = r.below(count + 1);
            body.extend(r.bytes(data));
            return body;
        }
        let count = r.range(1, left.min(127));
        let count = if r.once_in(3) { left.min(127) } else { count };
        match r.below(10) {
            0 => body.push(0),
            1 => body.extend([0x80, r.byte()]),
            2..=5 => {
                body.push(count as u8);
                body.extend(r.bytes(count));
                made += count;
            }
            _ => {
                body.extend([0x80 + count as u8, r.pick(&[0, 0xFF, 1, 0x80, 0x3C])]);
                made += count;
            }
        }
    }
    if fault == Fault::Cut && r.once_in(4) {
        // A zero run without its data byte.
        return [vec![0; r.below(2)], vec![0x80]].concat();
    }
    finish(r, body, fault)
}

pub fn smap(r: &mut Rng, w: usize, h: usize) -> Strips {
    let one = r.once_in(3).then(|| any_code(r));
    let codes: Vec<u8> = (0..w / 8).map(|_| one.unwrap_or_else(|| any_code(r))).collect();
    let bodies = codes.into_iter().map(|code| Some(pixel_body(r, code, h, Fault::None))).collect();
    let gap = if r.once_in(5) { r.below(9) } else { 0 };
    Strips { width: 4, h, bodies, gap: r.bytes(gap), wrong: vec![], cut: None }
}

pub fn plane(r: &mut Rng, w: usize, h: usize) -> Strips {
    let zeros = r.pick(&[1, 2, 4, 100]);
    let mut bodies: Vec<Option<Vec<u8>>> = (0..w / 8).map(|_| (!r.once_in(zeros)).then(|| mask_body(r, h, Fault::None))).collect();
    let gap = if r.once_in(5) { r.below(9) } else { 0 };
    let gap = r.bytes(gap);
    if r.once_in(60) {
        // A block over 65,535 bytes: the last body has a long unused end.
        if let Some(last) = bodies.iter_mut().rev().find_map(|body| body.as_mut()) {
            last.extend(vec![r.byte(); 66_000]);
        }
    }
    Strips { width: 2, h, bodies, gap, wrong: vec![], cut: None }
}

#[cfg(test)]
mod tests {
    use super::*;
    use reference::{mask, strip};

    /// What the scenes count on: a body without a fault is accepted, a cut one is refused as cut, and one with a run too long for that.
    #[test]
    fn bodies_are_right_or_spoilt() {
        let (r, mut overruns) = (&mut Rng::new(1), [0; 9]);
        for _ in 0..4000 {
            let (code, h) = (any_code(r), r.range(1, 200));
            assert_eq!(strip::pixels(&pixel_body(r, code, h, Fault::None), h).map(|pixels| pixels.len()), Ok(8 * h));
            assert_eq!(strip::pixels(&pixel_body(r, code, h, Fault::Cut), h), Err(7));
            if is_second(code) {
                overruns[strip::pixels(&pixel_body(r, code, h, Fault::Overrun), h).expect_err("a run past the end") as usize] += 1;
            }
            assert_eq!(mask::rows(&mask_body(r, h, Fault::None), h).map(|rows| rows.len()), Ok(h));
        }
        assert!(overruns[7] > 300 && overruns[8] > 900 && overruns[..7] == [0; 7], "{overruns:?}");
    }
}

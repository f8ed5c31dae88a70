//! One unchecked decode pass: a room's background and planes by document 01's operations, into the same surfaces as the load's. It trusts
//! the data and tests nothing: not a size, not an offset, not where bits or pixels end. So it's the least that a load's decoding costs
//! in plain code. Only for rooms that the library has accepted.

use crate::room::Room;

/// A strip's pixels in coding order; behind the longest strip there is room for what the last group of operations gives past its end.
type Scratch = [u8; 1600 + 4 * 256];

/// Bits from bit 0 up: those of `word` first, then the bytes at `at`.
struct Bits {
    at: *const u8,
    word: u64,
    held: u32,
}

impl Bits {
    /// At least 56 bits are held afterwards. Reads up to 8 bytes from `at`.
    #[inline(always)]
    unsafe fn fill(&mut self) {
        self.word |= u64::from_le(self.at.cast::<u64>().read_unaligned()) << self.held;
        self.at = self.at.add(((63 - self.held) >> 3) as usize);
        self.held |= 56;
    }

    #[inline(always)]
    fn take(&mut self, bits: u32) -> u8 {
        let number = self.word & ((1 << bits) - 1);
        self.word >>= bits;
        self.held -= bits;
        number as u8
    }
}

/// One operation of the first method: colour and step after it.
#[inline(always)]
fn first(bits: &mut Bits, width: u32, colour: u8, step: u8) -> (u8, u8) {
    if bits.take(1) == 0 {
        return (colour, step);
    }
    if bits.take(1) == 0 {
        return (bits.take(width), 1);
    }
    let step = if bits.take(1) == 1 { step.wrapping_neg() } else { step };
    (colour.wrapping_sub(step), step)
}

/// One operation of the second method: the colour after it, and how many pixels more than one it gives.
#[inline(always)]
fn second(bits: &mut Bits, width: u32, colour: u8) -> (u8, usize) {
    if bits.take(1) == 0 {
        return (colour, 0);
    }
    if bits.take(1) == 0 {
        return (bits.take(width), 0);
    }
    match bits.take(3) {
        // A number n gives n pixels, 0 gives 256: one less than that, as a byte, is right for both.
        4 => (colour, bits.take(8).wrapping_sub(1) as usize),
        d => (colour.wrapping_add(d).wrapping_sub(4), 0),
    }
}

/// Five operations, of at most 10 bits, each time that bits are fetched.
unsafe fn first_method(bits: &mut Bits, width: u32, count: usize, out: *mut u8) {
    let (mut colour, mut step, mut i) = (*out, 1, 1);
    while i < count {
        bits.fill();
        for _ in 0..5 {
            (colour, step) = first(bits, width, colour, step);
            *out.add(i) = colour;
            i += 1;
        }
    }
}

/// Four operations, of at most 13 bits, each time that bits are fetched.
unsafe fn second_method(bits: &mut Bits, width: u32, count: usize, out: *mut u8) {
    let (mut colour, mut i) = (*out, 1);
    while i < count {
        bits.fill();
        for _ in 0..4 {
            let more;
            (colour, more) = second(bits, width, colour);
            if more > 0 {
                out.add(i).write_bytes(colour, more);
                i += more;
            }
            *out.add(i) = colour;
            i += 1;
        }
    }
}

/// Eight bytes a row.
unsafe fn place_rows(from: *const u8, h: usize, to: *mut u8, w: usize) {
    for y in 0..h {
        to.add(y * w).cast::<u64>().write_unaligned(from.add(8 * y).cast::<u64>().read_unaligned());
    }
}

unsafe fn place_columns(from: *const u8, h: usize, to: *mut u8, w: usize) {
    for y in 0..h {
        for x in 0..8 {
            *to.add(y * w + x) = *from.add(x * h + y);
        }
    }
}

/// One strip; `to` is its upper left pixel.
unsafe fn strip(body: *const u8, h: usize, scratch: &mut Scratch, to: *mut u8, w: usize) {
    let (code, out) = (*body, scratch.as_mut_ptr());
    *out = *body.add(1);
    let mut bits = Bits { at: body.add(2), word: 0, held: 0 };
    match code {
        0x01 => place_rows(body.add(1), h, to, w),
        0x0E..=0x12 => {
            first_method(&mut bits, code as u32 - 0x0A, 8 * h, out);
            place_columns(out, h, to, w);
        }
        0x18..=0x1C => {
            first_method(&mut bits, code as u32 - 0x14, 8 * h, out);
            place_rows(out, h, to, w);
        }
        _ => {
            second_method(&mut bits, code as u32 - 0x3C, 8 * h, out);
            place_rows(out, h, to, w);
        }
    }
}

/// One strip of mask rows, `strips` bytes apart.
unsafe fn mask(mut body: *const u8, h: usize, mut to: *mut u8, strips: usize) {
    let mut y = 0;
    while y < h {
        let count = (*body & 0x7F) as usize;
        let (from, step, data) = if *body >= 0x80 { (body.add(1), 0, 1) } else { (body.add(1), 1, count) };
        for i in 0..count {
            *to = *from.add(step * i);
            to = to.add(strips);
        }
        body = from.add(data);
        y += count;
    }
}

unsafe fn plane(block: *const u8, strips: usize, h: usize, to: *mut u8) {
    for s in 0..strips {
        let offset = u16::from_le(block.add(8 + 2 * s).cast::<u16>().read_unaligned()) as usize;
        if offset == 0 {
            (0..h).for_each(|y| *to.add(y * strips + s) = 0);
        } else {
            mask(block.add(offset), h, to.add(s), strips);
        }
    }
}

/// The first child with this tag of the block that starts at `parent`.
pub unsafe fn child(parent: *const u8, tag: &[u8; 4]) -> *const u8 {
    let mut at = parent.add(8);
    while at.cast::<[u8; 4]>().read() != *tag {
        at = at.add(u32::from_be(at.add(4).cast::<u32>().read_unaligned()) as usize);
    }
    at
}

/// The whole pass. The room must be one of `Spec::make`: it has all its planes, and spare bytes behind it.
#[inline(never)]
pub fn pass(room: &Room, pixels: &mut [u8], masks: &mut [u8]) {
    let (w, h, strips) = (room.spec.w, room.spec.h, room.spec.w / 8);
    let mut scratch = [0; 1600 + 4 * 256];
    unsafe {
        let image = child(child(room.bytes().as_ptr(), b"RMIM"), b"IM00");
        let smap = child(image, b"SMAP");
        for s in 0..strips {
            let offset = u32::from_le(smap.add(8 + 4 * s).cast::<u32>().read_unaligned()) as usize;
            strip(smap.add(offset), h, &mut scratch, pixels.as_mut_ptr().add(8 * s), w);
        }
        for k in 0..room.spec.n {
            let block = child(image, &[b'Z', b'P', b'0', b'1' + k as u8]);
            plane(block, strips, h, masks.as_mut_ptr().add(k * strips * h));
        }
    }
}

#[cfg(test)]
mod tests {
    use super::*;
    use crate::calls::{turn, Side, Stage, Turn};
    use crate::loads::spec;
    use crate::partners::plain;
    use crate::picture::PICTURES;
    use crate::room::METHODS;

    /// Under every method, in strips that hold runs of 256 pixels too.
    #[test]
    fn both_passes_load_as_the_reference() {
        for (picture, method) in PICTURES.iter().flat_map(|picture| METHODS.map(|method| (*picture, method))) {
            let room = &spec((64, 80), 2, picture, method).make();
            let mut wanted = Stage::new(room);
            turn(Side::Reference, Turn::Load, room, &mut wanted);
            for pass in [pass, plain] {
                let mut stage = Stage::new(room);
                stage.pixels.fill(77);
                stage.masks.fill(77);
                pass(room, &mut stage.pixels, &mut stage.masks);
                assert!(stage == wanted, "{}, {}", picture.name(), method.name());
            }
        }
    }
}

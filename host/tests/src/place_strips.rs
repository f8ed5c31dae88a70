//! The places that the reference tells of a bad strip, held against its bytes and against the library: the strip's body in a room of its own is refused
//! with the same number, and the body up to the operation that is told, with other operations behind it, gives as many pixels or rows as are told.

use crate::places::{law, le, Law};
use crate::rooms;
use crate::strips::{index_bits, is_second, known, Strips};
use crate::tree::leaf;
use common::bits::Bits;
use common::calls::kg_load;
use reference::fault::{Fault, Part, Stop};
use std::ops::Range;

/// A flat strip of h rows.
fn flat(h: usize) -> Vec<u8> {
    [vec![0x1C, 5], vec![0; h]].concat()
}

/// A strip alone, as a room of 8 by h: of pixels, or of masks beside a flat one. The library's number, and the pixels and masks.
fn loaded(body: &[u8], mask: bool, h: usize) -> (u32, Vec<u8>) {
    let strips = |tag, width, body: Vec<u8>| leaf(tag, Strips::tight(width, h, vec![Some(body)]).payload());
    let pixels = if mask { flat(h) } else { body.to_vec() };
    let mut image = vec![strips(b"SMAP", 4, pixels)];
    image.extend(mask.then(|| strips(b"ZP01", 2, body.to_vec())));
    let room = rooms::least_room(8, h, 1, image).write();
    let (mut session, mut out) = ([0u8; 450], vec![0u8; 9 * h]);
    let (pixels, masks) = out.split_at_mut(8 * h);
    let number =
        unsafe { kg_load(room.as_ptr(), room.len(), session.as_mut_ptr(), 450, pixels.as_mut_ptr(), 8 * h, masks.as_mut_ptr(), h) };
    (number, out)
}

/// The bit of a body; 0 behind it, where a place that is told wrong may lead.
fn bit(body: &[u8], at: usize) -> usize {
    body.get(at / 8).map_or(0, |byte| (byte >> (at % 8) & 1) as usize)
}

fn bits(body: &[u8], at: usize, count: usize) -> usize {
    (0..count).map(|i| bit(body, at + i) << i).sum()
}

/// How long the operation at a bit is, in bits; its bits are there.
fn length(body: &[u8], at: usize) -> usize {
    match (bit(body, at), is_second(body[0])) {
        (0, _) => 1,
        _ if bit(body, at + 1) == 0 => 2 + index_bits(body[0]),
        (_, false) => 3,
        _ if bits(body, at + 2, 3) == 4 => 13,
        _ => 5,
    }
}

/// The operations of a mask up to a byte, or of pixels up to a bit: how many there are, if one begins there.
fn operations(body: &[u8], stop: &Stop, mask: bool) -> Option<usize> {
    let (mut at, mut count) = (if mask { 0 } else { 16 }, 0);
    while at < stop.begins {
        at += match *body.get(at / 8)? {
            _ if !mask => length(body, at),
            byte if byte < 0x80 => 8 + 8 * byte as usize,
            _ => 16,
        };
        count += 1;
    }
    (at == stop.begins).then_some(count)
}

/// The body up to the operation, then a new index and keeps, more than the strip has pixels.
fn with_index(body: &[u8], stop: &Stop, index: usize) -> Vec<u8> {
    let mut made = Bits { bytes: body[..stop.begins.div_ceil(8)].to_vec(), used: stop.begins };
    if !stop.begins.is_multiple_of(8) {
        *made.bytes.last_mut().expect("a byte") &= (1 << (stop.begins % 8)) - 1;
    }
    made.put(0b01, 2);
    made.put(index, index_bits(body[0]));
    [made.bytes, vec![0; stop.all / 8]].concat()
}

/// The rows up to the operation, then copies of one row: so many that the strip is full.
fn with_rows(body: &[u8], stop: &Stop, row: u8) -> Vec<u8> {
    let (mut made, mut left) = (body[..stop.begins / 8].to_vec(), stop.all - stop.done);
    while left > 0 {
        let count = left.min(127);
        made.extend([0x80 + count as u8, row]);
        left -= count;
    }
    made
}

/// What comes before the operation is right and gives as many pixels or rows as are told: those behind it, and no others, follow what is put there.
fn reached(body: &[u8], stop: &Stop, mask: bool, h: usize) -> Law {
    let put = |low: bool| match mask {
        true => with_rows(body, stop, if low { 0 } else { 0xFF }),
        false => with_index(body, stop, if low { 0 } else { (1 << index_bits(body[0])) - 1 }),
    };
    let ((low, one), (high, other)) = (loaded(&put(true), mask, h), loaded(&put(false), mask, h));
    law((low, high) == (0, 0), "what comes before the operation is wrong")?;
    let differ = one.iter().zip(&other).filter(|(one, other)| one != other).count();
    law(differ == stop.all - stop.done, "another pixel or row is reached")
}

/// The bits that are there of an operation that is cut, and what they say.
fn cut(body: &[u8], stop: &Stop) -> Law {
    let there = stop.at - stop.begins;
    let starts = |first: usize| there >= 2 && bits(body, stop.begins, 2) == first;
    let holds = match stop.part {
        Part::Kind => there == 0 || (there == 1 && bit(body, stop.begins) == 1),
        Part::Index => starts(0b01) && there < 2 + index_bits(body[0]),
        Part::Step => !is_second(body[0]) && starts(0b11) && there == 2,
        Part::Change => is_second(body[0]) && starts(0b11) && there < 5,
        Part::Run => is_second(body[0]) && starts(0b11) && (5..13).contains(&there) && bits(body, stop.begins + 2, 3) == 4,
        _ => false,
    };
    law(holds, "the operation is cut otherwise")
}

/// A strip of pixels that stops inside an operation.
fn pixels(body: &[u8], stop: &Stop) -> Law {
    if stop.number == 7 {
        return cut(body, stop);
    }
    law(stop.part == Part::Run && length(body, stop.begins) == 13, "no run begins there")?;
    let number = bits(body, stop.begins + 5, 8);
    let run = if number == 0 { 256 } else { number };
    law(stop.gives == run && stop.done + run > stop.all, "the run doesn't pass the end")
}

/// A strip of masks.
fn masks(body: &[u8], stop: &Stop) -> Law {
    let Some(byte) = body.get(stop.begins / 8) else { return law(stop.part == Part::Operation && stop.number == 7, "no operation byte") };
    let (literal, count) = (*byte < 0x80, *byte as usize % 128);
    let data = if literal { count } else { 1 };
    law(stop.part == if literal { Part::Literal } else { Part::Copies } && stop.gives == count, "another operation begins there")?;
    match stop.number {
        8 => law(stop.done + count > stop.all, "the rows don't pass the end"),
        _ => law(stop.done + count <= stop.all && stop.begins / 8 + 1 + data > body.len(), "no byte is missing"),
    }
}

/// What stands before the operations: the code, the first colour, the pixels of code 01.
fn before_operations(body: &[u8], stop: &Stop) -> Law {
    let holds = match stop.part {
        Part::Code => stop.number == 6 && !known(body[0]),
        Part::Colour => stop.number == 7 && known(body[0]) && body.len() == 1,
        Part::Raw => stop.number == 7 && body[0] == 1 && body.len() == 1 + stop.done && stop.done < stop.all,
        _ => false,
    };
    law(holds, "there are operations")
}

/// The body is the one that the table gives for the strip, one of so many.
fn in_table(room: &[u8], fault: &Fault, (strip, strips): (usize, usize), body: &Range<usize>, width: usize) -> Law {
    let offset = |s: usize| le(room, fault.at + 8 + width * s, width);
    let next = (strip + 1..strips).map(offset).find(|next| *next > 0).unwrap_or(fault.size);
    law(strip < strips && body.start == fault.at + offset(strip), "another body is the strip's")?;
    law(body.end == fault.at + next, "the body ends elsewhere")
}

/// The strip to the left is right: where a strip is refused, it is the leftmost.
fn leftmost(room: &[u8], fault: &Fault, strip: usize, h: usize) -> Law {
    let Some(left) = strip.checked_sub(1) else { return Ok(()) };
    let offset = |s: usize| fault.at + le(room, fault.at + 8 + 4 * s, 4);
    law(loaded(&room[offset(left)..offset(strip)], false, h).0 == 0, "a strip to the left is wrong too")
}

/// Every law of a strip, one of so many of h rows, that is refused.
pub fn holds(room: &[u8], fault: &Fault, strip: (usize, usize), body: Range<usize>, stop: &Stop, h: usize) -> Law {
    let mask = matches!(stop.part, Part::Operation | Part::Literal | Part::Copies);
    law(room[fault.at..].starts_with(if mask { b"ZP0" } else { b"SMA" }), "a strip of another block")?;
    in_table(room, fault, strip, &body, if mask { 2 } else { 4 })?;
    law(stop.all == if mask { h } else { 8 * h }, "another height")?;
    let bytes = &room[body];
    law(loaded(bytes, mask, h).0 == stop.number, "the library reads the body otherwise")?;
    law(stop.at == if stop.number == 7 { 8 * bytes.len() } else { stop.begins }, "the place is another one")?;
    if !mask {
        leftmost(room, fault, strip.0, h)?;
    }
    if stop.operation == 0 {
        return before_operations(bytes, stop);
    }
    law(stop.begins <= 8 * bytes.len() && stop.done < stop.all, "an operation behind the strip is told")?;
    law(operations(bytes, stop, mask) == Some(stop.operation - 1), "another operation is told")?;
    if mask {
        masks(bytes, stop)?;
    } else {
        pixels(bytes, stop)?;
    }
    reached(bytes, stop, mask, h)
}

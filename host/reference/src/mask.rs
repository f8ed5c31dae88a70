//! Strips of masks (document 01, "Strips of masks (ZP)"), refusals 5, 7 and 8.

use crate::block::Block;
use crate::fault::{Cause, Fault, Part, Stop};
use crate::{table, CUT, PAST};

/// One strip's rows, or where they stop. "Passing H is 8, tested before missing bytes, 7."
pub fn read(body: &[u8], h: usize) -> Result<Vec<u8>, Stop> {
    let (mut rows, mut at, mut operation) = (Vec::new(), 0, 0);
    while rows.len() < h {
        operation += 1;
        let place = |number: u32| if number == CUT { 8 * body.len() } else { 8 * at };
        let stop =
            |number, part, gives| Stop { number, part, operation, begins: 8 * at, at: place(number), done: rows.len(), all: h, gives };
        let byte = *body.get(at).ok_or_else(|| stop(CUT, Part::Operation, 0))?;
        let count = (byte % 0x80) as usize;
        let (part, data) = if byte < 0x80 { (Part::Literal, count) } else { (Part::Copies, 1) };
        if rows.len() + count > h {
            return Err(stop(PAST, part, count));
        }
        let data = body.get(at + 1..at + 1 + data).ok_or_else(|| stop(CUT, part, count))?;
        match part {
            Part::Literal => rows.extend(data),
            _ => rows.extend(vec![data[0]; count]),
        }
        at += 1 + data.len();
    }
    Ok(rows)
}

/// The same with the number alone.
pub fn rows(body: &[u8], h: usize) -> Result<Vec<u8>, u32> {
    read(body, h).map_err(|stop| stop.number)
}

/// A whole ZP block as one plane: strip s, row y at y × S + s. "0 means all rows zero, no body."
pub fn plane(room: &[u8], block: Block, strips: usize, h: usize) -> Result<Vec<u8>, Fault> {
    let mut plane = vec![0; strips * h];
    for (strip, body) in table::bodies(room, block, strips, 2)?.into_iter().enumerate() {
        let Some(body) = body else { continue };
        let fault = |stop| Fault::of(block, Cause::Strip { strip, start: body.start, end: body.end, stop });
        for (y, row) in read(&room[body.clone()], h).map_err(fault)?.into_iter().enumerate() {
            plane[y * strips + strip] = row;
        }
    }
    Ok(plane)
}

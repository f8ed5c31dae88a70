//! Strip tables (document 01, "Strips of pixels" and "Strips of masks"), refusal 5.

use crate::block::Block;
use crate::fault::{Cause, Fault, Wrong};
use crate::{u16_at, u32_at};
use std::ops::Range;

/// "Each is at least 8 + 4S, below the block size, and above the one before it": what is wrong with an offset, `before` being the strip and offset that
/// come before it.
fn wrong(offset: usize, lowest: usize, size: usize, before: Option<(usize, usize)>) -> Option<Wrong> {
    match before {
        _ if offset < lowest => Some(Wrong::Low { lowest }),
        _ if offset >= size => Some(Wrong::High),
        Some((strip, value)) if offset <= value => Some(Wrong::Falls { strip, value }),
        _ => None,
    }
}

/// The bodies of a block's strips, as bytes of the room, `None` where a ZP offset is 0. `width` is the bytes of an offset: 4 in SMAP, 2 in ZP. The
/// leftmost wrong offset is the fault.
pub fn bodies(room: &[u8], block: Block, strips: usize, width: usize) -> Result<Vec<Option<Range<usize>>>, Fault> {
    let (bytes, lowest) = (block.bytes(room), 8 + width * strips);
    if bytes.len() < lowest {
        return Err(Fault::of(block, Cause::Table { strips, width }));
    }
    let (mut found, mut before) = (vec![None; strips], None);
    for strip in 0..strips {
        let at = 8 + width * strip;
        let value = if width == 4 { u32_at(bytes, at) } else { u16_at(bytes, at) };
        if width == 2 && value == 0 {
            continue;
        }
        if let Some(wrong) = wrong(value, lowest, bytes.len(), before) {
            return Err(Fault::of(block, Cause::Offset { strip, width, at: block.start + at, value, wrong }));
        }
        // A body runs "to the next offset that isn't 0 or the block's end": so this one ends the one before it.
        if let Some((strip, offset)) = before {
            found[strip] = Some(block.start + offset..block.start + value);
        }
        before = Some((strip, value));
    }
    if let Some((strip, offset)) = before {
        found[strip] = Some(block.start + offset..block.end);
    }
    Ok(found)
}

//! Document 01, "Blocks", and refusal 1.

use crate::fault::{Cause, Fault};

/// A block inside the room's bytes, header included: `start..end`.
#[derive(Clone, Copy, Debug, PartialEq, Eq)]
pub struct Block {
    pub start: usize,
    pub end: usize,
}

impl Block {
    pub fn bytes<'a>(&self, room: &'a [u8]) -> &'a [u8] {
        &room[self.start..self.end]
    }

    pub fn payload<'a>(&self, room: &'a [u8]) -> &'a [u8] {
        &room[self.start + 8..self.end]
    }
}

/// "Room block up to 1,048,576 bytes."
pub const LONGEST: usize = 1_048_576;

/// "Containers are ROOM, RMIM, OBIM, OBCD and IM with two decimal digits."
fn is_container(tag: &[u8]) -> bool {
    [b"ROOM", b"RMIM", b"OBIM", b"OBCD"].iter().any(|known| *known == tag)
        || (tag.starts_with(b"IM") && tag[2].is_ascii_digit() && tag[3].is_ascii_digit())
}

/// "four tag bytes, a big-endian u32 size that counts its 8-byte header": the size that the header at `at` says, if the header ends by `end`.
fn size_at(room: &[u8], at: usize, end: usize) -> Option<usize> {
    let size = room[..end].get(at + 4..at + 8)?;
    Some(u32::from_be_bytes(size.try_into().unwrap()) as usize)
}

/// The block at `at` inside its parent, which it must not pass.
fn child_at(room: &[u8], at: usize, parent: Block) -> Result<Block, Fault> {
    let left = parent.end - at;
    match size_at(room, at, parent.end) {
        None => Err(Fault::of(parent, Cause::Stray { at, left })),
        Some(size) if size < 8 => Err(Fault { at, size, cause: Cause::Small }),
        Some(size) if size > left => Err(Fault { at, size, cause: Cause::Passes { left } }),
        Some(size) => Ok(Block { start: at, end: at + size }),
    }
}

/// A block and all below it, in reading order: no block at depth 7, and the children of a container fill it. `seen` is told each block.
pub(crate) fn walk(room: &[u8], block: Block, depth: usize, seen: &mut impl FnMut(usize, Block)) -> Result<(), Fault> {
    seen(depth, block);
    if depth == 7 {
        return Err(Fault::of(block, Cause::Deep));
    }
    if !is_container(&room[block.start..block.start + 4]) {
        return Ok(());
    }
    let mut at = block.start + 8;
    while at < block.end {
        let child = child_at(room, at, block)?;
        walk(room, child, depth + 1, seen)?;
        at = child.end;
    }
    Ok(())
}

/// The room as one ROOM block that fills it; what is in the block isn't looked at.
pub(crate) fn whole(room: &[u8]) -> Result<Block, Fault> {
    let size = size_at(room, 0, room.len()).ok_or(Fault { at: 0, size: room.len(), cause: Cause::Headless })?;
    let fault = |cause| Err(Fault { at: 0, size, cause });
    match size {
        _ if room.len() > LONGEST => fault(Cause::Long),
        _ if !room.starts_with(b"ROOM") => fault(Cause::Tag),
        0..8 => fault(Cause::Small),
        _ if size != room.len() => fault(Cause::Unequal),
        _ => Ok(Block { start: 0, end: size }),
    }
}

/// Refusal 1: the whole slice as one ROOM block, or what is wrong with it.
pub fn root(room: &[u8]) -> Result<Block, Fault> {
    let root = whole(room)?;
    walk(room, root, 1, &mut |_, _| ())?;
    Ok(root)
}

/// The direct children of `parent` with this tag, in order. The tree has passed `root`.
pub fn children(room: &[u8], parent: Block, tag: &[u8]) -> Vec<Block> {
    let (mut found, mut at) = (Vec::new(), parent.start + 8);
    while at < parent.end {
        let child = child_at(room, at, parent).expect("a tested tree");
        if room[at..].starts_with(tag) {
            found.push(child);
        }
        at = child.end;
    }
    found
}

/// "where one is looked for, the first".
pub fn first(room: &[u8], parent: Block, tag: &[u8]) -> Option<Block> {
    children(room, parent, tag).first().copied()
}

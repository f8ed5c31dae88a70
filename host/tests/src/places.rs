//! The places that the reference tells of a fault, held against the room's bytes: the block is one that its path leads to, and what is said of it is so.
//! Nothing here reads a room by the reference. Strips are held against the library too (place_strips.rs).

use crate::place_strips;
use reference::block;
use reference::fault::{Cause, Fault, Field, Wrong};
use reference::tree::{self, Entry};

/// A law that doesn't hold, by its name.
pub type Law = Result<(), &'static str>;

pub fn law(holds: bool, name: &'static str) -> Law {
    holds.then_some(()).ok_or(name)
}

/// A block that was come to by a path: where it begins, the size that its header says, its depth, and where its container ends.
#[derive(Clone, Copy)]
struct Found {
    at: usize,
    size: usize,
    depth: usize,
    end: usize,
}

fn be(room: &[u8], at: usize) -> Option<usize> {
    Some(u32::from_be_bytes(room.get(at..at + 4)?.try_into().ok()?) as usize)
}

/// A little-endian number of `width` bytes.
pub fn le(room: &[u8], at: usize, width: usize) -> usize {
    room[at..at + width].iter().rev().fold(0, |sum, byte| 256 * sum + *byte as usize)
}

/// The blocks from `at` on, as far as their sizes are right; a wrong one is the last.
fn blocks(room: &[u8], at: usize, end: usize, depth: usize) -> Vec<Found> {
    let (mut found, mut next) = (vec![], at);
    while let Some(size) = be(room, next + 4).filter(|_| next + 8 <= end) {
        found.push(Found { at: next, size, depth, end });
        if size < 8 || next + size > end {
            break;
        }
        next += size;
    }
    found
}

/// The next step of a path, which is four characters and perhaps a number in brackets: the tag, the number (1 without one) and the rest.
fn step(path: &str) -> Option<(&str, usize, &str)> {
    let (tag, rest) = path.split_at_checked(4)?;
    match rest.strip_prefix('[').and_then(|rest| rest.split_once(']')) {
        Some((number, rest)) => Some((tag, number.parse().ok()?, rest)),
        None => Some((tag, 1, rest)),
    }
}

/// The block that a path leads to.
fn follow(room: &[u8], path: &str) -> Option<Found> {
    let (mut level, mut rest) = (blocks(room, 0, room.len(), 1), path);
    loop {
        let (tag, number, behind) = step(rest)?;
        let found = *level.iter().filter(|block| tree::printable(&room[block.at..block.at + 4]) == tag).nth(number.checked_sub(1)?)?;
        match behind.strip_prefix('/') {
            Some(behind) => (level, rest) = (blocks(room, found.at + 8, (found.at + found.size).min(room.len()), found.depth + 1), behind),
            None => return behind.is_empty().then_some(found),
        }
    }
}

/// The needed blocks and the bytes of their fixed fields.
const FIELDS: [(&[u8; 4], usize); 8] =
    [(b"RMHD", 6), (b"RMIM", 0), (b"RMIH", 2), (b"IM00", 0), (b"SMAP", 0), (b"CDHD", 13), (b"IMHD", 16), (b"TRNS", 1)];

/// 2: the container has no such block, or the first of its tag is too short.
fn needed(room: &[u8], found: Found, fault: &Fault, path: &str) -> Law {
    match fault.cause {
        Cause::Missing { tag } => {
            law(FIELDS.iter().any(|(known, _)| **known == tag), "a block that no room needs")?;
            let kids = blocks(room, found.at + 8, found.at + found.size, found.depth + 1);
            law(kids.iter().all(|kid| room[kid.at..kid.at + 4] != tag), "the block is there")
        }
        Cause::Short { fields } => {
            law(FIELDS.iter().any(|(tag, known)| room[fault.at..].starts_with(*tag) && *known == fields), "other fixed fields")?;
            law(!path.ends_with(']') || path.ends_with("[1]"), "not the first of its tag")?;
            law(fault.size - 8 < fields, "long enough")
        }
        _ => Ok(()),
    }
}

/// 3
fn sized(room: &[u8], found: Found, field: Field, value: usize, at: usize) -> Law {
    let (offset, right) = match field {
        Field::Width => (8, (8..=1024).contains(&value) && value.is_multiple_of(8)),
        Field::Height => (10, (1..=200).contains(&value)),
        Field::Planes => (8, value < 5),
        Field::Objects => {
            let kids = blocks(room, 8, room.len(), 2);
            let count = kids.iter().filter(|kid| room[kid.at..].starts_with(b"OBCD")).count();
            return law(value == count && count > 128 && at == 0, "another object count");
        }
    };
    law(at == found.at + offset && le(room, at, 2) == value, "another number stands there")?;
    law(!right, "the number is right")
}

/// The size that the strips at the end of a path have: the room's or the image's.
fn size_of(room: &[u8], path: &str) -> Option<(usize, usize)> {
    let container = path.split('/').nth(1)?;
    let (header, at) = if container.starts_with("OBIM") { (format!("ROOM/{container}/IMHD"), 20) } else { ("ROOM/RMHD".into(), 8) };
    let header = follow(room, &header)?.at + at;
    Some((le(room, header, 2), le(room, header + 2, 2)))
}

/// 5: what is said of the offset is so, and those before it are right.
fn offset(room: &[u8], fault: &Fault, [strip, width, at, value]: [usize; 4], wrong: Wrong, strips: usize) -> Law {
    let (offset, lowest) = (|s: usize| le(room, fault.at + 8 + width * s, width), 8 + width * strips);
    law(strip < strips && at == fault.at + 8 + width * strip && offset(strip) == value, "another offset stands there")?;
    let before: Vec<(usize, usize)> = (0..strip).map(|s| (s, offset(s))).filter(|(_, offset)| width == 4 || *offset > 0).collect();
    law(before.windows(2).all(|pair| pair[0].1 < pair[1].1), "an offset before it falls")?;
    law(before.iter().all(|(_, offset)| *offset >= lowest && *offset < fault.size), "an offset before it is wrong")?;
    match wrong {
        Wrong::Low { lowest: told } => law(value < lowest && told == lowest, "it isn't low"),
        Wrong::High => law(value >= fault.size, "it isn't high"),
        Wrong::Falls { strip, value: other } => law(before.last() == Some(&(strip, other)) && value <= other, "it doesn't fall"),
    }
}

/// 5 to 8, in a block of strips.
fn in_strips(room: &[u8], fault: &Fault, path: &str) -> Law {
    let (width, height) = size_of(room, path).ok_or("no header says the strips' size")?;
    match fault.cause {
        Cause::Table { strips, width: bytes } => law(strips == width / 8 && fault.size < 8 + bytes * strips, "the table fits"),
        Cause::Offset { strip, width: bytes, at, value, wrong } => offset(room, fault, [strip, bytes, at, value], wrong, width / 8),
        Cause::Strip { strip, start, end, stop } => place_strips::holds(room, fault, (strip, width / 8), start..end, &stop, height),
        _ => Err("no fault of strips"),
    }
}

/// 1: what is said of the block is so.
fn walked(room: &[u8], found: Found, fault: &Fault) -> Law {
    let holds = match fault.cause {
        Cause::Long => room.len() > 1_048_576,
        Cause::Tag => found.at == 0 && !room.starts_with(b"ROOM"),
        Cause::Unequal => found.at == 0 && found.size != room.len(),
        Cause::Small => found.size < 8,
        Cause::Passes { left } => found.size > left && left == found.end - found.at,
        Cause::Deep => found.depth == 7,
        Cause::Stray { at, left } => left < 8 && at + left == found.at + found.size && at < room.len(),
        _ => true,
    };
    law(holds, "the block isn't wrong so")
}

/// The room with the fault of its tree mended where it is told to be, and nothing else changed.
fn mended(room: &[u8], fault: &Fault) -> Option<Vec<u8>> {
    let mut mended = room.to_vec();
    let (at, bytes): (usize, [u8; 4]) = match fault.cause {
        Cause::Tag => (0, *b"ROOM"),
        Cause::Unequal => (4, (room.len() as u32).to_be_bytes()),
        Cause::Passes { left } => (fault.at + 4, (left as u32).to_be_bytes()),
        Cause::Small => (fault.at + 4, 8u32.to_be_bytes()),
        _ => return None,
    };
    mended[at..at + 4].copy_from_slice(&bytes);
    Some(mended)
}

/// Mended there, the tree is right, or what is wrong next is another fault, there or further on.
fn moves_on(room: &[u8], fault: &Fault) -> Law {
    let Some(mended) = mended(room, fault) else { return Ok(()) };
    let next = block::root(&mended).err();
    law(next.is_none_or(|next| next != *fault && next.place() >= fault.place()), "mended there, it is wrong there still")
}

/// Every law of a fault. 4 has no place.
pub fn holds(room: &[u8], fault: &Fault) -> Law {
    let seen = tree::tree(room);
    let Some(i) = tree::find(&seen, fault) else { return law(room.len() < 8 && fault.cause == Cause::Headless, "it has no block") };
    let path = tree::path(&seen, i);
    let found = follow(room, &path).ok_or("the path leads nowhere")?;
    law((found.at, found.size, found.depth) == (fault.at, fault.size, seen[i].depth), "the path leads to another block")?;
    let place = fault.place().0;
    law(place >= fault.at && place <= (fault.at + fault.size).min(room.len()), "the place isn't in the block")?;
    match fault.cause {
        Cause::Missing { .. } | Cause::Short { .. } => needed(room, found, fault, &path),
        Cause::Size { field, value, at } => sized(room, found, field, value, at),
        Cause::Table { .. } | Cause::Offset { .. } | Cause::Strip { .. } => in_strips(room, fault, &path),
        _ => walked(room, found, fault).and_then(|()| moves_on(room, fault)),
    }
}

/// The tree of a good room: headers that say what it says, each block where the one before it begins or ends, all of the bytes.
pub fn whole(room: &[u8]) -> Law {
    let seen = tree::tree(room);
    let says = |entry: &Entry| be(room, entry.at + 4) == Some(entry.size) && room[entry.at..].starts_with(&entry.tag);
    law(seen.iter().all(says), "a header says otherwise")?;
    let mut ends = vec![];
    for entry in &seen {
        // The blocks that end here are done; what follows the last of them begins there.
        while ends.last().is_some_and(|(depth, _)| *depth >= entry.depth) {
            let (_, end) = ends.pop().expect("a block");
            law(end <= entry.at, "a block begins inside another one's end")?;
        }
        law(
            ends.last().is_none_or(|(depth, end)| *depth + 1 == entry.depth && entry.at + entry.size <= *end),
            "a block passes its container",
        )?;
        ends.push((entry.depth, entry.at + entry.size));
    }
    law(ends.first() == Some(&(1, room.len())), "the tree isn't the room")
}

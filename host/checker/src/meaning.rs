//! The tree of blocks as lines: where each stands, its size, its tag by depth, and what it says in a few words.

use crate::texts::{count, quoted};
use reference::tree::{self, Entry};

/// A block's payload, as far as the room's bytes go.
fn payload<'a>(room: &'a [u8], entry: &Entry) -> &'a [u8] {
    let end = (entry.at + entry.size).min(room.len());
    room.get(entry.at + 8..end).unwrap_or(&[])
}

fn u16_at(bytes: &[u8], at: usize) -> Option<usize> {
    Some(u16::from_le_bytes(bytes.get(at..at + 2)?.try_into().ok()?) as usize)
}

fn room_size(bytes: &[u8]) -> Option<String> {
    Some(format!("{} x {}", u16_at(bytes, 0)?, u16_at(bytes, 2)?))
}

/// CDHD: id, and the box in pixels.
fn object_header(bytes: &[u8]) -> Option<String> {
    let [x, y, width, height] = [2, 3, 4, 5].map(|i| bytes.get(i).map(|byte| 8 * *byte as usize));
    Some(format!("id {}, box {} x {} at ({}, {})", u16_at(bytes, 0)?, width?, height?, x?, y?))
}

/// IMHD: id, images, size and place.
fn image_header(bytes: &[u8]) -> Option<String> {
    let [id, images, x, y, width, height] = [0, 2, 8, 10, 12, 14].map(|i| u16_at(bytes, i));
    Some(format!("id {}, {}, {} x {} at ({}, {})", id?, count(images?, "image"), width?, height?, x?, y?))
}

/// OBNA up to its first NUL.
fn name(bytes: &[u8]) -> String {
    quoted(bytes.split(|byte| *byte == 0).next().unwrap_or(&[]))
}

/// SMAP: how many strips. ZP0k: how many, and how many of them have rows.
fn strips(bytes: &[u8], tag: &[u8; 4], width: Option<usize>) -> Option<String> {
    let strips = width? / 8;
    if tag == b"SMAP" {
        return Some(count(strips, "strip"));
    }
    let bodies = (0..strips).filter(|s| u16_at(bytes, 2 * s).is_some_and(|offset| offset > 0)).count();
    Some(format!("{}, {bodies} with rows", count(strips, "strip")))
}

/// What a block says. `width` is that of the image that strips belong to, where it is known.
fn meaning(room: &[u8], entry: &Entry, width: Option<usize>) -> Option<String> {
    let bytes = payload(room, entry);
    match &entry.tag {
        b"RMHD" => room_size(bytes),
        b"RMIH" => Some(count(u16_at(bytes, 0)?, "plane")),
        b"TRNS" => Some(format!("transparent {}", bytes.first()?)),
        b"CLUT" => Some(format!("palette, {}", count(bytes.len() / 3, "colour"))),
        b"CDHD" => object_header(bytes),
        b"OBNA" => Some(name(bytes)),
        b"IMHD" => image_header(bytes),
        tag @ (b"SMAP" | b"ZP01" | b"ZP02" | b"ZP03" | b"ZP04") => strips(bytes, tag, width),
        _ => None,
    }
}

/// The width that the first block of this tag and depth says, in what follows a container.
fn width_in(room: &[u8], within: &[Entry], depth: usize, tag: &[u8; 4], at: usize) -> Option<usize> {
    let header = within.iter().take_while(|entry| entry.depth >= depth).find(|entry| entry.depth == depth && entry.tag == *tag)?;
    u16_at(payload(room, header), at)
}

/// The width that the strips of a block at depth 2 have: RMIM's are the room's, OBIM's the image's.
fn width_of(room: &[u8], tree: &[Entry], i: usize, room_width: Option<usize>) -> Option<usize> {
    match &tree[i].tag {
        b"RMIM" => room_width,
        b"OBIM" => width_in(room, &tree[i + 1..], 3, b"IMHD", 12),
        _ => None,
    }
}

/// The tree's lines under their heads. `marks` are words for the block that begins at a byte.
pub fn lines(room: &[u8], tree: &[Entry], marks: &[(usize, String)]) -> Vec<String> {
    let digits = |number: fn(&Entry) -> usize| tree.iter().map(number).max().unwrap_or(0).to_string().len().max(6);
    let (offset, size) = (digits(|entry| entry.at), digits(|entry| entry.size));
    let names = tree.iter().map(|entry| 2 * entry.depth + 2).max().unwrap_or(0);
    let mut lines = vec![format!("  {:>offset$}  {:>size$}  block", "offset", "size")];
    let room_width = width_in(room, tree.get(1..).unwrap_or(&[]), 2, b"RMHD", 0);
    let mut width = None;
    for (i, entry) in tree.iter().enumerate() {
        if entry.depth == 2 {
            width = width_of(room, tree, i, room_width);
        }
        let name = format!("{:indent$}{}", "", tree::text(entry.tag), indent = 2 * entry.depth - 2);
        let says = meaning(room, entry, width.filter(|_| entry.depth == 4)).unwrap_or_default();
        let mark = marks.iter().find(|(at, _)| *at == entry.at).map_or(String::new(), |(_, mark)| format!("  <- {mark}"));
        let line = format!("  {:>offset$}  {:>size$}  {name:names$}  {says}{mark}", entry.at, entry.size);
        lines.push(line.trim_end().into());
    }
    lines
}

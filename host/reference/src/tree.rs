//! The tree of a room's blocks, for who wants to see it: of a broken tree as far as it can be read.

use crate::block::{walk, whole, Block};
use crate::fault::{Cause, Fault};

/// A block: its depth (ROOM is 1), where it begins, and the tag and size that its header says. A wrong size stands here too.
#[derive(Clone, Copy, Debug, PartialEq, Eq)]
pub struct Entry {
    pub depth: usize,
    pub at: usize,
    pub size: usize,
    pub tag: [u8; 4],
}

fn entry(room: &[u8], depth: usize, at: usize, size: usize) -> Entry {
    Entry { depth, at, size, tag: room[at..at + 4].try_into().expect("four bytes") }
}

/// The block of a wrong size that the walk stopped at: its container is the last block that reaches past its first byte.
fn stopped_at(room: &[u8], seen: &[Entry], fault: &Fault) -> Option<Entry> {
    let wrong_size = matches!(fault.cause, Cause::Small | Cause::Passes { .. });
    let parent = seen.iter().rev().find(|parent| parent.at + parent.size > fault.at)?;
    wrong_size.then(|| entry(room, parent.depth + 1, fault.at, fault.size))
}

/// The blocks below the root, in reading order, up to the first fault. A root that passes the bytes is read as far as they go.
fn within(room: &[u8], root: Block) -> Vec<Entry> {
    let mut seen = Vec::new();
    let walked = walk(room, root, 1, &mut |depth, block| seen.push(entry(room, depth, block.start, block.end - block.start)));
    seen.extend(walked.err().and_then(|fault| stopped_at(room, &seen, &fault)));
    seen
}

/// Every block that can be read, in reading order. Refusal 1's block is the last, but for a root whose size isn't the room's: what is in it follows.
pub fn tree(room: &[u8]) -> Vec<Entry> {
    match whole(room) {
        Ok(root) => within(room, root),
        Err(Fault { cause: Cause::Headless, .. }) => vec![],
        Err(Fault { cause: Cause::Unequal, size, .. }) => {
            let mut seen = within(room, Block { start: 0, end: size.min(room.len()) });
            seen[0].size = size;
            seen
        }
        Err(fault) => vec![entry(room, 1, 0, fault.size)],
    }
}

/// The container of a block of the tree.
fn parent(tree: &[Entry], i: usize) -> Option<usize> {
    (0..i).rev().find(|k| tree[*k].depth < tree[i].depth)
}

/// A tag as text.
pub fn text(tag: [u8; 4]) -> String {
    printable(&tag)
}

/// Bytes as text, `?` for those that can't be printed.
pub fn printable(bytes: &[u8]) -> String {
    bytes.iter().map(|byte| if matches!(byte, 0x20..0x7F) { *byte as char } else { '?' }).collect()
}

/// A block's tag and, where its container has several that are written alike, which of them it is, counted from 1: `OBIM[2]`.
fn step(tree: &[Entry], i: usize) -> String {
    let (depth, tag) = (tree[i].depth, text(tree[i].tag));
    let first = parent(tree, i).map_or(0, |container| container + 1);
    let behind = (first..tree.len()).take_while(|k| tree[*k].depth >= depth);
    let alike: Vec<usize> = behind.filter(|k| tree[*k].depth == depth && text(tree[*k].tag) == tag).collect();
    match alike.iter().position(|k| *k == i) {
        Some(place) if alike.len() > 1 => format!("{tag}[{}]", place + 1),
        _ => tag,
    }
}

/// The path of a block of the tree from the root on: `ROOM/OBIM[2]/IM01/ZP01`.
pub fn path(tree: &[Entry], i: usize) -> String {
    match parent(tree, i) {
        Some(container) => format!("{}/{}", path(tree, container), step(tree, i)),
        None => step(tree, i),
    }
}

/// The fault's block in the tree; none where the room has no header.
pub fn find(tree: &[Entry], fault: &Fault) -> Option<usize> {
    tree.iter().position(|entry| entry.at == fault.at)
}

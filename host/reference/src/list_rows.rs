//! Listings worked out by hand (docs/LAYOUTS.md, "Rows of objects, 32 bytes an object").

use crate::listing::list;
use crate::session_rows::{block, u16s};

/// RMHD and RMIM of an 8 by 1 room of colour 5, whose only strip has this body: 55 bytes for a body of three.
fn head(body: &[u8]) -> Vec<u8> {
    let smap = block("SMAP", &[12u32.to_le_bytes().to_vec(), body.to_vec()]);
    let rmim = block("RMIM", &[block("RMIH", &[u16s(&[0])]), block("IM00", &[smap])]);
    [block("RMHD", &[u16s(&[8, 1, 77])]), rmim].concat()
}

fn cdhd(id: u16) -> Vec<u8> {
    block("CDHD", &[u16s(&[id]), vec![1, 2, 3, 4, 0x80, 6, 0xE7, 0xFF, 40, 0, 2]])
}

/// The image of this id and numImages, with these blocks, all of them empty.
fn obim(id: u16, images: u16, tags: &[&str]) -> Vec<u8> {
    let states = tags.iter().flat_map(|tag| block(tag, &[])).collect();
    block("OBIM", &[block("IMHD", &[u16s(&[id, images, 0, 0, 0, 0, 0, 0])]), states])
}

/// The row of the header above.
fn row(id: u16, start: u8, length: u8, states: [u8; 2]) -> Vec<u8> {
    let header = [u16s(&[id]), vec![1, 2, 3, 4, 0x80, 6, 0xE7, 0xFF, 40, 0, 2, 0, 0, 0]].concat();
    [header, vec![start, 0, 0, 0, length, 0, 0, 0], states.to_vec(), vec![0; 6]].concat()
}

/// The answer, and record and rows after it; they were 77 before.
fn listed(room: &[u8], record: usize, rows: usize) -> (u32, Vec<u8>, Vec<u8>) {
    let (mut record, mut rows) = (vec![77; record], vec![77; rows]);
    (list(room, &mut record, &mut rows), record, rows)
}

/// The record of the room above with so many objects.
fn record(objects: u8) -> Vec<u8> {
    [vec![8, 0, 1, 0, 0, 0, objects, 0, 255], vec![0; 7]].concat()
}

/// Three objects: a name up to its NUL, one that is empty where it stands, none. OBCD stands at 63, 105 and 142, and a name 37 bytes behind it.
#[test]
fn names() {
    let head = head(&[0x1C, 5, 0]);
    assert_eq!(head.len(), 55);
    let objects = [block("OBCD", &[cdhd(7), block("OBNA", &[b"cup@\0".to_vec()])]), block("OBCD", &[cdhd(8), block("OBNA", &[])])].concat();
    let room = block("ROOM", &[head, objects, block("OBCD", &[cdhd(9)])]);
    let rows = [row(7, 63 + 37, 4, [0, 0]), row(8, 105 + 37, 0, [0, 0]), row(9, 0, 0, [0, 0])].concat();
    assert_eq!(listed(&room, 16, 96), (0, record(3), rows.clone()));
    assert_eq!(listed(&room, 18, 99), (0, [record(3), vec![77; 2]].concat(), [rows, vec![77; 3]].concat()));
    assert_eq!((listed(&room, 15, 96).0, listed(&room, 16, 95).0, listed(&room, 0, 0).0), (4, 4, 4));
}

/// States 1, 3 and 9 under numImages 9, 8 and 1; IM10 and IM00 are no states; the first OBIM of equal id; an object without one.
#[test]
fn states() {
    let tags = ["IM10", "IM09", "IM00", "IM03", "IM01"];
    let images = [obim(1, 9, &tags), obim(2, 8, &tags), obim(3, 1, &tags), obim(1, 9, &["IM02"]), obim(5, 65_535, &["IM09"])].concat();
    let objects: Vec<u8> = [3, 2, 1, 4, 5, 1].into_iter().flat_map(|id| block("OBCD", &[cdhd(id)])).collect();
    let room = block("ROOM", &[head(&[0x1C, 5, 0]), images, objects]);
    let rows = [(3, [1, 0]), (2, [5, 0]), (1, [5, 1]), (4, [0, 0]), (5, [0, 1]), (1, [5, 1])].map(|(id, states)| row(id, 0, 0, states));
    assert_eq!(listed(&room, 16, 192), (0, record(6), rows.concat()));
}

/// A room without objects needs no rows. 4 comes before the strips' numbers and behind those of the blocks.
#[test]
fn refusals_in_order() {
    let empty = block("ROOM", &[head(&[0x1C, 5, 0])]);
    assert_eq!(listed(&empty, 16, 0), (0, record(0), vec![]));
    let with = |head: Vec<u8>, obcd: Vec<u8>| block("ROOM", &[head, obcd]);
    let (code, bad) = (with(head(&[0x13, 5, 0]), block("OBCD", &[cdhd(7)])), with(head(&[0x13, 5, 0]), block("OBCD", &[])));
    assert_eq!([(16, 32), (15, 32), (16, 31)].map(|(record, rows)| listed(&code, record, rows).0), [6, 4, 4]);
    assert_eq!((listed(&bad, 0, 0).0, listed(&bad[1..], 0, 0).0), (2, 1));
    let many = with(head(&[0x13, 5, 0]), block("OBCD", &[cdhd(7)]).repeat(129));
    assert_eq!(listed(&many, 0, 0), (3, vec![], vec![]));
}

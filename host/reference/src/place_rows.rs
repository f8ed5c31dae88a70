//! Places of faults, worked out by hand: document 01's worked rows cut and spoilt, and a small room whose blocks are wrong one at a time.

use crate::fault::{Cause, Fault, Field, Part, Stop, Wrong};
use crate::session_rows::{block, u16s};
use crate::{inspect, mask, room, strip, tree};

/// Operation, where it begins, the place at fault, pixels or rows before it.
fn stop(stop: Stop) -> (u32, Part, [usize; 5]) {
    (stop.number, stop.part, [stop.operation, stop.begins, stop.at, stop.done, stop.gives])
}

fn strip_stops(body: &[u8], h: usize) -> (u32, Part, [usize; 5]) {
    stop(strip::read(body, h).expect_err("a bad strip"))
}

fn mask_stops(body: &[u8], h: usize) -> (u32, Part, [usize; 5]) {
    stop(mask::read(body, h).expect_err("a bad strip"))
}

/// Row 3, `1C 05 B6 97 00 00`, has bits 0 110 110 1 | 11 10 1001 | 0 0 …: keep, two steps, the step with a negation over two bytes, then index 09 in the
/// bits from byte 3's third on, then keeps from byte 4's third on.
#[test]
fn cut_first_method() {
    let row = [0x1C, 5, 0xB6, 0x97, 0, 0];
    assert_eq!(strip_stops(&row[..1], 2), (7, Part::Colour, [0, 8, 8, 0, 0]));
    assert_eq!(strip_stops(&row[..2], 2), (7, Part::Kind, [1, 16, 16, 1, 1]));
    assert_eq!(strip_stops(&row[..3], 2), (7, Part::Kind, [4, 23, 24, 4, 1]), "a `1`, and no second bit");
    assert_eq!(strip_stops(&row[..4], 2), (7, Part::Index, [5, 26, 32, 5, 1]), "four of its eight bits are there");
    assert_eq!(strip_stops(&row[..5], 2), (7, Part::Kind, [10, 40, 40, 10, 1]));
    assert_eq!(strip_stops(&[0x1C, 5, 0xC0], 2), (7, Part::Step, [7, 22, 24, 7, 1]), "six keeps, `11`");
    assert_eq!(strip_stops(&[], 1), (7, Part::Code, [0, 0, 0, 0, 0]));
    assert_eq!(strip_stops(&[0x13], 1), (6, Part::Code, [0, 0, 0, 0, 0]));
    assert_eq!(strip_stops(&[1, 9, 9, 9], 1), (7, Part::Raw, [0, 8, 32, 3, 0]));
}

/// Row 10, `44 10 63 36 E4 07`: `11` 000, `11` 001 and 13 in the bits from 2 × 8 + 10 on, `10` 7E from 34 on.
#[test]
fn cut_second_method() {
    let row = [0x44, 0x10, 0x63, 0x36, 0xE4, 7];
    assert_eq!(strip_stops(&row[..3], 2), (7, Part::Change, [2, 21, 24, 2, 1]), "`11` and a bit of d");
    assert_eq!(strip_stops(&row[..4], 2), (7, Part::Run, [2, 21, 32, 2, 1]), "six bits of the number");
    assert_eq!(strip_stops(&row[..5], 2), (7, Part::Index, [3, 34, 40, 15, 1]));
    assert_eq!(strip_stops(&row, 1), (8, Part::Run, [2, 21, 21, 2, 13]), "eight pixels, two of them there");
    assert_eq!(strip_stops(&[0x44, 5, 0x13, 0], 32), (8, Part::Run, [1, 16, 16, 1, 256]));
}

/// Row 1, `83 00 03 01 02 03`, and row 9, `87 00`.
#[test]
fn cut_masks() {
    let row = [0x83, 0, 3, 1, 2, 3];
    assert_eq!(mask_stops(&row[..1], 6), (7, Part::Copies, [1, 0, 8, 0, 3]));
    assert_eq!(mask_stops(&row[..2], 6), (7, Part::Operation, [2, 16, 16, 3, 0]));
    assert_eq!(mask_stops(&row[..4], 6), (7, Part::Literal, [2, 16, 32, 3, 3]));
    assert_eq!(mask_stops(&row, 5), (8, Part::Literal, [2, 16, 16, 3, 3]));
    assert_eq!(mask_stops(&[0x87, 0], 6), (8, Part::Copies, [1, 0, 0, 0, 7]));
    assert_eq!(mask_stops(&[0, 0x80, 9, 0x80], 6), (7, Part::Copies, [3, 24, 32, 0, 0]), "zero counts are operations too");
}

/// An SMAP of two strips of two rows, flat but for what `bodies` says.
fn smap(offsets: [u32; 2], bodies: &[u8]) -> Vec<u8> {
    block("SMAP", &[offsets.map(u32::to_le_bytes).concat(), bodies.to_vec()])
}

const FLAT: [u8; 8] = [0x1C, 5, 0, 0, 0x1C, 9, 0, 0];

/// A 16 by 2 room: RMHD at 8, RMIM at 22 with RMIH at 30 and IM00 at 40, whose first block stands at 48; `rest` follows.
fn room_of(head: [u16; 3], planes: u16, picture: &[Vec<u8>], rest: &[Vec<u8>]) -> Vec<u8> {
    let rmim = block("RMIM", &[block("RMIH", &[u16s(&[planes])]), block("IM00", picture)]);
    block("ROOM", &[vec![block("RMHD", &[u16s(&head)]), rmim], rest.to_vec()].concat())
}

fn flat_room(rest: &[Vec<u8>]) -> Vec<u8> {
    room_of([16, 2, 0], 1, &[smap([16, 20], &FLAT)], rest)
}

/// The fault, and its block's path.
fn fault(bytes: &[u8]) -> (Fault, String) {
    let Err(fault) = room::judge(bytes, |_| true) else { panic!("a bad room was expected") };
    let seen = tree::tree(bytes);
    (fault, tree::find(&seen, &fault).map_or(String::new(), |i| tree::path(&seen, i)))
}

fn told(at: usize, size: usize, cause: Cause, path: &str) -> (Fault, String) {
    (Fault { at, size, cause }, path.into())
}

#[test]
fn whole_rooms() {
    let room = flat_room(&[]);
    let length = room.len();
    assert_eq!(fault(&room[..5]), told(0, 5, Cause::Headless, ""));
    assert_eq!(fault(&room[..length - 1]), told(0, length, Cause::Unequal, "ROOM"));
    assert_eq!(fault(&block("ROOF", &[room[8..].to_vec()])), told(0, length, Cause::Tag, "ROOF"));
    assert_eq!(fault(b"ROOM\0\0\0\x07"), told(0, 7, Cause::Small, "ROOM"));
    assert_eq!(fault(&block("ROOM", &[vec![0; 1_048_569]])), told(0, 1_048_577, Cause::Long, "ROOM"));
}

/// What follows RMIM stands at 72.
#[test]
fn blocks() {
    let nest = |levels: usize| (0..levels).fold(block("XXXX", &[]), |inner, _| block("IM42", &[inner]));
    assert_eq!(fault(&flat_room(&[b"XXXX\0\0\0\x07".to_vec()])), told(72, 7, Cause::Small, "ROOM/XXXX"));
    assert_eq!(fault(&flat_room(&[b"XX\nX\0\0\0\x09".to_vec()])), told(72, 9, Cause::Passes { left: 8 }, "ROOM/XX?X"));
    assert_eq!(fault(&flat_room(&[vec![0; 3]])), told(0, 75, Cause::Stray { at: 72, left: 3 }, "ROOM"));
    assert_eq!(fault(&flat_room(&[nest(5)])), told(112, 8, Cause::Deep, "ROOM/IM42/IM42/IM42/IM42/IM42/XXXX"));
    let twice = [block("OBCD", &[]), block("OBCD", &[])];
    assert_eq!(fault(&flat_room(&twice)), told(72, 8, Cause::Missing { tag: *b"CDHD" }, "ROOM/OBCD[1]"));
    let second = [block("OBIM", &[block("IMHD", &[vec![0; 16]])]), block("OBIM", &[block("IMHD", &[vec![0; 15]])])];
    assert_eq!(fault(&flat_room(&second)), told(112, 23, Cause::Short { fields: 16 }, "ROOM/OBIM[2]/IMHD"));
    assert_eq!(fault(&flat_room(&[block("TRNS", &[])])), told(72, 8, Cause::Short { fields: 1 }, "ROOM/TRNS"));
}

#[test]
fn sizes() {
    let spoilt = |head, planes| fault(&room_of(head, planes, &[smap([16, 20], &FLAT)], &[]));
    assert_eq!(spoilt([12, 0, 0], 5), told(8, 14, Cause::Size { field: Field::Width, value: 12, at: 16 }, "ROOM/RMHD"));
    assert_eq!(spoilt([16, 201, 0], 5), told(8, 14, Cause::Size { field: Field::Height, value: 201, at: 18 }, "ROOM/RMHD"));
    assert_eq!(spoilt([16, 2, 0], 5), told(30, 10, Cause::Size { field: Field::Planes, value: 5, at: 38 }, "ROOM/RMIM/RMIH"));
    let many = flat_room(&vec![block("OBCD", &[block("CDHD", &[vec![0; 13]])]); 129]);
    assert_eq!(fault(&many), told(0, many.len(), Cause::Size { field: Field::Objects, value: 129, at: 0 }, "ROOM"));
}

#[test]
fn tables_and_strips() {
    let spoilt = |picture: &[Vec<u8>]| fault(&room_of([16, 2, 0], 1, picture, &[]));
    let offsets = |offsets, bodies: &[u8]| spoilt(&[smap(offsets, bodies)]);
    let path = "ROOM/RMIM/IM00/SMAP";
    let wrong = |strip, value, wrong| Cause::Offset { strip, width: 4, at: 56 + 4 * strip, value, wrong };
    assert_eq!(offsets([15, 20], &FLAT), told(48, 24, wrong(0, 15, Wrong::Low { lowest: 16 }), path));
    assert_eq!(offsets([16, 24], &FLAT), told(48, 24, wrong(1, 24, Wrong::High), path));
    assert_eq!(offsets([20, 20], &FLAT), told(48, 24, wrong(1, 20, Wrong::Falls { strip: 0, value: 20 }), path));
    assert_eq!(spoilt(&[block("SMAP", &[vec![0; 7]])]), told(48, 15, Cause::Table { strips: 2, width: 4 }, path));
    let stop = Stop { number: 7, part: Part::Kind, operation: 9, begins: 24, at: 24, done: 9, all: 16, gives: 1 };
    assert_eq!(offsets([16, 20], &FLAT[..7]), told(48, 23, Cause::Strip { strip: 1, start: 68, end: 71, stop }, path));
    let plane = block("ZP01", &[u16s(&[0, 12]), vec![0x83, 1]]);
    let stop = Stop { number: 8, part: Part::Copies, operation: 1, begins: 0, at: 0, done: 0, all: 2, gives: 3 };
    let cause = Cause::Strip { strip: 1, start: 84, end: 86, stop };
    let found = spoilt(&[smap([16, 20], &FLAT), plane]);
    assert_eq!((found.0.number(), found.0.place()), (8, (84, 0)));
    assert_eq!(found, told(72, 14, cause, "ROOM/RMIM/IM00/ZP01"));
}

/// Object 1 has a good state, none of its second, and a third without an SMAP; 2 stands at x 4; 3 is 12 wide; 4 has no image.
#[test]
fn images() {
    let state = |tag: &str| block(tag, &[smap([16, 20], &FLAT)]);
    let obim = |imhd: [u16; 8], states: &[Vec<u8>]| block("OBIM", &[vec![block("IMHD", &[u16s(&imhd)])], states.to_vec()].concat());
    let images = [
        obim([7, 3, 0, 0, 0, 0, 16, 2], &[state("IM01"), block("IM03", &[])]),
        obim([8, 1, 0, 0, 4, 0, 16, 2], &[state("IM01")]),
        obim([9, 1, 0, 0, 0, 0, 12, 2], &[state("IM01")]),
    ];
    let obcd = |id: u16| block("OBCD", &[block("CDHD", &[u16s(&[id]), vec![0; 11]]), block("OBNA", &[b"key\0@".to_vec()])]);
    let bytes = flat_room(&[images.concat(), [7, 8, 9, 6].map(obcd).concat()]);
    let Ok(painted) = room::judge(&bytes, |_| true) else { panic!("a good room") };
    let objects = inspect::objects(&bytes, &painted.room);
    let numbers: Vec<Vec<(u32, u32)>> =
        objects.iter().map(|object| object.states.iter().map(|state| state.verdict.numbers()).collect()).collect();
    assert_eq!(numbers, [vec![(0, 0), (11, 11), (2, 2)], vec![(12, 0)], vec![(12, 12)], vec![]]);
    assert_eq!(objects.iter().map(|object| object.id).collect::<Vec<_>>(), [7, 8, 9, 6]);
    let (start, length) = objects[3].name;
    assert_eq!((&bytes[start..start + length], objects[3].image.is_none()), (b"key".as_slice(), true));
    // OBIM at 72, IMHD at 80, IM01 at 104 with the 24 bytes of its SMAP, IM03 at 136.
    let inspect::Verdict::Read { allowed: true, fault: Some(fault) } = objects[0].states[2].verdict else { panic!("a fault") };
    assert_eq!(fault, Fault { at: 136, size: 8, cause: Cause::Missing { tag: *b"SMAP" } });
    let seen = tree::tree(&bytes);
    assert_eq!(tree::path(&seen, tree::find(&seen, &fault).expect("a block")), "ROOM/OBIM[1]/IM03");
}

/// The tree of a room that is cut short goes on as far as its bytes do.
#[test]
fn cut_tree() {
    let room = flat_room(&[block("OBNA", &[vec![1; 4]])]);
    let lines =
        |room: &[u8]| tree::tree(room).iter().map(|entry| (entry.depth, entry.at, entry.size, tree::text(entry.tag))).collect::<Vec<_>>();
    let all = lines(&room);
    let wanted =
        [(1, 0, 84, "ROOM"), (2, 8, 14, "RMHD"), (2, 22, 50, "RMIM"), (3, 30, 10, "RMIH"), (3, 40, 32, "IM00"), (4, 48, 24, "SMAP")];
    assert!(all.iter().zip(wanted).all(|(is, wanted)| (is.0, is.1, is.2, is.3.as_str()) == wanted), "{all:?}");
    assert_eq!((all.len(), &all[6]), (7, &(2, 72, 12, "OBNA".into())));
    assert_eq!(lines(&room[..83]), all, "the last block is cut");
    assert_eq!(lines(&room[..79]), all[..6], "its header is cut");
    assert_eq!((lines(&room[..30]), lines(&room[..7])), (all[..3].to_vec(), vec![]));
}

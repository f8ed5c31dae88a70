//! Rooms with a transparent index, worked out by hand (change request 9).

use crate::actor::{stamp, Actor};
use crate::session::{draw_last, hide, take_back};
use crate::session_rows::{block, u16s};
use crate::{load, write};

/// Pixels of 8 by 2 by rows. The room's own holds 7 and 255 too, under a transparent code: "background (all its pixels)".
const GROUND: [u8; 16] = [1, 2, 3, 4, 5, 6, 7, 255, 8, 9, 10, 11, 12, 13, 14, 15];
const BOTH: [u8; 16] = [7, 255, 7, 255, 7, 255, 20, 20, 255, 7, 7, 7, 7, 7, 7, 7];
const NO_7: [u8; 16] = [255, 255, 255, 255, 255, 255, 255, 255, 20, 20, 20, 20, 20, 20, 20, 20];

/// Planes 1 and 2, two rows each: as loaded, with the object's bits joined to plane 1, and with both replaced. The object has no ZP02.
const LOADED: [u8; 4] = [0xF0, 0x0F, 0xFF, 0xFF];
const JOINED: [u8; 4] = [0xF3, 0x3F, 0xFF, 0xFF];
const REPLACED: [u8; 4] = [0x03, 0x30, 0, 0];

/// An IM block of one strip of two rows under `code`, and these planes.
fn image(tag: &str, code: u8, pixels: &[u8], planes: &[[u8; 2]]) -> Vec<u8> {
    let mut body = write::strip(pixels);
    body[0] = code;
    let plane = |(k, rows): (usize, &[u8; 2])| block(&format!("ZP0{}", k + 1), &[vec![10, 0, 2], rows.to_vec()]);
    let planes: Vec<Vec<u8>> = planes.iter().enumerate().map(plane).collect();
    block(tag, &[block("SMAP", &[12u32.to_le_bytes().to_vec(), body]), planes.concat()])
}

/// A room with these blocks directly under ROOM, and in RMIM, before its own. Its object's states are `BOTH` and `NO_7` under the transparent
/// code 30, and `BOTH` under the opaque 1C.
fn room(width: u16, trns: &[&[u8]], inner: &[&[u8]]) -> Vec<u8> {
    let blocks = |payloads: &[&[u8]]| payloads.iter().flat_map(|payload| block("TRNS", &[payload.to_vec()])).collect::<Vec<u8>>();
    let ground = image("IM00", 0x30, &GROUND, &[[0xF0, 0x0F], [0xFF, 0xFF]]);
    let states = [(0x30, BOTH), (0x30, NO_7), (0x1C, BOTH)];
    let states = states.iter().zip(1..).map(|((code, pixels), s)| image(&format!("IM0{s}"), *code, pixels, &[[0x03, 0x30]]));
    let imhd = block("IMHD", &[u16s(&[7, 3, 0, 0, 0, 0, 8, 2])]);
    let obcd = block("OBCD", &[block("CDHD", &[u16s(&[7]), vec![0; 11]])]);
    let rmim = block("RMIM", &[blocks(inner), block("RMIH", &[u16s(&[2])]), ground]);
    block(
        "ROOM",
        &[blocks(trns), block("RMHD", &[u16s(&[width, 2, 0])]), rmim, block("OBIM", &[vec![imhd], states.collect()].concat()), obcd],
    )
}

/// The loaded surfaces, then those after each state's draw alone, which a hide and a take-back undo.
fn painted(trns: &[&[u8]]) -> [([u8; 16], [u8; 4]); 4] {
    let (room, mut session, mut pixels, mut masks) = (room(8, trns, &[]), [7; 450], [7; 16], [7; 4]);
    assert_eq!(load::load(&room, &mut session, &mut pixels, &mut masks), 0);
    let loaded = (pixels, masks);
    let drawn = [1, 2, 3].map(|state| {
        assert_eq!(draw_last(&room, &mut session, &mut pixels, &mut masks, 1, state), 0);
        let drawn = (pixels, masks);
        assert_eq!((hide(&room, &mut session, &mut pixels, &mut masks, 1), (pixels, masks)), (0, loaded));
        assert_eq!((take_back(&room, &mut session, &mut pixels, &mut masks), (pixels, masks)), (0, drawn));
        assert_eq!((take_back(&room, &mut session, &mut pixels, &mut masks), (pixels, masks)), (0, loaded));
        drawn
    });
    [loaded, drawn[0], drawn[1], drawn[2]]
}

/// With 7, 255 is a colour like others: it is painted, and a strip that has no 7 replaces its mask rows. Under the opaque code 7 is painted.
#[test]
fn index_7() {
    let clear = [1, 255, 3, 255, 5, 255, 20, 20, 255, 9, 10, 11, 12, 13, 14, 15];
    let wanted = [(GROUND, LOADED), (clear, JOINED), (NO_7, REPLACED), (BOTH, REPLACED)];
    assert_eq!(painted(&[&[7]]), wanted);
    assert_eq!(painted(&[&[7, 255, 0, 0], &[255], &[]]), wanted, "the first byte of the first block");
}

/// Without a TRNS block it is 255, and one that says so is the same.
#[test]
fn index_255() {
    let (clear, half) = ([7, 2, 7, 4, 7, 6, 20, 20, 8, 7, 7, 7, 7, 7, 7, 7], [1, 2, 3, 4, 5, 6, 7, 255, 20, 20, 20, 20, 20, 20, 20, 20]);
    let wanted = [(GROUND, LOADED), (clear, JOINED), (half, JOINED), (BOTH, REPLACED)];
    assert_eq!(painted(&[]), wanted);
    assert_eq!(painted(&[&[255, 7], &[7]]), wanted);
}

/// With an index that no strip has, nothing is transparent.
#[test]
fn index_0() {
    assert_eq!(painted(&[&[0]]), [(GROUND, LOADED), (BOTH, REPLACED), (NO_7, REPLACED), (BOTH, REPLACED)]);
}

/// The record's byte 8, or the refusal.
fn index(room: &[u8]) -> Result<u8, u32> {
    let mut record = [9; 16];
    match load::record(room, &mut record) {
        0 => Ok(record[8]),
        number => Err(number),
    }
}

#[test]
fn records_and_refusals() {
    let direct = |trns: &[&[u8]]| index(&room(8, trns, &[]));
    assert_eq!((direct(&[]), direct(&[&[7]]), direct(&[&[0, 9]])), (Ok(255), Ok(7), Ok(0)));
    assert_eq!((direct(&[&[7], &[]]), direct(&[&[7], &[9]])), (Ok(7), Ok(7)), "only the first one counts");
    assert_eq!((direct(&[&[]]), direct(&[&[], &[7]])), (Err(2), Err(2)), "the first one is empty");
    assert_eq!((index(&room(8, &[], &[&[7]])), index(&room(8, &[&[9]], &[&[]]))), (Ok(255), Ok(9)), "in RMIM it isn't looked for");
    assert_eq!((index(&room(0, &[&[]], &[])), index(&room(0, &[&[7]], &[]))), (Err(2), Err(3)), "all of 2 goes before 3");
    let short = |trns: &[&[u8]]| load::record(&room(8, trns, &[]), &mut [0; 15]);
    assert_eq!((short(&[&[]]), short(&[&[7]])), (2, 4));
    assert_eq!(index(&[room(8, &[&[]], &[]), vec![0]].concat()), Err(1));
}

/// The stamp's index is its caller's. Plane 1 hides the four pixels on the left.
#[test]
fn stamps() {
    let stamped = |clear: u8, clip: u32| {
        let mut frame = [9; 8];
        let actor = Actor { picture: &[0, 7, 255, 3, 0, 7, 255, 3], width: 8, height: 1, x: 0, y: 0, clip, clear };
        assert_eq!(stamp(&mut frame, &[0xF0], 8, 1, 1, &actor), 0);
        frame
    };
    assert_eq!([0, 7, 255, 4].map(|clear| stamped(clear, 1)[4..].to_vec()), [[9, 7, 255, 3], [0, 9, 255, 3], [0, 7, 9, 3], [0, 7, 255, 3]]);
    assert_eq!((stamped(7, 1)[..4].to_vec(), stamped(7, 0)), (vec![9; 4], [0, 9, 255, 3, 0, 9, 255, 3]));
}

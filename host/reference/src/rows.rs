//! Document 01, "Worked rows", those that change request 5 adds, and source 000's 39-byte strip.

use crate::block::Block;
use crate::{mask, strip, write};

#[test]
fn worked_rows() {
    let masks = [0x83, 0, 3, 1, 2, 3];
    assert_eq!(mask::rows(&masks, 6), Ok(vec![0, 0, 0, 1, 2, 3]));
    assert_eq!(write::mask(&[0, 0, 0, 1, 2, 3]), masks);
    assert_eq!(mask::plane(b"ZP01\0\0\0\x0A\0\0", Block { start: 0, end: 10 }, 1, 3), Ok(vec![0; 3]));
    let third = [0x1C, 5, 0xB6, 0x97, 0, 0];
    let pixels = [vec![5, 5, 4, 3, 4, 9], vec![9; 10]].concat();
    assert_eq!(strip::pixels(&third, 2), Ok(pixels.clone()));
    assert_eq!(write::strip(&pixels), third);
    let row = [5, 5, 5, 5, 0x7E, 0x7E, 0x7E, 0x7E];
    assert_eq!(strip::pixels(&[0x11, 5, 0x80, 0xFC, 0], 2), Ok([row, row].concat()));
    assert_eq!(strip::pixels(&[0x1B, 5, 0x80, 0xFC, 0], 2), Ok([[5; 8], [0x7E; 8]].concat()));
    assert_eq!(strip::pixels(&[0x44, 0x10, 0x63, 0x36, 0], 2), Ok([vec![0x10], vec![0x0C; 15]].concat()));
    assert_eq!(strip::pixels(&[0x44, 2, 3, 0], 1), Ok([vec![2], vec![0xFE; 7]].concat()));
    assert_eq!(strip::pixels(&[0x1C, 5], 1), Err(7));
    assert_eq!(strip::pixels(&[0x1C, 5, 0], 1), Ok(vec![5; 8]));
    assert_eq!(mask::rows(&[0x87, 0], 6), Err(8));
}

/// Rows 10 to 13, worked out by hand. The bits of row 10: `11` 000 (10 − 4), `11` 001 and 13, `10` 7E; of row 11: `11` 001 and 0, `10` 7E, keeps;
/// of row 12: `11` 001 and 0.
#[test]
fn worked_rows_of_ticket_5() {
    let pixels = [vec![0x10], vec![0x0C; 14], vec![0x7E]].concat();
    assert_eq!(strip::pixels(&[0x44, 0x10, 0x63, 0x36, 0xE4, 7], 2), Ok(pixels));
    assert_eq!(strip::pixels(&[0x44, 5, 0x13, 0x20, 0x3F, 0], 33), Ok([vec![5; 257], vec![0x7E; 7]].concat()));
    assert_eq!(strip::pixels(&[0x44, 5, 0x13, 0], 32), Err(8));
    assert_eq!(strip::pixels(&[0x44, 5, 0x13], 32), Err(7), "the number's bits are looked for before its run is measured");
    assert_eq!(strip::pixels(&[1, 1, 2, 3, 4, 5, 6, 7, 8], 1), Ok(vec![1, 2, 3, 4, 5, 6, 7, 8]));
}

/// Raw bodies of the code alone, of 8H bytes, of one more, which is enough, and with an unused one; and the other codes alone.
#[test]
fn shortest_bodies() {
    let raw = [1, 9, 8, 7, 6, 5, 4, 3, 2, 0];
    assert_eq!((strip::pixels(&raw[..1], 1), strip::pixels(&raw[..8], 1)), (Err(7), Err(7)));
    assert_eq!((strip::pixels(&raw[..9], 1), strip::pixels(&raw, 1)), (Ok(raw[1..9].to_vec()), Ok(raw[1..9].to_vec())));
    for code in [0x0E, 0x1C, 0x26, 0x2C, 0x44, 0x54, 0x6C, 0x7C] {
        assert_eq!(strip::pixels(&[code], 1), Err(7));
    }
    for code in [0, 2, 0x0D, 0x13, 0x3F, 0x81] {
        assert_eq!(strip::pixels(&[code], 1), Err(6));
    }
}

#[test]
fn strip_of_source_000() {
    let body = [
        0x85, 0x00, 0x0f, 0x01, 0x0d, 0x03, 0x0d, 0x00, 0x40, 0x20, 0x04, 0x48, 0x84, 0x60, 0x80, 0x40, 0x04, 0x02, 0x83, 0x00, 0x02, 0x02,
        0x05, 0x8f, 0x00, 0x01, 0x04, 0x85, 0x00, 0x05, 0x01, 0x20, 0x11, 0x02, 0x01, 0xff, 0x00, 0x96, 0x00,
    ];
    let rows = mask::rows(&body, 200).unwrap();
    assert_eq!((rows[5], rows[19], rows[23], rows[24], rows[40], rows[46]), (1, 2, 2, 5, 4, 1));
    assert_eq!(write::mask(&rows), body);
}

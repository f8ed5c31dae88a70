//! Small sessions worked out by hand (document 01, "Sessions" and the point's object).

use crate::point::object_at;
use crate::session::{draw_at, draw_last, hide, take_back};
use crate::{load, write};

const SIZE: (usize, usize) = (24, 8);

pub fn block(tag: &str, parts: &[Vec<u8>]) -> Vec<u8> {
    let payload = parts.concat();
    [tag.as_bytes(), &(8 + payload.len() as u32).to_be_bytes(), &payload].concat()
}

pub fn u16s(numbers: &[u16]) -> Vec<u8> {
    numbers.iter().flat_map(|number| number.to_le_bytes()).collect()
}

/// A state of 8 by 8: a strip under `code` of `left` with `right` in its last column, and ZP01 of these rows if not 0.
fn state(tag: &str, code: u8, left: u8, right: u8, rows: u8) -> Vec<u8> {
    let pixels: Vec<u8> = (0..64).map(|i| if i % 8 == 7 { right } else { left }).collect();
    let mut body = write::strip(&pixels);
    body[0] = code;
    let smap = block("SMAP", &[12u32.to_le_bytes().to_vec(), body]);
    let plane = if rows == 0 { vec![] } else { block("ZP01", &[vec![10, 0, 0x88, rows]]) };
    block(tag, &[smap, plane])
}

fn obcd(id: u16, place: [u8; 4], flags: u8, parent: u8) -> Vec<u8> {
    block("OBCD", &[block("CDHD", &[u16s(&[id]), place.to_vec(), vec![flags, parent, 0, 0, 0, 0, 0]])])
}

/// 24 by 8 of colour 1, plane 1 all set, plane 2 missing. Objects 1 and 2 have opaque and transparent states at (0, 0); 3 has none; 4's x
/// isn't a multiple of 8 and its second state has no SMAP.
fn room() -> Vec<u8> {
    let (w, h) = SIZE;
    let mut smap = vec![0; 4000];
    let length = write::smap(&vec![1; w * h], &mut smap, w as u32, h as u32).unwrap();
    let mut plane = vec![0; 400];
    let planes = write::plane(&[0xFF; 24], &mut plane, w as u32, h as u32, 1).unwrap();
    let im00 = block("IM00", &[smap[..length].to_vec(), plane[..planes].to_vec()]);
    let image = |id, x, second: Vec<u8>| {
        block("OBIM", &[block("IMHD", &[u16s(&[id, 2, 0, 0, x, 0, 8, 8])]), state("IM01", 0x1C, 5, 255, 0x0F), second])
    };
    let images = [image(7, 0, state("IM02", 0x30, 6, 255, 0)), image(8, 0, state("IM02", 0x30, 9, 9, 0)), image(9, 4, block("IM02", &[]))];
    let objects = [obcd(7, [0, 0, 1, 1], 0, 0), obcd(8, [0, 0, 3, 1], 0x80, 1), obcd(6, [1, 0, 1, 1], 0, 3), obcd(9, [2, 0, 1, 1], 0, 9)];
    let head = [block("RMHD", &[u16s(&[w as u16, h as u16, 0])]), block("RMIM", &[block("RMIH", &[u16s(&[2])]), im00])];
    block("ROOM", &[head.concat(), images.concat(), objects.concat()])
}

struct Lent {
    room: Vec<u8>,
    session: Vec<u8>,
    pixels: Vec<u8>,
    masks: Vec<u8>,
}

fn loaded() -> Lent {
    let mut lent = Lent { room: room(), session: vec![7; 450], pixels: vec![7; 192], masks: vec![7; 48] };
    assert_eq!(load::load(&lent.room, &mut lent.session, &mut lent.pixels, &mut lent.masks), 0);
    lent
}

impl Lent {
    fn last(&mut self, object: u32, state: u32) -> u32 {
        draw_last(&self.room, &mut self.session, &mut self.pixels, &mut self.masks, object, state)
    }

    fn at(&mut self, object: u32, state: u32, a: u32, b: u32) -> u32 {
        draw_at(&self.room, &mut self.session, &mut self.pixels, &mut self.masks, [object, state, a, b])
    }

    fn hide(&mut self, object: u32) -> u32 {
        hide(&self.room, &mut self.session, &mut self.pixels, &mut self.masks, object)
    }

    fn back(&mut self) -> u32 {
        take_back(&self.room, &mut self.session, &mut self.pixels, &mut self.masks)
    }

    /// The last row's pixels in columns 0, 7, 8, 15, and its strips in plane 1.
    fn row(&self) -> ([u8; 4], [u8; 3]) {
        ([0, 7, 8, 15].map(|x| self.pixels[7 * 24 + x]), [0, 1, 2].map(|s| self.masks[7 * 3 + s]))
    }

    fn shown(&self) -> Vec<(u8, u8)> {
        self.session[322..].chunks(2).take(self.session[1] as usize).map(|entry| (entry[0], entry[1])).collect()
    }
}

#[test]
fn draws_evict_and_come_back() {
    let mut lent = loaded();
    assert_eq!(lent.last(1, 1), 0);
    assert_eq!(lent.row(), ([5, 255, 1, 1], [0x0F, 0xFF, 0xFF]));
    assert_eq!((lent.at(2, 1, 1, 0), lent.at(2, 2, 0, 0)), (0, 0));
    assert_eq!((lent.row(), lent.shown()), (([9, 9, 1, 1], [0, 0xFF, 0xFF]), vec![(2, 2)]));
    assert_eq!((lent.hide(1), lent.back(), lent.shown()), (11, 0, vec![(1, 1), (2, 1)]));
    assert_eq!(lent.row(), ([5, 255, 5, 255], [0x0F, 0x0F, 0xFF]));
    assert_eq!((lent.hide(1), lent.last(1, 2)), (0, 0));
    assert_eq!((lent.row(), lent.shown()), (([6, 1, 5, 255], [0xFF, 0x0F, 0xFF]), vec![(2, 1), (1, 2)]));
    assert_eq!(lent.session[2..22], [1, 1, 1, 0, 0, 2, 2, 1, 1, 0, 0, 1, 0, 0, 0, 1, 1, 2, 0, 0]);
    assert_eq!((lent.back(), lent.back(), lent.back(), lent.back(), lent.back()), (0, 0, 0, 0, 13));
    assert_eq!(lent.row(), ([1; 4], [0xFF; 3]));
}

#[test]
fn refusals_in_order() {
    let mut lent = loaded();
    assert_eq!([lent.last(0, 1), lent.last(5, 1), lent.last(3, 1), lent.last(1, 0), lent.last(1, 3), lent.last(257, 1)], [11; 6]);
    assert_eq!([lent.last(4, 2), lent.at(1, 1, 3, 0), lent.at(1, 1, 1 << 29, 0), lent.at(1, 1, 0, u32::MAX)], [12; 4]);
    assert_eq!((lent.at(4, 2, 0, 0), lent.at(4, 1, 2, 0), lent.last(4, 1)), (2, 0, 0));
    while lent.session[0] < 64 {
        assert_eq!(lent.last(1, 1), 0);
    }
    assert_eq!((lent.last(1, 1), lent.hide(0), lent.back(), lent.hide(0)), (10, 10, 0, 11));
    lent.session[3] = 0;
    assert_eq!((lent.last(1, 1), lent.back()), (9, 9));
    lent.session[0] = 65;
    assert_eq!(lent.hide(1), 9);
    lent.session.truncate(449);
    assert_eq!(lent.hide(1), 4);
}

#[test]
fn only_touched_strips_are_rebuilt() {
    let mut lent = Lent { room: room(), session: vec![0; 450], pixels: vec![77; 200], masks: vec![78; 50] };
    assert_eq!(lent.at(1, 1, 1, 0), 0);
    assert_eq!(lent.row(), ([77, 77, 5, 255], [78, 0x0F, 78]));
    assert_eq!((lent.at(1, 2, 0, 0), lent.row()), (0, ([6, 1, 1, 1], [0xFF, 0xFF, 78])));
    assert_eq!((&lent.pixels[192..], &lent.masks[48..]), ([77; 8].as_slice(), [78; 2].as_slice()));
}

#[test]
fn points() {
    let mut lent = loaded();
    let found = |lent: &Lent, flags: [u8; 4], x, y| object_at(&lent.room, &lent.session, &flags, x, y);
    assert_eq!((found(&lent, [0; 4], 0, 0), found(&lent, [0; 4], 8, 0)), (Ok(1), Ok(0)));
    assert_eq!((found(&lent, [0; 4], 24, 0), found(&lent, [0; 4], 0, 8)), (Err(14), Err(14)));
    assert_eq!(lent.at(1, 1, 2, 0), 0);
    assert_eq!((found(&lent, [0; 4], 0, 0), found(&lent, [0; 4], 16, 7)), (Ok(2), Ok(1)));
    assert_eq!((found(&lent, [1, 0, 0, 0], 16, 7), found(&lent, [1, 1, 0, 0], 16, 7)), (Ok(2), Ok(0)));
    assert_eq!(object_at(&lent.room, &lent.session, &[0; 3], 0, 0), Err(4));
    assert_eq!(lent.hide(1), 0);
    assert_eq!((found(&lent, [0; 4], 0, 0), found(&lent, [0; 4], 16, 7)), (Ok(0), Ok(1)));
}

//! The whole cast in one call (change request 7; docs/LAYOUTS.md, "Cast, 32 bytes an actor").

use crate::actor::{stamp, Actor};
use crate::{sizes_ok, LARGE, SHORT, SIZE};

/// The most records of a cast.
pub const MOST: usize = 32;

/// An actor's record, laid out as C does it: "id, signed room y of the feet, signed place of the picture, size, clip, where its picture starts in
/// one lent pixel buffer".
#[repr(C)]
#[derive(Clone, Copy, Debug, Default, PartialEq, Eq, PartialOrd, Ord)]
pub struct Record {
    pub id: u32,
    pub y: i32,
    pub left: i32,
    pub top: i32,
    pub width: u32,
    pub height: u32,
    pub clip: u32,
    pub start: u32,
}

/// The bytes of a record.
pub const RECORD: usize = 32;

impl Record {
    /// "smaller room y first, lower id first at equal y".
    fn key(&self) -> (i32, u32) {
        (self.y, self.id)
    }

    /// Where its picture ends in the lent pictures, exactly.
    fn end(&self) -> u128 {
        self.start as u128 + self.width as u128 * self.height as u128
    }

    /// Its own refusal, if it is a bad one: "its size (3) before its buffer (4)".
    fn refusal(&self, pictures: &[u8]) -> Option<u32> {
        if !(1..=128).contains(&self.width) || !(1..=200).contains(&self.height) {
            return Some(SIZE);
        }
        (self.end() > pictures.len() as u128).then_some(SHORT)
    }

    /// The record of the bytes that the machine keeps it as.
    pub fn read(bytes: &[u8; RECORD]) -> Record {
        let word = |i: usize| u32::from_ne_bytes([bytes[4 * i], bytes[4 * i + 1], bytes[4 * i + 2], bytes[4 * i + 3]]);
        let [id, y, left, top, width, height, clip, start] = [0, 1, 2, 3, 4, 5, 6, 7].map(word);
        Record { id, y: y as i32, left: left as i32, top: top as i32, width, height, clip, start }
    }

    /// The bytes that the machine keeps the record as.
    pub fn bytes(&self) -> [u8; RECORD] {
        let words = [self.id, self.y as u32, self.left as u32, self.top as u32, self.width, self.height, self.clip, self.start];
        let mut bytes = [0; RECORD];
        bytes.chunks_exact_mut(4).zip(words).for_each(|(to, word)| to.copy_from_slice(&word.to_ne_bytes()));
        bytes
    }
}

/// "Refusals: 18 for more than 32 records, then 3 and 4 for frame and planes, then those of the first bad record in the list as handed in".
fn refusal(list: &[Record], frame: &[u8], masks: &[u8], pictures: &[u8], [w, h, n]: [u32; 3]) -> Option<u32> {
    let [w, h, n] = [w, h, n].map(|number| number as usize);
    if list.len() > MOST {
        return Some(LARGE);
    }
    if !sizes_ok(w, h, n) {
        return Some(SIZE);
    }
    if frame.len() < w * h || masks.len() < n * (w / 8) * h {
        return Some(SHORT);
    }
    list.iter().find_map(|record| record.refusal(pictures))
}

/// Puts the list in order, "smaller room y first, lower id first at equal y", those of "one id and one y" in "the order they came in"; then "the
/// single stamps made one by one in that order". The transparent index is the caller's, as the stamp's (change request 9).
pub fn cast(list: &mut [Record], frame: &mut [u8], masks: &[u8], pictures: &[u8], [w, h, n]: [u32; 3], clear: u8) -> u32 {
    if let Some(number) = refusal(list, frame, masks, pictures, [w, h, n]) {
        return number;
    }
    // It keeps the order of equal keys.
    list.sort_by_key(Record::key);
    for record in list {
        let picture = &pictures[record.start as usize..record.end() as usize];
        let Record { left, top, width, height, clip, .. } = *record;
        let number = stamp(frame, masks, w, h, n, &Actor { picture, width, height, x: left, y: top, clip, clear });
        assert_eq!(number, 0, "a stamp of an accepted cast");
    }
    0
}

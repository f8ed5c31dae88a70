//! Deliberate ends of coded bodies (change request 2, "Nothing it answers changes, in good strips or cut ones"). A reader that fetches several bytes at
//! a time comes to a body's last ones in another way than to those before. So there are bodies of every code, short and long, whose last needed bit is
//! each bit of a byte and whose last operation is of each kind; the scenes read each whole, with unused bytes behind it and cut (end_scenes.rs).

use crate::rng::Rng;
use crate::strips::{index_bits, is_second, put_operation, put_operations, Operation, STARTS};
use common::bits::Bits;
use reference::{CUT, PAST};

/// The most unused bytes behind a body, and the most bytes cut off: one more than a reader's word may hold.
pub const MOST: i32 = 9;

#[derive(Clone, Copy, Debug, PartialEq, Eq, PartialOrd, Ord)]
pub enum Method {
    FirstVertical,
    FirstHorizontal,
    Second,
}

/// The last operation that a reader comes to.
#[derive(Clone, Copy, Debug, PartialEq, Eq, PartialOrd, Ord)]
pub enum Last {
    /// It ends with the strip's last pixel.
    Exact(Operation),
    /// A run past the strip's end.
    Past,
}

/// The end of a body.
#[derive(Clone, Copy, Debug, PartialEq, Eq, PartialOrd, Ord)]
pub struct End {
    pub code: u8,
    /// The last needed bit, 0 to 7 of the body's last byte.
    pub bit: usize,
    pub last: Last,
}

/// A body's lengths in bytes, and heights of strips that have bodies so long.
pub struct Size {
    pub bytes: (usize, usize),
    pub heights: (usize, usize),
}

pub const SHORT: Size = Size { bytes: (3, 12), heights: (1, 2) };
pub const LONG: Size = Size { bytes: (30, 300), heights: (3, 30) };
pub const ANY: Size = Size { bytes: (3, 300), heights: (1, 60) };

/// Every code of a body that has operations.
pub fn codes() -> Vec<u8> {
    STARTS.iter().flat_map(|start| *start..start + 5).collect()
}

pub fn method(code: u8) -> Method {
    match code {
        0x0E..=0x12 | 0x22..=0x26 => Method::FirstVertical,
        _ if is_second(code) => Method::Second,
        _ => Method::FirstHorizontal,
    }
}

/// The bits of each operation under a code.
pub fn operations(code: u8) -> Vec<(Operation, usize)> {
    let mut operations = vec![(Operation::Keep, 1), (Operation::Index, 2 + index_bits(code))];
    operations.extend(if is_second(code) { vec![(Operation::Step, 5), (Operation::Run, 13)] } else { vec![(Operation::Step, 3)] });
    operations
}

/// Every end that a body of this code can have. The first method has 8H − 1 operations, an odd number: where each of them has an odd number of bits, so
/// has the body, and its last bit is an even one.
pub fn ends_of(code: u8) -> Vec<End> {
    let operations = operations(code);
    let odd = !is_second(code) && operations.iter().all(|(_, bits)| bits % 2 == 1);
    let mut lasts: Vec<Last> = operations.into_iter().map(|(operation, _)| Last::Exact(operation)).collect();
    lasts.extend(is_second(code).then_some(Last::Past));
    let bits = (0..8).filter(|bit| !odd || bit % 2 == 0);
    bits.flat_map(|bit| lasts.iter().map(move |last| End { code, bit, last: *last })).collect()
}

/// A body in the making: its bits, and the bit at which each operation begins.
struct Making {
    bits: Bits,
    begins: Vec<(usize, Operation)>,
}

impl Making {
    fn keeps(&mut self, count: usize) {
        self.begins.extend((0..count).map(|i| (self.bits.used + i, Operation::Keep)));
        self.bits.put(0, count);
    }

    fn run(&mut self, pixels: usize) {
        self.begins.push((self.bits.used, Operation::Run));
        self.bits.put_run(pixels);
    }

    /// Operations for so many pixels, with long stretches of keeps among them.
    fn any(&mut self, r: &mut Rng, code: u8, mut pixels: usize) {
        while pixels > 0 {
            let some = r.range(1, 40).min(pixels);
            if r.once_in(3) {
                self.keeps(some);
            } else {
                self.begins.extend(put_operations(r, &mut self.bits, code, some + 1));
            }
            pixels -= some;
        }
    }
}

/// A body with a deliberate end, in a strip of so many rows.
pub struct Ending {
    pub h: usize,
    /// The body's bytes, and unused ones behind them.
    bytes: Vec<u8>,
    needed: usize,
    begins: Vec<(usize, Operation)>,
}

impl Ending {
    /// The body with so many unused bytes behind it, or with so many cut off; none where that leaves no byte.
    pub fn changed(&self, change: i32) -> Option<&[u8]> {
        let length = self.needed.checked_add_signed(change as isize).filter(|length| *length > 0)?;
        Some(&self.bytes[..length])
    }

    /// Where a body of `length` bytes is cut: inside which operation, and after how many of its bits. Between two operations it is no matter which one
    /// would follow, so that this is a keep after 0 bits. None where the colour is missing too.
    pub fn broken(&self, length: usize) -> Option<(Operation, usize)> {
        let (begins, operation) = self.begins.iter().rev().find(|(begins, _)| *begins <= 8 * length)?;
        Some(if *begins == 8 * length { (Operation::Keep, 0) } else { (*operation, 8 * length - begins) })
    }
}

impl Ending {
    /// The operation that a reader of `length` bytes comes to last, counted from 1, and the bit at which it begins: the one that is cut, or the run past
    /// the strip's end. None where the colour is missing too.
    pub fn stops_in(&self, length: usize) -> Option<(usize, usize)> {
        let i = self.begins.iter().rposition(|(begins, _)| *begins <= 8 * length)?;
        Some((i + 1, self.begins[i].0))
    }
}

impl End {
    pub fn name(self) -> String {
        format!("code {:02X}, last bit {}, last operation {:?}", self.code, self.bit, self.last)
    }

    /// What document 01 gives for a body so changed: its last byte is needed, so that a cut one lacks bits, and "the number's bits are looked for (7)
    /// before its run is measured (8)". Unused bytes don't matter.
    pub fn number(self, change: i32) -> u32 {
        match self.last {
            _ if change < 0 => CUT,
            Last::Past => PAST,
            Last::Exact(_) => 0,
        }
    }

    /// A body whose last operation is this end's, its last bit being where chance has it.
    fn attempt(self, r: &mut Rng, h: usize) -> Making {
        let colour = if r.once_in(4) { 255 } else { r.byte() };
        let mut making = Making { bits: Bits::after(vec![self.code, colour]), begins: vec![] };
        let all = 8 * h - 1;
        let most = if r.once_in(2) { 3 } else { 40 };
        let left = match self.last {
            Last::Exact(Operation::Keep) => r.range(1, most).min(all),
            Last::Exact(Operation::Run) => r.range(1, all.min(256)),
            Last::Exact(_) => 1,
            Last::Past => r.range(1, all.min(255)),
        };
        making.any(r, self.code, all - left);
        match self.last {
            Last::Exact(Operation::Keep) => making.keeps(left),
            Last::Exact(Operation::Run) => making.run(left),
            Last::Exact(operation) => {
                making.begins.push((making.bits.used, operation));
                put_operation(r, &mut making.bits, self.code, operation, 1);
            }
            Last::Past => making.run(r.range(left + 1, 256)),
        }
        making
    }

    /// The unused bits and bytes may hold anything: zeros, which would be keeps, ones, or both.
    fn finished(self, r: &mut Rng, h: usize, making: Making) -> Ending {
        let Making { mut bits, begins } = making;
        let fill = r.pick(&[Some(0), Some(0xFF), None]);
        let unused: Vec<u8> = (0..=MOST).map(|_| fill.unwrap_or_else(|| r.byte())).collect();
        bits.put(unused[0] as usize, 7 - self.bit);
        let needed = bits.bytes.len();
        Ending { h, bytes: [&bits.bytes, &unused[1..]].concat(), needed, begins }
    }

    pub fn body(self, r: &mut Rng, size: &Size) -> Ending {
        for _ in 0..100_000 {
            let h = r.range(size.heights.0, size.heights.1);
            let making = self.attempt(r, h);
            let fits = (size.bytes.0..=size.bytes.1).contains(&making.bits.bytes.len());
            if fits && (making.bits.used - 1) % 8 == self.bit {
                return self.finished(r, h, making);
            }
        }
        panic!("no body of {:?} bytes: {}", size.bytes, self.name())
    }
}

#[cfg(test)]
mod tests {
    use super::*;
    use reference::strip;

    /// What the scenes count on, for every end: the body has the number that is told of it, and every bit behind its last needed one is unused.
    #[test]
    fn ends_give_their_numbers() {
        let r = &mut Rng::new(1);
        for end in codes().into_iter().flat_map(ends_of) {
            let body = end.body(r, &SHORT);
            let mut whole = body.changed(0).expect("a body").to_vec();
            let read = strip::pixels(&whole, body.h);
            assert_eq!(read.as_ref().err().unwrap_or(&0), &end.number(0), "{}", end.name());
            let last = whole.len() - 1;
            for unused in end.bit + 1..8 {
                whole[last] ^= 1 << unused;
                assert_eq!(strip::pixels(&whole, body.h), read, "{}, bit {unused}", end.name());
            }
            assert_eq!(strip::pixels(&whole[..last], body.h), Err(end.number(-1)), "{}", end.name());
        }
    }

    /// 12 codes of the first method have three last operations and 8 bits, 8 have 4 bits; 20 of the second have five and 8.
    #[test]
    fn every_end_is_there() {
        let ends: Vec<usize> = codes().into_iter().map(|code| ends_of(code).len()).collect();
        assert_eq!((ends.len(), ends.iter().sum::<usize>()), (40, 12 * 24 + 8 * 12 + 20 * 40));
    }
}

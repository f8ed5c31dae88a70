//! Deliberate pairs of rooms for the comparison, and what each must give, known from its making and not from either side. The scenes
//! compare every one of them in both orders, with lists of every length, and a run of the tests that hasn't fails (pair_count.rs).

use crate::comparison::Comparison;
use crate::pair_rooms::{self as rooms, Made};
use crate::rng::Rng;
use crate::strips::STARTS;

/// A strip that differs, how many of its pixels do, and its planes that do, bit k − 1 for plane k.
pub type Difference = (usize, usize, u8);

/// What the other room says about a plane whose block stands above the one room's N.
#[derive(Clone, Copy, Debug, PartialEq, Eq, PartialOrd, Ord)]
pub enum Other {
    /// It doesn't declare it either.
    Undeclared,
    /// It declares it, with zero rows.
    Zero,
    /// It declares it, with one bit set.
    Set,
}

/// In which sizes two rooms differ.
#[derive(Clone, Copy, Debug, PartialEq, Eq, PartialOrd, Ord)]
pub enum Apart {
    No,
    Width,
    Height,
    Both,
    /// In both, but the rooms have as many pixels and mask rows.
    Area,
}

#[derive(Clone, Copy, Debug, PartialEq, Eq, PartialOrd, Ord)]
pub enum Pair {
    /// A room twice, both from one place in memory.
    Itself,
    /// The same bytes from two places.
    Copy,
    /// 41 strips, strip s under code number s in the one room and under code number s + shift in the other.
    Codes { shift: usize },
    /// One of the two written by the library.
    Writers,
    /// The needed blocks alone, and the same picture among other blocks.
    Framed,
    /// A room without objects, and one with an object whose image is another picture.
    Object,
    /// One pixel in a corner of the first or the last strip.
    Pixel { last_strip: bool, last_row: bool, last_column: bool },
    /// So many pixels of a strip of 200 rows.
    Pixels { count: usize },
    /// One bit in the first or last row of plane k, in the first or the last strip.
    Bit { k: usize, last_strip: bool, last_row: bool },
    /// Rows of these planes, with or without pixels of the same strip.
    Planes { planes: u8, pixels: bool },
    /// So many strips of 128, in pixels, planes or both.
    Strips { count: usize },
    /// n planes declared in the one room and m in the other: nothing set in those that only one declares, or one bit.
    Declared { n: usize, m: usize, set: bool },
    /// Plane k is declared in both rooms, and its block is missing in the one: in the other its rows are zero, or one bit is set.
    Missing { k: usize, set: bool },
    /// The one room has N = k − 1 and a block of plane k all the same: with a bit set, the other room's if it has one, or without a table.
    Above { k: usize, other: Other, rows: bool },
    /// Rooms of an extreme size: alike, or each strip with some pixels and planes that differ.
    Sized { w: usize, h: usize, differs: bool },
    /// Rooms that are refused with these numbers, 0 for a good one, of the same size or not.
    Refused { a: u32, b: u32, apart: Apart },
    /// Rooms of these transparent indexes: the same picture, or pixels that are of the one index here and of the other there.
    Clear { a: Option<u8>, b: Option<u8>, pixels: bool },
}

/// Transparent indexes; the first one is 255 too.
const CLEARS: [Option<u8>; 4] = [None, Some(255), Some(0), Some(7)];

/// The numbers that a room alone can be refused with, 4 left out, and 0.
const ALONE: [u32; 8] = [0, 1, 2, 3, 5, 6, 7, 8];

/// Every code, raw first.
pub fn codes() -> Vec<u8> {
    [1].into_iter().chain(STARTS.iter().flat_map(|start| *start..start + 5)).collect()
}

/// Both values of a bool for each case.
fn both<T: Copy, U>(cases: impl IntoIterator<Item = T>, case: impl Fn(T, bool) -> U) -> Vec<U> {
    cases.into_iter().flat_map(|one| [case(one, false), case(one, true)]).collect()
}

/// Every pair, in an order that stays: a planned pair's seed is its place here.
pub fn planned() -> Vec<Pair> {
    let numbers = || (0..5).flat_map(|n| (0..5).map(move |m| (n, m)));
    let corners = both(both([false, true], |s, y| (s, y)), |(s, y), x| (s, y, x));
    let refused = ALONE.into_iter().flat_map(|a| ALONE.map(|b| (a, b)));
    let mut pairs = vec![Pair::Itself, Pair::Copy, Pair::Writers, Pair::Framed, Pair::Object];
    pairs.extend((0..codes().len()).map(|shift| Pair::Codes { shift }));
    pairs.extend(corners.into_iter().map(|(last_strip, last_row, last_column)| Pair::Pixel { last_strip, last_row, last_column }));
    pairs.extend([1, 8, 255, 256, 257, 1023, 1024, 1599, 1600].map(|count| Pair::Pixels { count }));
    pairs.extend(both(both(1..=4, |k, s| (k, s)), |(k, last_strip), last_row| Pair::Bit { k, last_strip, last_row }));
    pairs.extend(both(1..16, |planes, pixels| Pair::Planes { planes, pixels }));
    pairs.extend([1, 2, 31, 32, 33, 64, 127, 128].map(|count| Pair::Strips { count }));
    pairs.extend(both(numbers().filter(|(n, m)| n != m), |(n, m), set| Pair::Declared { n, m, set }));
    pairs.extend(both(1..=4, |k, set| Pair::Missing { k, set }));
    let others = (1..=4).flat_map(|k| [Other::Undeclared, Other::Zero, Other::Set].map(|other| (k, other)));
    pairs.extend(both(others, |(k, other), rows| Pair::Above { k, other, rows }));
    pairs.extend(both([(8, 1), (8, 200), (1024, 1), (1024, 200)], |(w, h), differs| Pair::Sized { w, h, differs }));
    pairs.extend([Apart::Height, Apart::Both, Apart::Area].map(|apart| Pair::Refused { a: 0, b: 0, apart }));
    pairs.extend(refused.clone().map(|(a, b)| Pair::Refused { a, b, apart: Apart::Width }));
    pairs.extend(refused.skip(1).map(|(a, b)| Pair::Refused { a, b, apart: Apart::No }));
    let clears = (0..4).flat_map(|i| CLEARS[i..].iter().map(move |b| (CLEARS[i], *b)));
    pairs.extend(clears.clone().map(|(a, b)| Pair::Clear { a, b, pixels: false }));
    let other = |(a, b): &(Option<u8>, Option<u8>)| a.unwrap_or(255) != b.unwrap_or(255);
    pairs.extend(clears.filter(other).map(|(a, b)| Pair::Clear { a, b, pixels: true }));
    pairs
}

impl Pair {
    /// Whether some strip differs; false too where the pair is refused.
    pub fn differs(self) -> bool {
        match self {
            Pair::Itself | Pair::Copy | Pair::Codes { .. } | Pair::Writers | Pair::Framed | Pair::Object | Pair::Refused { .. } => false,
            Pair::Pixel { .. } | Pair::Pixels { .. } | Pair::Bit { .. } | Pair::Planes { .. } | Pair::Strips { .. } => true,
            Pair::Declared { set, .. } | Pair::Missing { set, .. } => set,
            Pair::Above { other, .. } => other == Other::Set,
            Pair::Sized { differs, .. } => differs,
            Pair::Clear { pixels, .. } => pixels,
        }
    }

    pub fn make(self, b: &mut Comparison, r: &mut Rng) -> Made {
        match self {
            Pair::Itself | Pair::Copy => rooms::twice(r),
            Pair::Codes { shift } => rooms::same_codes(r, shift),
            Pair::Writers => rooms::by_the_writers(b, r),
            Pair::Framed => rooms::framed(r),
            Pair::Object => rooms::with_object(r),
            Pair::Pixel { last_strip, last_row, last_column } => rooms::one_pixel(r, last_strip, last_row, last_column),
            Pair::Pixels { count } => rooms::many_pixels(r, count),
            Pair::Bit { k, last_strip, last_row } => rooms::one_bit(r, k, last_strip, last_row),
            Pair::Planes { planes, pixels } => rooms::some_planes(r, planes, pixels),
            Pair::Strips { count } => rooms::some_strips(r, count),
            Pair::Declared { n, m, set } => rooms::declared(r, n, m, set),
            Pair::Missing { k, set } => rooms::missing(r, k, set),
            Pair::Above { k, other, rows } => rooms::above(r, k, other, rows),
            Pair::Sized { w, h, differs } => rooms::sized(r, (w, h), differs),
            Pair::Refused { a, b, apart } => rooms::refused(r, a, b, apart),
            Pair::Clear { a, b, pixels } => rooms::clears(r, [a, b], pixels),
        }
    }
}

#[cfg(test)]
mod tests {
    use super::*;
    use reference::compare::compare;

    /// What the scenes count on: the reference gives as many places as are told of a pair, or its refusal; and other codes are other bytes.
    #[test]
    fn pairs_give_their_lists() {
        let (b, r) = (&mut Comparison::new(), &mut Rng::new(1));
        for pair in planned() {
            let Made { a, b, wanted } = pair.make(b, r);
            let given = compare(&a, &b, &mut [0; 1024]);
            assert_eq!(given, wanted.map(|differences| differences.len()), "{pair:?}");
            assert_eq!(given.unwrap_or(0) > 0, pair.differs(), "{pair:?}");
            assert!(a != b || matches!(pair, Pair::Itself | Pair::Copy), "{pair:?}");
        }
    }
}

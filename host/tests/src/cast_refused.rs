//! Deliberate casts that are refused (change request 7), and their numbers, known from the faults that were put in.

use crate::cast_faults::{Flaw, Surface, BAD_SIZES, BAD_STARTS};
use crate::casts::{self, Cast, Made};
use crate::rng::Rng;
use reference::cast::Record;
use reference::{LARGE, SHORT, SIZE};

/// A cast of so many records in order, with nothing wrong: a room of 16 by 4 with a plane or more, and pictures of 3 by 2 that may share bytes.
pub fn good(r: &mut Rng, count: usize) -> Cast {
    let (w, h, n, lent) = (16, 4, r.range(1, 4), r.range(6, 40));
    let record = |i: usize| {
        let (left, top, start) = (r.below(20) as i32 - 3, r.below(8) as i32 - 2, r.below(lent - 5) as u32);
        Record { id: 5, y: 10 + i as i32, left, top, width: 3, height: 2, clip: r.below(6) as u32, start }
    };
    let list = (0..count).map(record).collect();
    let (frame, masks, pictures) = (r.bytes(w * h), r.bytes(n * (w / 8) * h), r.bytes(lent));
    Cast { list, frame, masks, pictures, sizes: [w as u32, h as u32, n as u32], clear: r.byte() }
}

fn refused(cast: Cast, number: u32) -> Made {
    Made { cast, wanted: Err(number) }
}

/// What is wrong beside the number of records.
#[derive(Clone, Copy, Debug, PartialEq, Eq, PartialOrd, Ord)]
pub enum Beside {
    Nothing,
    Sizes,
    Frame,
    Masks,
    /// The first record's size, or its start.
    Size,
    Start,
    Everything,
}

pub const BESIDE: [Beside; 7] =
    [Beside::Nothing, Beside::Sizes, Beside::Frame, Beside::Masks, Beside::Size, Beside::Start, Beside::Everything];

/// More than 32 records, and something else wrong too: 18 all the same.
pub fn too_many(r: &mut Rng, count: usize, beside: Beside) -> Made {
    let mut cast = good(r, count);
    let lent = cast.pictures.len();
    if matches!(beside, Beside::Start | Beside::Everything) {
        cast.list.iter_mut().for_each(|record| r.pick(&BAD_STARTS).spoil(record, lent));
    }
    if matches!(beside, Beside::Size | Beside::Everything) {
        cast.list.iter_mut().for_each(|record| r.pick(&BAD_SIZES).spoil(record, lent));
    }
    if matches!(beside, Beside::Frame | Beside::Everything) {
        Surface::FrameShort.spoil(&mut cast);
    }
    if matches!(beside, Beside::Masks | Beside::Everything) {
        Surface::MasksShort.spoil(&mut cast);
    }
    if matches!(beside, Beside::Sizes | Beside::Everything) {
        cast.sizes = [12, 201, 5];
    }
    refused(cast, LARGE)
}

/// What stands in the list beside a fault of the room's sizes or the lent surfaces.
#[derive(Clone, Copy, Debug, PartialEq, Eq, PartialOrd, Ord)]
pub enum Listed {
    Empty,
    One,
    Three,
    Full,
    /// Records of which one has a bad size, one starts wrong, or each is one of both.
    Size,
    Start,
    Bad,
}

pub const LISTED: [Listed; 7] = [Listed::Empty, Listed::One, Listed::Three, Listed::Full, Listed::Size, Listed::Start, Listed::Bad];

impl Listed {
    fn make(self, r: &mut Rng) -> Cast {
        let count = match self {
            Listed::Empty => 0,
            Listed::One => 1,
            Listed::Full => 32,
            Listed::Three | Listed::Size | Listed::Start | Listed::Bad => 3,
        };
        let (mut cast, at) = (good(r, count), r.below(3));
        let lent = cast.pictures.len();
        match self {
            Listed::Size => r.pick(&BAD_SIZES).spoil(&mut cast.list[at], lent),
            Listed::Start => r.pick(&BAD_STARTS).spoil(&mut cast.list[at], lent),
            Listed::Bad => {
                let flaws = [&BAD_SIZES[..], &BAD_STARTS].concat();
                cast.list.iter_mut().for_each(|record| r.pick(&flaws).spoil(record, lent));
            }
            Listed::Empty | Listed::One | Listed::Three | Listed::Full => (),
        }
        cast
    }
}

/// A fault of the room's sizes or the lent surfaces: its number, whatever stands in the list.
pub fn surface(r: &mut Rng, fault: Surface, listed: Listed) -> Made {
    let mut cast = listed.make(r);
    fault.spoil(&mut cast);
    refused(cast, fault.number())
}

/// A wrong size and a short surface: 3.
pub fn surfaces(r: &mut Rng, size: Surface, short: Surface) -> Made {
    let mut cast = good(r, 2);
    short.spoil(&mut cast);
    size.spoil(&mut cast);
    refused(cast, SIZE)
}

/// Where a bad record would come to stand if the list were put in order.
#[derive(Clone, Copy, Debug, PartialEq, Eq, PartialOrd, Ord)]
pub enum Sorted {
    First,
    Where,
    Last,
}

pub const SORTED: [Sorted; 3] = [Sorted::First, Sorted::Where, Sorted::Last];

/// One bad record at this place of so many.
pub fn record(r: &mut Rng, flaw: Flaw, (count, at): (usize, usize), sorted: Sorted) -> Made {
    let mut cast = good(r, count);
    match sorted {
        Sorted::First => cast.list[at].y = -100,
        Sorted::Where => (),
        Sorted::Last => cast.list[at].y = 100,
    }
    flaw.spoil(&mut cast.list[at], cast.pictures.len());
    refused(cast, flaw.number())
}

/// A record with a bad size and a bad start: 3.
pub fn both(r: &mut Rng, size: Flaw, start: Flaw) -> Made {
    let (mut cast, at) = (good(r, 3), r.below(3));
    start.spoil(&mut cast.list[at], cast.pictures.len());
    size.spoil(&mut cast.list[at], cast.pictures.len());
    refused(cast, SIZE)
}

/// Two bad records of a list: whether the order would put the second before the first, or they have the same key.
#[derive(Clone, Copy, Debug, PartialEq, Eq, PartialOrd, Ord)]
pub enum Turned {
    Kept,
    Reversed,
    Same,
}

pub const TURNED: [Turned; 3] = [Turned::Kept, Turned::Reversed, Turned::Same];

/// Two bad records at these places, the first of this number and the second of the other: the first one's, in the list as handed in.
pub fn two(r: &mut Rng, (count, at): (usize, [usize; 2]), first: u32, turned: Turned) -> Made {
    let mut cast = good(r, count);
    let lent = cast.pictures.len();
    let flaws = [r.pick(&BAD_SIZES), r.pick(&BAD_STARTS)];
    let [one, other] = if first == SHORT { [flaws[1], flaws[0]] } else { flaws };
    one.spoil(&mut cast.list[at[0]], lent);
    other.spoil(&mut cast.list[at[1]], lent);
    let [a, b] = match turned {
        Turned::Kept => [cast.list[at[0]].y, cast.list[at[1]].y],
        Turned::Reversed => [100, -100],
        Turned::Same => [12, 12],
    };
    (cast.list[at[0]].y, cast.list[at[1]].y) = (a, b);
    refused(cast, one.number())
}

/// A cast with no picture byte lent: an empty list is accepted, any record is refused.
pub fn no_pictures(r: &mut Rng, count: usize) -> Made {
    let Made { mut cast, wanted } = casts::counted(r, count);
    cast.pictures.clear();
    Made { cast, wanted: if count == 0 { wanted } else { Err(SHORT) } }
}

#[cfg(test)]
mod tests {
    use super::*;
    use reference::cast::cast;

    /// What the others start from is accepted, so that a refusal is the fault's that was put in.
    #[test]
    fn good_casts_are_accepted() {
        let r = &mut Rng::new(1);
        for count in [0, 1, 3, 32] {
            for _ in 0..20 {
                let Cast { mut list, mut frame, masks, pictures, sizes, clear } = good(r, count);
                assert_eq!(cast(&mut list, &mut frame, &masks, &pictures, sizes, clear), 0);
            }
        }
    }
}

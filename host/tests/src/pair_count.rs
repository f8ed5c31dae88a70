//! Which comparisons of deliberate pairs of rooms (pairs.rs) are planned, and how often each gave what it must. A full run that leaves one
//! out fails (comparison.rs).

use crate::pairs::{planned as pairs, Pair};
use crate::planned::{self, Count};
use crate::rng::Rng;

/// How long the lent list is.
#[derive(Clone, Copy, Debug, PartialEq, Eq, PartialOrd, Ord)]
pub enum Length {
    /// No byte.
    Empty,
    /// A place less than strips that differ.
    PlaceShort,
    /// A byte less than they need.
    ByteShort,
    Exact,
    /// A few bytes more, but no whole place.
    Ragged,
    /// A place more, or many.
    Longer,
}

const LENGTHS: [Length; 6] = [Length::Empty, Length::PlaceShort, Length::ByteShort, Length::Exact, Length::Ragged, Length::Longer];

impl Length {
    /// The list's bytes where so many strips differ.
    pub fn bytes(self, r: &mut Rng, places: usize) -> usize {
        match self {
            Length::Empty => 0,
            Length::PlaceShort => 8 * places - 8,
            Length::ByteShort => 8 * places - 1,
            Length::Exact => 8 * places,
            Length::Ragged => 8 * places + r.range(1, 7),
            Length::Longer => 8 * places + r.pick(&[8, 8, 13, 16, 1024]),
        }
    }

    /// Whether a list of this length has fewer places than strips that differ.
    pub fn short(self, places: usize) -> bool {
        match self {
            Length::Empty => places > 0,
            Length::PlaceShort | Length::ByteShort => true,
            Length::Exact | Length::Ragged | Length::Longer => false,
        }
    }
}

/// What a full run must have compared: a pair, in this order or with B first, with a list of this length.
#[derive(Clone, Copy, Debug, PartialEq, Eq, PartialOrd, Ord)]
pub struct Case {
    pub pair: Pair,
    pub turned: bool,
    pub length: Length,
}

impl planned::Case for Case {
    const GROUPS: &'static [&'static str] = &[
        "the same bytes",
        "the same picture under other codes",
        "the same picture among other blocks",
        "pixels of a strip",
        "planes of a strip",
        "several strips",
        "planes undeclared, missing, above N",
        "the smallest and the largest rooms",
        "refused rooms and other sizes",
        "other transparent indexes",
    ];
    const ALL: &'static str = "comparisons of deliberate pairs";

    fn group(&self) -> usize {
        match self.pair {
            Pair::Itself | Pair::Copy => 0,
            Pair::Codes { .. } | Pair::Writers => 1,
            Pair::Framed | Pair::Object => 2,
            Pair::Pixel { .. } | Pair::Pixels { .. } => 3,
            Pair::Bit { .. } | Pair::Planes { .. } => 4,
            Pair::Strips { .. } => 5,
            Pair::Declared { .. } | Pair::Missing { .. } | Pair::Above { .. } => 6,
            Pair::Sized { .. } => 7,
            Pair::Refused { .. } => 8,
            Pair::Clear { .. } => 9,
        }
    }

    fn name(&self) -> String {
        format!("{:?}{}, list {:?}", self.pair, if self.turned { " turned" } else { "" }, self.length)
    }
}

/// The cases of a pair. For rooms that are alike an empty list is the exact one. Of rooms that are refused the order is part of the pair.
pub fn cases(pair: Pair) -> Vec<Case> {
    let lengths: &[Length] = match pair {
        _ if pair.differs() => &LENGTHS,
        Pair::Refused { .. } => &[Length::Empty, Length::Longer],
        _ => &[Length::Empty, Length::Ragged, Length::Longer],
    };
    let ordered = matches!(pair, Pair::Refused { a, b, .. } if (a, b) != (0, 0));
    let turns: &[bool] = if ordered { &[false] } else { &[false, true] };
    lengths.iter().flat_map(|length| turns.iter().map(move |turned| Case { pair, turned: *turned, length: *length })).collect()
}

#[derive(Default)]
pub struct PairCount {
    count: Count<Case>,
}

impl PairCount {
    pub fn reached(&mut self, case: Case) {
        self.count.reached(case);
    }

    /// Prints the table; answers the planned cases that weren't reached, the first of them by name.
    pub fn report(&self) -> Vec<String> {
        println!("deliberate pairs of rooms");
        self.count.report(&pairs().into_iter().flat_map(cases).collect::<Vec<Case>>())
    }
}

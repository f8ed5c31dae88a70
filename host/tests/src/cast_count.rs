//! Which deliberate casts (casts.rs, cast_refused.rs) are planned, and how each is made. A full run that leaves one out fails (comparison.rs).

use crate::cast_faults::{Flaw, Surface, BAD_SIZES, BAD_STARTS, LENT, SIZES};
use crate::cast_keys::{arrangements, every_list, Arranged, Keys, KEYS};
use crate::cast_refused::{self as refused, Beside, Listed, Sorted, Turned, BESIDE, LISTED, SORTED, TURNED};
use crate::casts::{self, Length, Made, LENGTHS};
use crate::planned;
use crate::rng::Rng;
use reference::cast::MOST;
use reference::{SHORT, SIZE};

/// What a full run must have done.
#[derive(Clone, Debug, PartialEq, Eq, PartialOrd, Ord)]
pub enum Case {
    /// So many records, nothing wrong with them.
    Counted {
        count: usize,
    },
    /// Too many, and something else wrong beside that.
    TooMany {
        count: usize,
        beside: Beside,
    },
    /// So many that only the library is asked.
    Huge {
        count: usize,
    },
    /// A fault of the room's sizes or the lent surfaces.
    Surface {
        fault: Surface,
        listed: Listed,
    },
    Surfaces {
        size: Surface,
        short: Surface,
    },
    /// A bad record at this place of so many.
    Record {
        flaw: Flaw,
        count: usize,
        at: usize,
        sorted: Sorted,
    },
    Both {
        size: Flaw,
        start: Flaw,
    },
    /// Two bad records at these places, the first of this number.
    Two {
        count: usize,
        at: [usize; 2],
        first: u32,
        turned: Turned,
    },
    NoPictures {
        count: usize,
    },
    /// Records of these ranks among four keys.
    Ordered {
        keys: Keys,
        ranks: Vec<usize>,
    },
    Stacked {
        keys: Keys,
        ranks: Vec<usize>,
    },
    Long {
        count: usize,
        arranged: Arranged,
    },
    Clipped {
        n: usize,
        arranged: Arranged,
    },
    Colours {
        clear: u8,
    },
    Placed {
        left: i32,
        top: i32,
    },
    Ended {
        size: (u32, u32),
        start: u32,
        length: Length,
    },
    Lent {
        n: usize,
        frame: Length,
        masks: Length,
        count: usize,
    },
    Shared {
        count: usize,
        step: usize,
    },
}

impl planned::Case for Case {
    const GROUPS: &'static [&'static str] = &[
        "numbers of records",
        "sizes and surfaces at fault",
        "one bad record",
        "two bad records",
        "short lists in every order",
        "long lists",
        "opaque pictures in every order",
        "clip levels and transparent indexes",
        "places",
        "ends of the pictures, shared bytes",
        "lengths of frame and masks",
    ];
    const ALL: &'static str = "deliberate casts";

    fn group(&self) -> usize {
        match self {
            Case::Counted { .. } | Case::TooMany { .. } | Case::Huge { .. } => 0,
            Case::Surface { .. } | Case::Surfaces { .. } => 1,
            Case::Record { .. } | Case::Both { .. } => 2,
            Case::Two { .. } => 3,
            Case::Ordered { .. } => 4,
            Case::Long { .. } => 5,
            Case::Stacked { .. } => 6,
            Case::Clipped { .. } | Case::Colours { .. } => 7,
            Case::Placed { .. } => 8,
            Case::Ended { .. } | Case::Shared { .. } | Case::NoPictures { .. } => 9,
            Case::Lent { .. } => 10,
        }
    }

    fn name(&self) -> String {
        format!("{self:?}")
    }
}

impl Case {
    /// The cast, and what it must give; nothing for one that only the library is asked.
    pub fn make(&self, r: &mut Rng) -> Option<Made> {
        Some(match self.clone() {
            Case::Huge { .. } => return None,
            Case::Counted { count } => casts::counted(r, count),
            Case::TooMany { count, beside } => refused::too_many(r, count, beside),
            Case::Surface { fault, listed } => refused::surface(r, fault, listed),
            Case::Surfaces { size, short } => refused::surfaces(r, size, short),
            Case::Record { flaw, count, at, sorted } => refused::record(r, flaw, (count, at), sorted),
            Case::Both { size, start } => refused::both(r, size, start),
            Case::Two { count, at, first, turned } => refused::two(r, (count, at), first, turned),
            Case::NoPictures { count } => refused::no_pictures(r, count),
            Case::Ordered { keys, ranks } => casts::ordered(r, keys, &ranks),
            Case::Stacked { keys, ranks } => casts::stacked(r, keys, &ranks),
            Case::Long { count, arranged } => casts::long(r, count, arranged),
            Case::Clipped { n, arranged } => casts::clipped(r, n, arranged),
            Case::Colours { clear } => casts::all_colours(r, clear),
            Case::Placed { left, top } => casts::placed(r, left, top),
            Case::Ended { size, start, length } => casts::ended(r, size, start, length),
            Case::Lent { n, frame, masks, count } => casts::lent(r, n, [frame, masks], count),
            Case::Shared { count, step } => casts::shared(r, count, step),
        })
    }
}

/// A planned scene: cases of one kind.
#[derive(Clone, Copy, Debug)]
pub enum Scene {
    Counts,
    Surfaces,
    Records(Flaw),
    Both,
    Two,
    Ordered(Keys),
    Stacked,
    Long(usize),
    Clips,
    Colours,
    Places,
    Ends,
    Lengths,
}

/// Every scene, in an order that stays: its seed is its place here.
pub fn scenes() -> Vec<Scene> {
    use Scene::*;
    let mut scenes = vec![Counts, Surfaces, Both, Two, Stacked, Clips, Colours, Places, Ends, Lengths];
    scenes.extend([&BAD_SIZES[..], &BAD_STARTS].concat().into_iter().map(Records));
    scenes.extend(KEYS.map(Ordered));
    scenes.extend([5, 8, 15, 16, 17, 31, 32].map(Long));
    scenes
}

/// Each of the one list with each of the other.
fn pairs<A: Clone, B: Clone>(one: &[A], other: &[B]) -> Vec<(A, B)> {
    one.iter().flat_map(|a| other.iter().map(|b| (a.clone(), b.clone()))).collect()
}

/// Numbers of records that are right in 8 bits.
const MANY: [usize; 6] = [MOST + 1, MOST + 2, 64, 256, 257, 288];
/// Numbers of records of which only zeros are lent, right in 16 or 32 bits, or whose bytes are right in 32.
const HUGE: [usize; 6] = [1 << 16, (1 << 16) + 1, (1 << 27) + 1, 1 << 32, (1 << 32) + 1, (1 << 32) + MOST];

fn counts() -> Vec<Case> {
    let mut cases: Vec<Case> = [0, 1, 2, 3, 16, MOST - 1, MOST].map(|count| Case::Counted { count }).to_vec();
    cases.extend(pairs(&MANY, &BESIDE).into_iter().map(|(count, beside)| Case::TooMany { count, beside }));
    cases.extend([Beside::Nothing, Beside::Everything].map(|beside| Case::TooMany { count: 60_000, beside }));
    cases.extend(HUGE.map(|count| Case::Huge { count }));
    cases
}

fn surfaces() -> Vec<Case> {
    let all = [&SIZES[..], &LENT].concat();
    let mut cases: Vec<Case> = pairs(&all, &LISTED).into_iter().map(|(fault, listed)| Case::Surface { fault, listed }).collect();
    cases.extend(pairs(&SIZES, &LENT).into_iter().map(|(size, short)| Case::Surfaces { size, short }));
    cases
}

/// The flaw at the first, a middle and the last place.
fn records(flaw: Flaw) -> Vec<Case> {
    let places = [(1, 0), (2, 0), (2, 1), (5, 0), (5, 2), (5, 4), (MOST, 0), (MOST, 16), (MOST, MOST - 1)];
    pairs(&places, &SORTED).into_iter().map(|((count, at), sorted)| Case::Record { flaw, count, at, sorted }).collect()
}

fn two() -> Vec<Case> {
    let mut places = vec![(2, [0, 1]), (MOST, [0, 1]), (MOST, [0, MOST - 1]), (MOST, [15, 16]), (MOST, [MOST - 2, MOST - 1])];
    places.extend((0..5).flat_map(|b| (0..b).map(move |a| (5, [a, b]))));
    let all = pairs(&pairs(&places, &[SIZE, SHORT]), &TURNED);
    all.into_iter().map(|(((count, at), first), turned)| Case::Two { count, at, first, turned }).collect()
}

/// Every list of up to four of the keys.
fn ordered(keys: Keys) -> Vec<Case> {
    (1..=4).flat_map(|length| every_list(length, 4)).map(|ranks| Case::Ordered { keys, ranks }).collect()
}

/// Each order of four different keys.
fn stacked() -> Vec<Case> {
    let mut lists = every_list(4, 4);
    lists.retain(|ranks| (0..4).all(|rank| ranks.contains(&rank)));
    pairs(&[Keys::Y, Keys::Id, Keys::Mixed, Keys::Against], &lists).into_iter().map(|(keys, ranks)| Case::Stacked { keys, ranks }).collect()
}

fn clips() -> Vec<Case> {
    let arranged = [Arranged::InOrder, Arranged::Reversed, Arranged::Halves, Arranged::Equal, Arranged::Shuffled(0)];
    pairs(&[0, 1, 2, 3, 4], &arranged).into_iter().map(|(n, arranged)| Case::Clipped { n, arranged }).collect()
}

/// Left or upper edges of the picture, around the frame and at the ends of the numbers.
const PLACES: [i32; 16] = [i32::MIN, i32::MIN + 1, -65_536, -4, -3, -2, -1, 0, 1, 3, 4, 7, 8, i32::MAX - 2, i32::MAX - 1, i32::MAX];

fn ends() -> Vec<Case> {
    let (sizes, starts) = ([(1, 1), (3, 5), (8, 4), (128, 1), (1, 129), (1, 200), (127, 199), (128, 200)], [0, 1, 7, 300]);
    let all = pairs(&pairs(&sizes, &starts), &LENGTHS);
    let mut cases: Vec<Case> = all.into_iter().map(|((size, start), length)| Case::Ended { size, start, length }).collect();
    cases.extend(pairs(&[1, 2, 8, 32], &[0, 1, 3, 7]).into_iter().map(|(count, step)| Case::Shared { count, step }));
    cases.extend([0, 1, 2, MOST].map(|count| Case::NoPictures { count }));
    cases
}

/// Without planes no mask is needed, so none can be missing.
fn lengths() -> Vec<Case> {
    let all = pairs(&pairs(&[0, 1, 2, 3, 4], &[0, 1, 3]), &pairs(&LENGTHS, &LENGTHS));
    let all = all.into_iter().map(|((n, count), (frame, masks))| (n, frame, masks, count));
    let some = all.filter(|(n, _, masks, _)| *n > 0 || *masks != Length::Short);
    some.map(|(n, frame, masks, count)| Case::Lent { n, frame, masks, count }).collect()
}

pub fn cases(scene: Scene) -> Vec<Case> {
    match scene {
        Scene::Counts => counts(),
        Scene::Surfaces => surfaces(),
        Scene::Records(flaw) => records(flaw),
        Scene::Both => pairs(&BAD_SIZES, &BAD_STARTS).into_iter().map(|(size, start)| Case::Both { size, start }).collect(),
        Scene::Two => two(),
        Scene::Ordered(keys) => ordered(keys),
        Scene::Stacked => stacked(),
        Scene::Long(count) => arrangements().into_iter().map(|arranged| Case::Long { count, arranged }).collect(),
        Scene::Clips => clips(),
        Scene::Colours => (0..=255).map(|clear| Case::Colours { clear }).collect(),
        Scene::Places => pairs(&PLACES, &PLACES).into_iter().map(|(left, top)| Case::Placed { left, top }).collect(),
        Scene::Ends => ends(),
        Scene::Lengths => lengths(),
    }
}

pub fn planned() -> Vec<Case> {
    scenes().into_iter().flat_map(cases).collect()
}

#[cfg(test)]
mod tests {
    use super::*;
    use crate::casts::Cast;
    use reference::cast::cast;

    /// What the scenes count on: each cast is told right, by the reference too, and no case is planned twice.
    #[test]
    fn casts_give_what_is_told() {
        let (r, all) = (&mut Rng::new(1), planned());
        for case in &all {
            let Some(Made { cast: Cast { mut list, mut frame, masks, pictures, sizes, clear }, wanted }) = case.make(r) else { continue };
            let before = list.clone();
            let number = cast(&mut list, &mut frame, &masks, &pictures, sizes, clear);
            let given = if number == 0 { Ok((list, frame)) } else { Err(number) };
            assert_eq!(given, wanted.map(|(order, frame)| (order.iter().map(|i| before[*i]).collect(), frame)), "{case:?}");
        }
        let mut sorted = all.clone();
        sorted.sort();
        sorted.dedup();
        assert_eq!(sorted.len(), all.len());
    }
}

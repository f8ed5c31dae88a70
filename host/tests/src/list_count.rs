//! Which deliberate listings (list_rooms.rs) are planned, and how each is made. A full run that leaves one out fails (comparison.rs).

use crate::clear_calls::Call;
use crate::clear_faults::Fault;
use crate::clear_rooms;
use crate::list_rooms::{empty, made, names, obim, thing, Made, Name, Thing};
use crate::planned;
use crate::rng::Rng;
use crate::rooms::{least_room, u16s};
use crate::tree::{container, leaf, Node};
use reference::{SHORT, SIZE};

/// How long a lent buffer is.
#[derive(Clone, Copy, Debug, PartialEq, Eq, PartialOrd, Ord)]
pub enum Length {
    Empty,
    /// A row less, or half a record.
    PartShort,
    /// A byte less.
    Short,
    Exact,
    /// A byte more.
    Longer,
    /// As many bytes as are always enough for rows.
    Most,
}

const LENGTHS: [Length; 6] = [Length::Empty, Length::PartShort, Length::Short, Length::Exact, Length::Longer, Length::Most];

impl Length {
    pub fn bytes(self, need: usize) -> usize {
        match self {
            Length::Empty => 0,
            Length::PartShort => need.saturating_sub(if need == 16 { 8 } else { 32 }),
            Length::Short => need.saturating_sub(1),
            Length::Exact => need,
            Length::Longer => need + 1,
            Length::Most => 4096,
        }
    }
}

/// Which image an object gets. The object's id is 0x1234, and its own image has state 1.
#[derive(Clone, Copy, Debug, PartialEq, Eq, PartialOrd, Ord)]
pub enum Paired {
    /// None in the room, and one of another id.
    Missing,
    Other,
    Own,
    /// One whose id is wrong in this bit.
    Near(usize),
    /// Two of its id: the first counts, also where it has no state or another block comes between them.
    Twice,
    NoneFirst,
    Between,
    /// Of three objects the first and the last have one id.
    Shared,
    /// One of its id that isn't directly in ROOM.
    Inner,
    /// A second IMHD, of another id and numImages, behind the first, and one of its id behind another's.
    SecondHead,
    OtherHead,
}

const PAIRED: [Paired; 10] = [
    Paired::Missing,
    Paired::Other,
    Paired::Own,
    Paired::Twice,
    Paired::NoneFirst,
    Paired::Between,
    Paired::Shared,
    Paired::Inner,
    Paired::SecondHead,
    Paired::OtherHead,
];

/// What the block of a state holds, or IMHD says, that a draw would be refused for, but not with 11.
#[derive(Clone, Copy, Debug, PartialEq, Eq, PartialOrd, Ord)]
pub enum Held {
    Nothing,
    NoSmap,
    /// No table, a wrong code, a body that is cut, a run past the end.
    Table,
    Code,
    Cut,
    Run,
    Plane,
    /// IMHD's width and height, its x and y.
    Size(u16, u16),
    Place(u16, u16),
    Whole,
}

const HELD: [Held; 14] = [
    Held::Nothing,
    Held::NoSmap,
    Held::Table,
    Held::Code,
    Held::Cut,
    Held::Run,
    Held::Plane,
    Held::Size(0, 1),
    Held::Size(8, 0),
    Held::Size(12, 1),
    Held::Size(65_528, 65_535),
    Held::Place(4, 0),
    Held::Place(65_528, 65_535),
    Held::Whole,
];

/// Where a block IM0s stands that isn't directly in the object's OBIM.
#[derive(Clone, Copy, Debug, PartialEq, Eq, PartialOrd, Ord)]
pub enum Within {
    Room,
    Rmim,
    Obcd,
    /// Another state's block, a container of the OBIM that is no state, and a block there that is no container.
    State,
    Im10,
    Payload,
}

const WITHIN: [Within; 6] = [Within::Room, Within::Rmim, Within::Obcd, Within::State, Within::Im10, Within::Payload];

/// What a full run must have listed.
#[derive(Clone, Copy, Debug, PartialEq, Eq, PartialOrd, Ord)]
pub enum Case {
    /// So many objects, record and rows of these lengths.
    Counted {
        count: usize,
        record: Length,
        rows: Length,
    },
    /// A room of two objects that is refused, record and rows of these lengths.
    Refused {
        fault: Fault,
        record: Length,
        rows: Length,
    },
    /// An object's name, as the first, second or third of three objects, behind a block of many bytes or not.
    Named {
        name: Name,
        at: usize,
        far: bool,
    },
    /// 128 objects, each with another set of the blocks IM01 to IM09, under this numImages.
    States {
        images: usize,
        part: usize,
    },
    /// One block in place of a state's.
    Tagged {
        tag: [u8; 4],
    },
    Inside {
        within: Within,
        state: u8,
    },
    Paired {
        paired: Paired,
    },
    Held {
        held: Held,
    },
}

impl planned::Case for Case {
    const GROUPS: &'static [&'static str] = &[
        "numbers of objects, lengths of buffers",
        "refused rooms, lengths of buffers",
        "names",
        "sets of states under each numImages",
        "tags a bit away from a state's",
        "states elsewhere",
        "which image an object has",
        "what a state's block and IMHD hold",
    ];
    const ALL: &'static str = "deliberate listings";

    fn group(&self) -> usize {
        match self {
            Case::Counted { .. } => 0,
            Case::Refused { .. } => 1,
            Case::Named { .. } => 2,
            Case::States { .. } => 3,
            Case::Tagged { .. } => 4,
            Case::Inside { .. } => 5,
            Case::Paired { .. } => 6,
            Case::Held { .. } => 7,
        }
    }

    fn name(&self) -> String {
        format!("{self:?}")
    }
}

/// A room, what is lent, and what must come of it: the rows, or the refusal's number.
pub struct Listing {
    pub room: Vec<u8>,
    pub record: usize,
    pub rows: usize,
    pub wanted: Result<Vec<u8>, u32>,
}

/// The tag of state s.
fn state_tag(s: u8) -> [u8; 4] {
    [b'I', b'M', b'0', b'0' + s]
}

/// The bit of a block of this tag: the state's, if it is one's.
fn bit_of(tag: &[u8; 4]) -> u16 {
    (1..=9).filter(|s| state_tag(*s) == *tag).map(|s| 1 << (s - 1)).sum()
}

/// The blocks of the states whose bits are set.
fn state_blocks(bits: u16) -> Vec<Node> {
    (1..=9).filter(|s| bits >> (s - 1) & 1 == 1).map(|s| empty(&state_tag(s))).collect()
}

fn counted(r: &mut Rng, count: usize) -> Made {
    let kinds = [Name::Missing, Name::Empty, Name::Ended, Name::Open, Name::Twice];
    let (mut things, mut images) = (vec![], vec![]);
    for id in 0..count as u16 {
        let (bits, name) = (r.below(512) as u16, r.pick(&kinds));
        let with = r.once_in(2);
        things.push(thing(r, id, name, if with { bits } else { 0 }));
        images.extend(with.then(|| obim(r, id, 9, state_blocks(bits))));
    }
    r.shuffle(&mut images);
    made(r, things, images)
}

/// Three objects, one of them with this name. A far name starts past 16 bits.
fn named(r: &mut Rng, name: Name, at: usize, far: bool) -> Made {
    let others = [Name::Ended, Name::Missing, Name::Empty];
    let things: Vec<Thing> = (0..3).map(|i| thing(r, i as u16, if i == at { name } else { others[i] }, 0)).collect();
    let mut blocks = vec![];
    match (name, name.outside()) {
        (Name::OfImage, Some(block)) => blocks.push(obim(r, at as u16, 9, vec![block])),
        (_, block) => blocks.extend(block),
    }
    let mut made = made(r, things, blocks);
    if far {
        made.room.kids().insert(0, leaf(b"FILL", vec![0x5A; 0x1_8000]));
    }
    made
}

/// Objects with every set of blocks IM01 to IM09, a quarter of them at a time; those up to numImages count.
fn states(r: &mut Rng, images: usize, part: usize) -> Made {
    let most = (1u32 << images.min(9)) - 1;
    let sets = || (0..128).map(|i| (128 * part + i) as u16);
    let things = sets().map(|set| thing(r, set, Name::Missing, set & most as u16)).collect();
    let mut blocks: Vec<Node> = sets().map(|set| obim(r, set, images, state_blocks(set))).collect();
    r.shuffle(&mut blocks);
    made(r, things, blocks)
}

fn tagged(r: &mut Rng, tag: &[u8; 4]) -> Made {
    let things = vec![thing(r, 7, Name::Missing, bit_of(tag))];
    let images = vec![obim(r, 7, 65_535, vec![empty(tag)])];
    made(r, things, images)
}

fn inside(r: &mut Rng, within: Within, state: u8) -> Made {
    let (tag, outer) = (state_tag(state), state_tag(if state == 9 { 1 } else { state + 1 }));
    let inner = empty(&tag);
    let (held, bits) = match within {
        Within::State => (Some(container(&outer, vec![inner.clone()])), bit_of(&outer)),
        Within::Im10 => (Some(container(b"IM10", vec![inner.clone()])), 0),
        Within::Payload => (Some(leaf(b"FILL", inner.write())), 0),
        _ => (None, 0),
    };
    let mut object = thing(r, 7, Name::Ended, bits);
    if within == Within::Obcd {
        object.obcd.kids().push(inner.clone());
    }
    let mut images = vec![obim(r, 7, 9, held.into_iter().collect())];
    images.extend((within == Within::Room).then(|| inner.clone()));
    let mut made = made(r, vec![object], images);
    if within == Within::Rmim {
        made.room.find(&[b"RMIM"]).expect("a room").kids().push(inner);
    }
    made
}

const ID: u16 = 0x1234;

/// The images of `Paired`, and the states of its object.
fn pair_images(r: &mut Rng, paired: Paired) -> (Vec<Node>, u16) {
    let own = |r: &mut Rng| obim(r, ID, 9, state_blocks(1));
    let other = |r: &mut Rng| obim(r, 0x4321, 9, state_blocks(0x1FF));
    let head = |id: u16, images: usize| leaf(b"IMHD", [u16s(&[id as usize, images]), vec![0; 12]].concat());
    match paired {
        Paired::Missing => (vec![], 0),
        Paired::Other => (vec![other(r)], 0),
        Paired::Own | Paired::Shared => (vec![own(r)], 1),
        Paired::Near(bit) => (vec![obim(r, ID ^ 1 << bit, 9, state_blocks(0x1FF))], 0),
        Paired::Twice => (vec![own(r), obim(r, ID, 9, state_blocks(0x1FE))], 1),
        Paired::NoneFirst => (vec![obim(r, ID, 0, state_blocks(0x1FF)), own(r)], 0),
        Paired::Between => (vec![other(r), own(r), other(r), obim(r, ID, 9, vec![])], 1),
        Paired::Inner => (vec![container(b"IM42", vec![own(r)]), container(b"ROOM", vec![own(r)])], 0),
        Paired::SecondHead => (vec![container(b"OBIM", [vec![head(ID, 2), head(9, 9)], state_blocks(0x1FF)].concat())], 3),
        Paired::OtherHead => (vec![container(b"OBIM", [vec![head(9, 9), head(ID, 9)], state_blocks(0x1FF)].concat())], 0),
    }
}

fn paired(r: &mut Rng, paired: Paired) -> Made {
    let (images, states) = pair_images(r, paired);
    let mut things = vec![thing(r, ID, Name::Ended, states)];
    if paired == Paired::Shared {
        things.extend([thing(r, 9, Name::Open, 0), thing(r, ID, Name::Missing, states)]);
    }
    made(r, things, images)
}

/// The blocks of the state, whose picture is 8 by 1 of colour 5.
fn held_blocks(held: Held) -> Vec<Node> {
    let smap = |body: &[u8]| leaf(b"SMAP", [&12u32.to_le_bytes(), body].concat());
    match held {
        Held::Nothing => vec![],
        Held::NoSmap => vec![leaf(b"ZP01", vec![10, 0, 1, 7])],
        Held::Table => vec![leaf(b"SMAP", vec![])],
        Held::Code => vec![smap(&[0x13, 5, 0])],
        Held::Cut => vec![smap(&[0x1C, 5])],
        Held::Run => vec![smap(&[0x44, 5, 0x13, 0])],
        Held::Plane => vec![smap(&[0x1C, 5, 0]), leaf(b"ZP01", vec![10, 0, 0x82, 7])],
        Held::Size(..) | Held::Place(..) | Held::Whole => vec![smap(&[0x1C, 5, 0]), leaf(b"ZP01", vec![10, 0, 0x81, 7])],
    }
}

/// A room of 8 by 1 with a plane, so that the image could be drawn, and an object with states 1 and 9.
fn held(r: &mut Rng, held: Held) -> Made {
    let (mut size, mut place) = ([8, 1], [0, 0]);
    match held {
        Held::Size(w, h) => size = [w as usize, h as usize],
        Held::Place(x, y) => place = [x as usize, y as usize],
        _ => (),
    }
    let imhd = leaf(b"IMHD", u16s(&[7, 9, 0, 0, place[0], place[1], size[0], size[1]]));
    let state = |s: u8| container(&state_tag(s), held_blocks(held));
    let image = container(b"OBIM", vec![imhd, state(9), state(1)]);
    let object = thing(r, 7, Name::Ended, 0x101);
    let mut made = made(r, vec![object], vec![]);
    made.room.kids().retain(|kid| &kid.tag == b"OBCD");
    let ground = least_room(8, 1, 1, held_blocks(Held::Whole));
    made.room.kids().splice(0..0, [ground.clone().kids().clone(), vec![image]].concat());
    made
}

/// A refused room with buffers of these lengths. "4 (in its place, after 3 and before 5 to 8)".
fn refused(r: &mut Rng, fault: Fault, record: Length, rows: Length) -> Listing {
    let (room, _) = fault.make(r, Call::List, false);
    let (need, own) = (32 * clear_rooms::OBJECTS, fault.wanted(Call::List, false));
    let short = record.bytes(16) < 16 || rows.bytes(need) < need;
    let wanted = Err(if short && own > SIZE { SHORT } else { own });
    Listing { room, record: record.bytes(16), rows: rows.bytes(need), wanted }
}

/// A good room with buffers of these lengths.
fn lent(mut made: Made, record: Length, rows: Length) -> Listing {
    let need = 32 * made.objects();
    let (record, rows) = (record.bytes(16), rows.bytes(need));
    let wanted = if record < 16 || rows < need { Err(SHORT) } else { Ok(made.wanted()) };
    Listing { room: made.room.write(), record, rows, wanted }
}

impl Case {
    pub fn make(self, r: &mut Rng) -> Listing {
        let made = match self {
            Case::Refused { fault, record, rows } => return refused(r, fault, record, rows),
            Case::Counted { count, record, rows } => return lent(counted(r, count), record, rows),
            Case::Named { name, at, far } => named(r, name, at, far),
            Case::States { images, part } => states(r, images, part),
            Case::Tagged { tag } => tagged(r, &tag),
            Case::Inside { within, state } => inside(r, within, state),
            Case::Paired { paired: kind } => paired(r, kind),
            Case::Held { held: kind } => held(r, kind),
        };
        lent(made, Length::Longer, Length::Longer)
    }
}

/// A planned scene: cases of one kind.
#[derive(Clone, Copy, Debug)]
pub enum Scene {
    Counted(usize),
    Refused(Fault),
    Named(bool),
    States(usize),
    Tagged,
    Inside,
    Paired,
    Held,
}

/// A room's refusals, each in several ways. A missing or cut block is counted as in damage.rs: those of rooms, then CDHD and IMHD.
fn faults() -> Vec<Fault> {
    use Fault::*;
    let mut faults =
        vec![Stray, Longer, Tag, Small, Past, Deep, Large, Objects, Width(0), Width(12), Width(1032), Height(0), Height(201), Planes(5)];
    faults.extend((1..8).map(Missing));
    faults.extend([1, 3, 6, 7].map(Cut));
    faults.extend(
        [(false, 5), (false, 6), (false, 7), (false, 8), (true, 5), (true, 7), (true, 8)].map(|(plane, number)| Strips { plane, number }),
    );
    faults
}

/// numImages around 9, around what 8 bits hold, and where the low byte alone says otherwise.
const IMAGES: [usize; 19] = [0, 1, 2, 3, 4, 5, 6, 7, 8, 9, 10, 255, 256, 257, 265, 511, 512, 32_768, 65_535];

/// Every scene, in an order that stays: its seed is its place here.
pub fn scenes() -> Vec<Scene> {
    let mut scenes = vec![Scene::Named(false), Scene::Named(true), Scene::Tagged, Scene::Inside, Scene::Paired, Scene::Held];
    scenes.extend([0, 1, 2, 3, 64, 127, 128].map(Scene::Counted));
    scenes.extend(faults().into_iter().map(Scene::Refused));
    scenes.extend(IMAGES.map(Scene::States));
    scenes
}

/// Record and rows of every length.
fn lengths() -> impl Iterator<Item = (Length, Length)> {
    LENGTHS.into_iter().flat_map(|record| LENGTHS.map(|rows| (record, rows)))
}

/// Tags a bit away from a state's, and some that are written nearly like one.
fn tags() -> Vec<[u8; 4]> {
    let flipped = |s: u8| {
        (0..32).map(move |bit| {
            let mut tag = state_tag(s);
            tag[bit / 8] ^= 1 << (bit % 8);
            tag
        })
    };
    let mut tags: Vec<[u8; 4]> = (1..=9).flat_map(flipped).chain((0..=9).map(state_tag)).collect();
    tags.extend([*b"IM10", *b"IM11", *b"IM19", *b"IM90", *b"IM99", *b"im01", *b"IM0A", *b"IM1\0", *b"IM01"]);
    tags.sort();
    tags.dedup();
    tags
}

pub fn cases(scene: Scene) -> Vec<Case> {
    match scene {
        Scene::Counted(count) => lengths().map(|(record, rows)| Case::Counted { count, record, rows }).collect(),
        Scene::Refused(fault) => lengths().map(|(record, rows)| Case::Refused { fault, record, rows }).collect(),
        Scene::Named(far) => names().into_iter().flat_map(|name| [0, 1, 2].map(|at| Case::Named { name, at, far })).collect(),
        Scene::States(images) => (0..4).map(|part| Case::States { images, part }).collect(),
        Scene::Tagged => tags().into_iter().map(|tag| Case::Tagged { tag }).collect(),
        Scene::Inside => WITHIN.into_iter().flat_map(|within| (1..=9).map(move |state| Case::Inside { within, state })).collect(),
        Scene::Paired => PAIRED.into_iter().chain((0..16).map(Paired::Near)).map(|paired| Case::Paired { paired }).collect(),
        Scene::Held => HELD.map(|held| Case::Held { held }).to_vec(),
    }
}

pub fn planned() -> Vec<Case> {
    scenes().into_iter().flat_map(cases).collect()
}

#[cfg(test)]
mod tests {
    use super::*;
    use reference::listing::list;

    /// What the scenes count on: each listing is told right, by the reference too, and no case is planned twice.
    #[test]
    fn listings_give_what_is_told() {
        let (r, all) = (&mut Rng::new(1), planned());
        for case in &all {
            let Listing { room, record, rows, wanted } = case.make(r);
            let (mut record, mut rows) = (vec![1; record], vec![2; rows]);
            let number = list(&room, &mut record, &mut rows);
            let given = if number == 0 { Ok(rows[..wanted.as_ref().map_or(0, Vec::len)].to_vec()) } else { Err(number) };
            assert_eq!(given, wanted, "{case:?}");
        }
        let mut sorted = all.clone();
        sorted.sort();
        sorted.dedup();
        assert_eq!(sorted.len(), all.len());
    }
}

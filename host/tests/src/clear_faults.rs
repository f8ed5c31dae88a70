//! Faults beside a TRNS block (change request 9): with an empty one, 2 goes before every number but 1. Each fault stands beside a good block too, which
//! shows that it has its own number. The scenes try each in every call that has it (clear_scenes.rs).

use crate::clear_calls::{one_step, Call, Lent, CALLS, COMPARES, DRAWS, TURNS};
use crate::clear_rooms::{ground_room, small_room, W};
use crate::damage::NEEDED;
use crate::rng::Rng;
use crate::rooms::CONTAINERS;
use crate::tree::{container, leaf, Body, Node};
use common::bits::Bits;

/// A buffer that is a byte too short.
#[derive(Clone, Copy, Debug, PartialEq, Eq, PartialOrd, Ord)]
pub enum Buffer {
    Record,
    Session,
    Pixels,
    Masks,
    Flags,
    Header,
    Rows,
    /// The list of a comparison, of no byte where two strips differ.
    List,
}

const BUFFERS: [Buffer; 8] =
    [Buffer::Record, Buffer::Session, Buffer::Pixels, Buffer::Masks, Buffer::Flags, Buffer::Header, Buffer::List, Buffer::Rows];

#[derive(Clone, Copy, Debug, PartialEq, Eq, PartialOrd, Ord)]
pub enum Fault {
    /// 1: a byte behind the room's blocks, one behind the room, another tag, a block below 8 bytes, one that passes the room, one at depth 7, a room over
    /// the size, and the TRNS block itself below 8 bytes or past the room.
    Stray,
    Longer,
    Tag,
    Small,
    Past,
    Deep,
    Large,
    OwnSmall,
    OwnPast,
    /// 2: a needed block missing, or a byte too short; by number (damage.rs).
    Missing(usize),
    Cut(usize),
    /// 3
    Width(u16),
    Height(u16),
    Planes(u16),
    Objects,
    /// 4
    Short(Buffer),
    /// 5 to 8 in the background or its plane.
    Strips {
        plane: bool,
        number: u32,
    },
    /// 9 to 14
    Session,
    History,
    Object,
    Place,
    Nothing,
    Outside,
    /// 5 to 8 in the object's image or its plane, and 2 where the image has no SMAP.
    Image {
        plane: bool,
        number: u32,
    },
    /// 16
    Sizes,
    /// The other room of a comparison is refused itself.
    Other {
        number: u32,
    },
}

/// The numbers of a strip, in the background and in a plane.
const OF_STRIPS: [(bool, u32); 7] = [(false, 5), (false, 6), (false, 7), (false, 8), (true, 5), (true, 7), (true, 8)];

pub fn planned() -> Vec<Fault> {
    use Fault::*;
    let mut faults = vec![Stray, Longer, Tag, Small, Past, Deep, Large, OwnSmall, OwnPast, Objects];
    // TRNS stands first in the list of needed blocks.
    faults.extend((1..NEEDED.len()).map(Missing));
    faults.extend((1..NEEDED.len()).filter(|i| NEEDED[*i].2 > 0).map(Cut));
    faults.extend([0, 12, 1032].map(Width));
    faults.extend([0, 201].map(Height));
    faults.extend([5, 256].map(Planes));
    faults.extend(BUFFERS.map(Short));
    faults.extend(OF_STRIPS.map(|(plane, number)| Strips { plane, number }));
    faults.extend([Session, History, Object, Place, Nothing, Outside, Sizes]);
    faults.extend([(false, 2)].into_iter().chain(OF_STRIPS).map(|(plane, number)| Image { plane, number }));
    faults.extend([1, 2, 3, 5, 6, 7, 8].map(|number| Other { number }));
    faults
}

impl Fault {
    /// The number that the fault alone has.
    fn number(self) -> u32 {
        match self {
            Fault::Missing(_) | Fault::Cut(_) => 2,
            Fault::Width(_) | Fault::Height(_) | Fault::Planes(_) | Fault::Objects => 3,
            Fault::Short(_) => 4,
            Fault::Strips { number, .. } | Fault::Image { number, .. } | Fault::Other { number } => number,
            Fault::Session => 9,
            Fault::History => 10,
            Fault::Object => 11,
            Fault::Place => 12,
            Fault::Nothing => 13,
            Fault::Outside => 14,
            Fault::Sizes => 16,
            _ => 1,
        }
    }

    /// What a call must answer. "Refusals: room A's first, then room B's": a comparison comes to our room second where it is B.
    pub fn wanted(self, call: Call, empty: bool) -> u32 {
        let first = self.number() == 1 && !matches!(self, Fault::Other { .. });
        let other = matches!(self, Fault::Other { .. }) && call == Call::CompareB;
        if !empty || first || other {
            self.number()
        } else {
            2
        }
    }

    /// The calls that have it.
    pub fn calls(self) -> Vec<Call> {
        let turns_and = |more: &[Call]| [&TURNS, more].concat();
        match self {
            Fault::Short(Buffer::Record) => vec![Call::Record, Call::List],
            Fault::Short(Buffer::Rows) => vec![Call::List],
            Fault::Short(Buffer::Session) => turns_and(&[Call::Load, Call::ObjectAt]),
            Fault::Short(Buffer::Pixels | Buffer::Masks) => turns_and(&[Call::Load]),
            Fault::Short(Buffer::Flags) | Fault::Outside => vec![Call::ObjectAt],
            Fault::Short(Buffer::Header) => vec![Call::Header],
            Fault::Short(Buffer::List) | Fault::Sizes | Fault::Other { .. } => COMPARES.to_vec(),
            Fault::Session => turns_and(&[Call::ObjectAt]),
            Fault::History => vec![Call::DrawLast, Call::DrawAt, Call::Hide],
            Fault::Object => vec![Call::DrawLast, Call::DrawAt, Call::Hide, Call::Header, Call::Name],
            Fault::Place | Fault::Image { .. } => DRAWS.to_vec(),
            Fault::Nothing => vec![Call::TakeBack],
            _ => CALLS.to_vec(),
        }
    }
}

/// Spoils the first strip of an image or of its plane: a wrong offset, an unknown code, the code alone, a run past the end; rows missing, rows too many.
fn spoil_strips(image: Option<&mut Node>, plane: bool, number: u32) {
    let tag = if plane { b"ZP01" } else { b"SMAP" };
    let Some(Node { body: Body::Strips(strips), .. }) = image.and_then(|image| image.find(&[tag])) else { panic!("strips were expected") };
    let (h, mut run) = (strips.h as u8, Bits::after(vec![0x40, 5]));
    run.put_run(256);
    strips.bodies[0] = Some(match (plane, number) {
        (_, 5) => return strips.wrong.push((0, 1)),
        (false, 6) => vec![2, 0],
        (false, 7) => vec![0x1C],
        (false, _) => run.bytes,
        (true, 7) => vec![h],
        (true, _) => vec![0x80 + h + 1, 0],
    });
}

/// The bytes of a block.
fn bytes<'a>(room: &'a mut Node, path: &[&[u8; 4]]) -> &'a mut Vec<u8> {
    match room.find(path) {
        Some(Node { body: Body::Bytes(bytes), .. }) => bytes,
        _ => panic!("a block of bytes was expected"),
    }
}

impl Fault {
    /// Refusal 1.
    fn spoil_tree(self, r: &mut Rng, room: &mut Node) {
        let (size, at) = (room.write().len(), r.below(room.kids().len() + 1));
        match self {
            Fault::Stray => room.stray = vec![0],
            Fault::Longer => (room.stray, room.size) = (vec![0], Some(size as u32)),
            Fault::Tag => room.tag = *b"ROOn",
            Fault::Small => room.kids()[0].size = Some(7),
            Fault::Past => {
                let last = room.kids().last_mut().expect("a block");
                last.size = Some(last.write().len() as u32 + 1);
            }
            Fault::Deep => {
                let nest = (0..5).fold(leaf(b"FILL", vec![]), |inner, _| container(r.pick(&CONTAINERS), vec![inner]));
                room.kids().insert(at, Node { tag: *b"IM42", ..nest });
            }
            Fault::Large => room.kids().insert(at, leaf(b"FILL", vec![0; 1_048_577 - 8 - size])),
            Fault::OwnSmall => room.find(&[b"TRNS"]).expect("a block").size = Some(7),
            Fault::OwnPast => room.find(&[b"TRNS"]).expect("a block").size = Some(0x8000_0000),
            _ => (),
        }
    }

    /// 2, 3, 5 to 8, and what of 12 lies in the room: the image's own place.
    fn spoil_blocks(self, room: &mut Node) {
        match self {
            Fault::Missing(i) => {
                let (path, tag, _) = NEEDED[i];
                room.find(path).expect("a container").kids().retain(|kid| &kid.tag != tag);
            }
            Fault::Cut(i) => {
                let (path, tag, fields) = NEEDED[i];
                bytes(room, &[path, &[tag]].concat()).truncate(fields - 1);
            }
            Fault::Width(w) => drop(bytes(room, &[b"RMHD"]).splice(..2, w.to_le_bytes())),
            Fault::Height(h) => drop(bytes(room, &[b"RMHD"]).splice(2..4, h.to_le_bytes())),
            Fault::Planes(n) => drop(bytes(room, &[b"RMIM", b"RMIH"]).splice(..2, n.to_le_bytes())),
            Fault::Objects => {
                let object = room.find(&[b"OBCD"]).expect("an object").clone();
                room.kids().extend(vec![object; 127]);
            }
            Fault::Strips { plane, number } => spoil_strips(room.find(&[b"RMIM", b"IM00"]), plane, number),
            Fault::Place => bytes(room, &[b"OBIM", b"IMHD"])[8] = 4,
            Fault::Image { number: 2, .. } => room.find(&[b"OBIM", b"IM01"]).expect("a state").kids().retain(|kid| &kid.tag != b"SMAP"),
            Fault::Image { plane, number } => spoil_strips(room.find(&[b"OBIM", b"IM01"]), plane, number),
            _ => (),
        }
    }

    /// A room that is refused with this number.
    fn other_room(number: u32) -> Vec<u8> {
        let (mut room, r) = (ground_room(), &mut Rng::new(0));
        match number {
            1 => Fault::Stray.spoil_tree(r, &mut room),
            2 => Fault::Missing(1).spoil_blocks(&mut room),
            3 => Fault::Width(0).spoil_blocks(&mut room),
            _ => Fault::Strips { plane: false, number }.spoil_blocks(&mut room),
        }
        room.write()
    }

    /// What the call is lent, and its numbers.
    fn spoil_lent(self, lent: &mut Lent) {
        match self {
            Fault::Short(Buffer::Record) => drop(lent.record.pop()),
            Fault::Short(Buffer::Session) => drop(lent.session.pop()),
            Fault::Short(Buffer::Pixels) => drop(lent.pixels.pop()),
            Fault::Short(Buffer::Masks) => drop(lent.masks.pop()),
            Fault::Short(Buffer::Flags) => drop(lent.flags.pop()),
            Fault::Short(Buffer::Header) => drop(lent.header.pop()),
            Fault::Short(Buffer::Rows) => drop(lent.rows.pop()),
            Fault::Short(Buffer::List) => (lent.list, lent.other) = (vec![], small_room(W, 3).write()),
            Fault::Session => lent.session[0] = 65,
            Fault::History => {
                lent.session = one_step();
                lent.session[0] = 64;
                (0..64).for_each(|i| lent.session[2 + 5 * i..7 + 5 * i].copy_from_slice(&[1, 1, 1, 0, 0]));
            }
            Fault::Object => lent.object = 3,
            Fault::Place => lent.a = 2,
            Fault::Nothing => lent.session = vec![0; 450],
            Fault::Outside => lent.x = W as u32,
            Fault::Sizes => lent.other = small_room(W + 8, 9).write(),
            Fault::Other { number } => lent.other = Fault::other_room(number),
            _ => (),
        }
    }

    /// The small room with this fault and a TRNS block, empty or good, at any place; and what the call is lent.
    pub fn make(self, r: &mut Rng, call: Call, empty: bool) -> (Vec<u8>, Lent) {
        let (mut room, mut lent) = (ground_room(), Lent::of(call));
        let (at, payload) = (r.below(room.kids().len() + 1), if empty { vec![] } else { vec![r.byte()] });
        room.kids().insert(at, leaf(b"TRNS", payload));
        self.spoil_blocks(&mut room);
        self.spoil_tree(r, &mut room);
        self.spoil_lent(&mut lent);
        (room.write(), lent)
    }
}

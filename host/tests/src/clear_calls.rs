//! Every call that takes a room, on the small room of clear_rooms.rs: what it is lent, what it answers, and what it must leave.

use crate::calls::{self, Turn};
use crate::clear_rooms::{drawn, ground_room, listed, loaded, recorded, H, OBJECTS, W};
use crate::comparison::Comparison;

/// A call, the comparison with the room in either place.
#[derive(Clone, Copy, Debug, PartialEq, Eq, PartialOrd, Ord)]
pub enum Call {
    Record,
    Load,
    DrawLast,
    DrawAt,
    Hide,
    TakeBack,
    ObjectAt,
    List,
    Header,
    /// kg_name and kg_name_number.
    Name,
    CompareA,
    CompareB,
}

pub const CALLS: [Call; 12] = [
    Call::Record,
    Call::Load,
    Call::DrawLast,
    Call::DrawAt,
    Call::Hide,
    Call::TakeBack,
    Call::ObjectAt,
    Call::List,
    Call::Header,
    Call::Name,
    Call::CompareA,
    Call::CompareB,
];

impl Call {
    pub fn name(self) -> &'static str {
        match self {
            Call::Record => "record",
            Call::Load => "load",
            Call::DrawLast => "draw_last",
            Call::DrawAt => "draw_at",
            Call::Hide => "hide",
            Call::TakeBack => "take_back",
            Call::ObjectAt => "object_at",
            Call::List => "list",
            Call::Header => "header",
            Call::Name => "name_number",
            Call::CompareA | Call::CompareB => "compare",
        }
    }
}

pub const DRAWS: [Call; 2] = [Call::DrawLast, Call::DrawAt];
pub const TURNS: [Call; 4] = [Call::DrawLast, Call::DrawAt, Call::Hide, Call::TakeBack];
pub const COMPARES: [Call; 2] = [Call::CompareA, Call::CompareB];

/// What a call is lent beside the room, and its numbers. Each call takes what it has.
#[derive(Clone)]
pub struct Lent {
    pub session: Vec<u8>,
    pub pixels: Vec<u8>,
    pub masks: Vec<u8>,
    pub record: Vec<u8>,
    pub header: Vec<u8>,
    pub rows: Vec<u8>,
    pub flags: Vec<u8>,
    pub list: Vec<u8>,
    /// The other room of a comparison.
    pub other: Vec<u8>,
    pub object: u32,
    pub a: u32,
    pub x: u32,
}

/// A session of one step and entry: object 1 drawn in state 1 where it last was.
pub fn one_step() -> Vec<u8> {
    let mut session = vec![0; 450];
    session[..5].copy_from_slice(&[1, 1, 1, 1, 1]);
    session[322..324].copy_from_slice(&[1, 1]);
    session
}

impl Lent {
    /// What a call is accepted with. The surfaces of a hide and of a take-back are strange ones, so that what is rebuilt shows.
    pub fn of(call: Call) -> Lent {
        let ([pixels, masks], undo) = (loaded(), matches!(call, Call::Hide | Call::TakeBack));
        Lent {
            session: if undo { one_step() } else { vec![0; 450] },
            pixels: if undo { vec![77; pixels.len()] } else { pixels },
            masks: if undo { vec![78; masks.len()] } else { masks },
            record: vec![79; 16],
            header: vec![80; 16],
            rows: vec![82; 32 * OBJECTS],
            flags: vec![0; OBJECTS],
            list: vec![81; 8],
            other: ground_room().write(),
            object: 1,
            a: 1,
            x: 0,
        }
    }

    fn turn(&self, b: &mut Comparison, room: &[u8], turn: Turn) -> (u32, Vec<u8>) {
        let (number, after) = calls::turn(b, turn, room, &[self.session.clone(), self.pixels.clone(), self.masks.clone()]);
        (number, after[1..].concat())
    }

    /// The call's number, and what it leaves of a record or of the surfaces or what it answers.
    pub fn ask(&self, b: &mut Comparison, call: Call, room: &[u8]) -> (u32, Vec<u8>) {
        let (object, state) = (self.object, 1);
        match call {
            Call::Record => calls::record(b, room, &self.record),
            Call::Load => {
                let (number, after) = calls::load(b, room, &self.session, &self.pixels, &self.masks);
                (number, after[1..].concat())
            }
            Call::DrawLast => self.turn(b, room, Turn::DrawLast { object, state }),
            Call::DrawAt => self.turn(b, room, Turn::DrawAt { object, state, a: self.a, b: 0 }),
            Call::Hide => self.turn(b, room, Turn::Hide { object }),
            Call::TakeBack => self.turn(b, room, Turn::TakeBack),
            Call::ObjectAt => {
                let (number, found) = calls::object_at(b, room, &self.session, &self.flags, self.x, 0);
                (number, vec![found as u8])
            }
            Call::List => self.list(b, room),
            Call::Header => (calls::header(b, room, &self.header, object), vec![]),
            Call::Name => (calls::name(b, room, object), vec![]),
            Call::CompareA => self.compare(b, room, &self.other),
            Call::CompareB => self.compare(b, &self.other, room),
        }
    }

    /// The listing's number, its record, and its rows with the names themselves in place of where they stand.
    fn list(&self, b: &mut Comparison, room: &[u8]) -> (u32, Vec<u8>) {
        let (number, [record, rows]) = calls::list(b, room, &self.record, &self.rows);
        let named = |row: &[u8]| {
            let [start, length] = [16, 20].map(|at| u32::from_le_bytes([row[at], row[at + 1], row[at + 2], row[at + 3]]) as usize);
            [&row[..16], room.get(start..).and_then(|rest| rest.get(..length)).unwrap_or(b"no name of the room"), &row[24..]].concat()
        };
        (number, record.into_iter().chain(rows.chunks_exact(32).flat_map(named)).collect())
    }

    fn compare(&self, b: &mut Comparison, one: &[u8], other: &[u8]) -> (u32, Vec<u8>) {
        let (number, places, list) = calls::compare(b, one, other, &self.list);
        (number, [vec![places as u8], list].concat())
    }

    /// What an accepted call must leave in a room with this index.
    pub fn left(&self, call: Call, clear: u8) -> Vec<u8> {
        match call {
            Call::Record => recorded(clear),
            Call::List => [recorded(clear), listed()].concat(),
            Call::Load => loaded().concat(),
            Call::DrawLast => drawn(clear, 0).concat(),
            Call::DrawAt => drawn(clear, 1).concat(),
            Call::Hide | Call::TakeBack => self.rebuilt(),
            Call::ObjectAt => vec![1],
            // "Only decoded content counts": the rooms are alike, whatever their indexes.
            Call::CompareA | Call::CompareB => [vec![0], self.list.clone()].concat(),
            Call::Header | Call::Name => vec![],
        }
    }

    /// The lent surfaces with strip 0 as after a load.
    fn rebuilt(&self) -> Vec<u8> {
        let ([mut pixels, mut masks], [fresh_pixels, fresh_masks]) = ([self.pixels.clone(), self.masks.clone()], loaded());
        for y in 0..H {
            pixels[y * W..y * W + 8].copy_from_slice(&fresh_pixels[y * W..y * W + 8]);
            masks[y * (W / 8)] = fresh_masks[y * (W / 8)];
        }
        [pixels, masks].concat()
    }
}

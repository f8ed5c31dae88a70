//! The C interface (include/kildegrom.h), each call beside the reference's.

use crate::comparison::{Comparison, CAST};
use crate::place_scenes;
use common::calls::*;
use reference::cast::{self as casts, Record};
use reference::{actor, compare as compares, costume, listing, load as loads, object, session as sessions, write};

/// A number alone, and a number with a value (docs/LAYOUTS.md, "Answers of two parts").
fn number(number: u32) -> (u32, u64) {
    (number, number as u64)
}

fn word(answer: Result<usize, u32>) -> (u32, u64) {
    match answer {
        Ok(value) => (0, (value as u64) << 32),
        Err(number) => (number, number as u64),
    }
}

/// The record: its number, and its bytes afterwards.
pub fn record(b: &mut Comparison, room: &[u8], record: &[u8]) -> (u32, Vec<u8>) {
    let library = |p: &[*mut u8]| unsafe { kg_record(p[0], room.len(), p[1], record.len()) as u64 };
    let buffers = [("room", room), ("record", record)];
    let mut judged = Ok(());
    let (answer, _, mut after) = b.case("record", &[], &buffers, library, |after| {
        judged = loads::try_record(room, &mut after[1]);
        number(loads::number(judged))
    });
    place_scenes::judged(b, "record", room, judged);
    (answer, after.pop().unwrap())
}

/// The load: its number, and session, pixels and masks afterwards.
pub fn load(b: &mut Comparison, room: &[u8], session: &[u8], pixels: &[u8], masks: &[u8]) -> (u32, [Vec<u8>; 3]) {
    let library = |p: &[*mut u8]| unsafe { kg_load(p[0], room.len(), p[1], session.len(), p[2], pixels.len(), p[3], masks.len()) as u64 };
    let buffers = [("room", room), ("session", session), ("pixels", pixels), ("masks", masks)];
    let mut judged = Ok(());
    let (answer, _, after) = b.case("load", &[], &buffers, library, |after| {
        let [_, session, pixels, masks] = after else { unreachable!() };
        judged = loads::try_load(room, session, pixels, masks);
        number(loads::number(judged))
    });
    place_scenes::judged(b, "load", room, judged);
    (answer, surfaces(after))
}

fn surfaces(after: Vec<Vec<u8>>) -> [Vec<u8>; 3] {
    let [_, session, pixels, masks] = <[Vec<u8>; 4]>::try_from(after).expect("room, session, pixels, masks");
    [session, pixels, masks]
}

/// A call that changes the session, with its numbers as a stranger hands them over.
#[derive(Clone, Copy, Debug)]
pub enum Turn {
    DrawLast { object: u32, state: u32 },
    DrawAt { object: u32, state: u32, a: u32, b: u32 },
    Hide { object: u32 },
    TakeBack,
}

impl Turn {
    pub fn name(self) -> &'static str {
        match self {
            Turn::DrawLast { .. } => "draw_last",
            Turn::DrawAt { .. } => "draw_at",
            Turn::Hide { .. } => "hide",
            Turn::TakeBack => "take_back",
        }
    }

    fn numbers(self) -> Vec<i64> {
        let numbers = match self {
            Turn::DrawLast { object, state } => vec![object, state],
            Turn::DrawAt { object, state, a, b } => vec![object, state, a, b],
            Turn::Hide { object } => vec![object],
            Turn::TakeBack => vec![],
        };
        numbers.into_iter().map(i64::from).collect()
    }
}

/// A draw, hide or take-back on `lent`, the session, pixels and masks: its number and these afterwards.
pub fn turn(b: &mut Comparison, turn: Turn, room: &[u8], lent: &[Vec<u8>; 3]) -> (u32, [Vec<u8>; 3]) {
    let (size, [s, x, m]) = (room.len(), [lent[0].len(), lent[1].len(), lent[2].len()]);
    let library = |p: &[*mut u8]| unsafe {
        match turn {
            Turn::DrawLast { object, state } => kg_draw_last(p[0], size, p[1], s, p[2], x, p[3], m, object, state) as u64,
            Turn::DrawAt { object, state, a, b } => kg_draw_at(p[0], size, p[1], s, p[2], x, p[3], m, object, state, a, b) as u64,
            Turn::Hide { object } => kg_hide(p[0], size, p[1], s, p[2], x, p[3], m, object) as u64,
            Turn::TakeBack => kg_take_back(p[0], size, p[1], s, p[2], x, p[3], m) as u64,
        }
    };
    let buffers: [(&str, &[u8]); 4] = [("room", room), ("session", &lent[0]), ("pixels", &lent[1]), ("masks", &lent[2])];
    let (answer, _, after) = b.case(turn.name(), &turn.numbers(), &buffers, library, |after| {
        let [_, session, pixels, masks] = after else { unreachable!() };
        number(match turn {
            Turn::DrawLast { object, state } => sessions::draw_last(room, session, pixels, masks, object, state),
            Turn::DrawAt { object, state, a, b } => sessions::draw_at(room, session, pixels, masks, [object, state, a, b]),
            Turn::Hide { object } => sessions::hide(room, session, pixels, masks, object),
            Turn::TakeBack => sessions::take_back(room, session, pixels, masks),
        })
    });
    place_scenes::drawn(b, turn, room, &lent[0], answer);
    (answer, surfaces(after))
}

/// The object under a point: the call's number, and the object's.
pub fn object_at(b: &mut Comparison, room: &[u8], session: &[u8], flags: &[u8], x: u32, y: u32) -> (u32, usize) {
    let library = |p: &[*mut u8]| unsafe { kg_object_at(p[0], room.len(), p[1], session.len(), p[2], flags.len(), x, y) };
    let buffers = [("room", room), ("session", session), ("flags", flags)];
    let numbers = [x, y].map(i64::from);
    let (number, answer, _) =
        b.case("object_at", &numbers, &buffers, library, |_| word(reference::point::object_at(room, session, flags, x, y)));
    (number, (answer >> 32) as usize)
}

/// The listing: its number, and record and rows afterwards.
pub fn list(b: &mut Comparison, room: &[u8], record: &[u8], rows: &[u8]) -> (u32, [Vec<u8>; 2]) {
    let library = |p: &[*mut u8]| unsafe { kg_list(p[0], room.len(), p[1], record.len(), p[2], rows.len()) as u64 };
    let buffers = [("room", room), ("record", record), ("rows", rows)];
    let (answer, _, after) = b.case("list", &[], &buffers, library, |after| {
        let [_, record, rows] = after else { unreachable!() };
        number(listing::list(room, record, rows))
    });
    let [_, record, rows] = <[Vec<u8>; 3]>::try_from(after).expect("room, record, rows");
    (answer, [record, rows])
}

pub fn header(b: &mut Comparison, room: &[u8], header: &[u8], which: u32) -> u32 {
    let library = |p: &[*mut u8]| unsafe { kg_header(p[0], room.len(), p[1], header.len(), which) as u64 };
    let buffers = [("room", room), ("header", header)];
    b.case("header", &[which as i64], &buffers, library, |after| number(object::header(room, &mut after[1], which))).0
}

/// The name and its number: both calls.
pub fn name(b: &mut Comparison, room: &[u8], which: u32) -> u32 {
    let (answer, start, length) = object::name(room, which);
    let library = |p: &[*mut u8]| unsafe { kg_name(p[0], room.len(), which) };
    let place = start as u64 | (length as u64) << 32;
    b.case("name", &[which as i64], &[("room", room)], library, |_| (answer, place));
    let library = |p: &[*mut u8]| unsafe { kg_name_number(p[0], room.len(), which) as u64 };
    b.case("name_number", &[which as i64], &[("room", room)], library, |_| number(answer)).0
}

pub fn hidden(b: &mut Comparison, masks: &[u8], [w, h, n]: [u32; 3], clip: u32, (x, y): (u32, u32)) {
    let library = |p: &[*mut u8]| unsafe { kg_hidden(p[0], masks.len(), w, h, n, clip, x, y) };
    let numbers = [w, h, n, clip, x, y].map(i64::from);
    b.case("hidden", &numbers, &[("masks", masks)], library, |_| word(actor::hidden(masks, w, h, n, clip, x, y).map(usize::from)));
}

/// A stamp: its number, and the frame after it.
pub fn stamp(b: &mut Comparison, frame: &[u8], masks: &[u8], [w, h, n]: [u32; 3], a: &actor::Actor) -> (u32, Vec<u8>) {
    let library = |p: &[*mut u8]| unsafe {
        let (width, height) = (a.width, a.height);
        kg_stamp(p[0], frame.len(), p[1], masks.len(), p[2], a.picture.len(), w, h, n, width, height, a.x, a.y, a.clip, a.clear) as u64
    };
    let numbers = [w as i64, h as i64, n as i64, a.width as i64, a.height as i64, a.x as i64, a.y as i64, a.clip as i64, a.clear as i64];
    let buffers = [("frame", frame), ("masks", masks), ("picture", a.picture)];
    let (answer, _, after) = b.case("stamp", &numbers, &buffers, library, |after| number(actor::stamp(&mut after[0], masks, w, h, n, a)));
    (answer, after.into_iter().next().expect("a frame"))
}

/// What a cast is painted with, beside its list and its frame.
#[derive(Clone, Copy)]
pub struct Setting<'a> {
    pub masks: &'a [u8],
    pub pictures: &'a [u8],
    /// W, H and N.
    pub sizes: [u32; 3],
    pub clear: u8,
}

/// The records as the machine keeps them.
fn bytes_of(list: &[Record]) -> Vec<u8> {
    list.iter().flat_map(Record::bytes).collect()
}

fn records_of(bytes: &[u8]) -> Vec<Record> {
    bytes.chunks_exact(casts::RECORD).map(|bytes| Record::read(bytes.try_into().expect("a record's bytes"))).collect()
}

/// W, H, N, the index and the records' fields, so that a failure tells its input. A list that is refused for its length is cut.
fn cast_numbers(list: &[Record], setting: &Setting) -> Vec<i64> {
    let [w, h, n] = setting.sizes;
    let head = [w, h, n, setting.clear as u32].map(i64::from);
    let fields = list.iter().take(casts::MOST + 2).flat_map(|a| {
        let ([id, width, height], [clip, start]) = ([a.id, a.width, a.height].map(i64::from), [a.clip, a.start].map(i64::from));
        let [y, left, top] = [a.y, a.left, a.top].map(i64::from);
        [id, y, left, top, width, height, clip, start]
    });
    head.into_iter().chain(fields).collect()
}

/// A cast: its number, and list and frame after it.
pub fn cast(b: &mut Comparison, list: &[Record], frame: &[u8], setting: &Setting) -> (u32, Vec<Record>, Vec<u8>) {
    let Setting { masks, pictures, sizes: [w, h, n], clear } = *setting;
    let (count, [f, m, p]) = (list.len(), [frame.len(), masks.len(), pictures.len()]);
    let library = |at: &[*mut u8]| unsafe { kg_cast(at[0].cast(), count, at[1], f, at[2], m, at[3], p, w, h, n, clear) as u64 };
    let numbers = cast_numbers(list, setting);
    let bytes = bytes_of(list);
    let buffers: [(&str, &[u8]); 4] = [(CAST, &bytes), ("frame", frame), ("masks", masks), ("pictures", pictures)];
    let (answer, _, after) = b.case("cast", &numbers, &buffers, library, |after| {
        let mut list = records_of(&after[0]);
        let answer = casts::cast(&mut list, &mut after[1], masks, pictures, [w, h, n], clear);
        after[0] = bytes_of(&list);
        number(answer)
    });
    let [list, frame, ..] = <[Vec<u8>; 4]>::try_from(after).expect("list, frame, masks, pictures");
    (answer, records_of(&list), frame)
}

/// Where a costume's offset table, with how many offsets, and its stream stand, as the caller gives it.
#[derive(Clone, Copy)]
pub struct Costume {
    pub table: u32,
    pub count: u32,
    pub command: u32,
}

/// A start: the limbs after it.
pub fn start(b: &mut Comparison, payload: &[u8], limbs: &[u8], costume: Costume, chore: u32, direction: u32) -> Vec<u8> {
    let Costume { table, count, command } = costume;
    let library = |p: &[*mut u8]| unsafe { kg_start(p[0], payload.len(), p[1], limbs.len(), table, count, command, chore, direction) };
    let numbers = [table, count, command, chore, direction].map(i64::from);
    let (_, _, mut after) = b.case("start", &numbers, &[("payload", payload), ("limbs", limbs)], library, |after| {
        word(costume::start(payload, &mut after[1], table, count, command, chore, direction).map(usize::from))
    });
    after.pop().unwrap()
}

/// A tick: the limbs after it.
pub fn tick(b: &mut Comparison, payload: &[u8], limbs: &[u8], command: u32) -> Vec<u8> {
    let library = |p: &[*mut u8]| unsafe { kg_tick(p[0], payload.len(), p[1], limbs.len(), command) as u64 };
    let (_, _, mut after) = b.case("tick", &[command as i64], &[("payload", payload), ("limbs", limbs)], library, |after| {
        number(costume::tick(payload, &mut after[1], command))
    });
    after.pop().unwrap()
}

/// The question whether a limb draws: its number.
pub fn limb_draws(b: &mut Comparison, limbs: &[u8], limb: u32) -> u32 {
    let library = |p: &[*mut u8]| unsafe { kg_limb_draws(p[0], limbs.len(), limb) };
    let (number, ..) = b.case("limb_draws", &[limb as i64], &[("limbs", limbs)], library, |_| {
        word(costume::limb_draws(limbs, limb).map(|picture| picture.map_or(0, |picture| 256 + picture as usize)))
    });
    number
}

/// The comparison of two rooms: its number, how many places it fills, and the list afterwards.
pub fn compare(b: &mut Comparison, one: &[u8], other: &[u8], list: &[u8]) -> (u32, usize, Vec<u8>) {
    let library = |p: &[*mut u8]| unsafe { kg_compare(p[0], one.len(), p[1], other.len(), p[2], list.len()) };
    let buffers = [("a", one), ("b", other), ("list", list)];
    let (number, answer, mut after) = b.case("compare", &[], &buffers, library, |after| word(compares::compare(one, other, &mut after[2])));
    (number, (answer >> 32) as usize, after.pop().unwrap())
}

/// The same where both rooms are one place in memory.
pub fn compare_itself(b: &mut Comparison, room: &[u8], list: &[u8]) -> (u32, usize, Vec<u8>) {
    let library = |p: &[*mut u8]| unsafe { kg_compare(p[0], room.len(), p[0], room.len(), p[1], list.len()) };
    let (number, answer, mut after) =
        b.case("compare", &[], &[("room", room), ("list", list)], library, |after| word(compares::compare(room, room, &mut after[1])));
    (number, (answer >> 32) as usize, after.pop().unwrap())
}

/// A written block, header included; nothing if refused.
pub fn write_smap(b: &mut Comparison, rows: &[u8], out: &[u8], w: u32, h: u32) -> Vec<u8> {
    let library = |p: &[*mut u8]| unsafe { kg_write_smap(p[0], rows.len(), p[1], out.len(), w, h) };
    let numbers = [w, h].map(i64::from);
    let (_, answer, mut after) =
        b.case("write_smap", &numbers, &[("rows", rows), ("out", out)], library, |after| word(write::smap(rows, &mut after[1], w, h)));
    after[1].drain(..(answer >> 32) as usize).collect()
}

pub fn write_plane(b: &mut Comparison, rows: &[u8], out: &[u8], w: u32, h: u32, k: u32) -> Vec<u8> {
    let library = |p: &[*mut u8]| unsafe { kg_write_plane(p[0], rows.len(), p[1], out.len(), w, h, k) };
    let numbers = [w, h, k].map(i64::from);
    let (_, answer, mut after) =
        b.case("write_plane", &numbers, &[("rows", rows), ("out", out)], library, |after| word(write::plane(rows, &mut after[1], w, h, k)));
    after[1].drain(..(answer >> 32) as usize).collect()
}

/// Bare loads for the speed: library, then reference.
pub fn bare_load(room: &[u8], session: &mut [u8], pixels: &mut [u8], masks: &mut [u8], library: bool) -> u32 {
    if !library {
        return loads::load(room, session, pixels, masks);
    }
    let (s, p, m) = (session.len(), pixels.len(), masks.len());
    unsafe { kg_load(room.as_ptr(), room.len(), session.as_mut_ptr(), s, pixels.as_mut_ptr(), p, masks.as_mut_ptr(), m) }
}

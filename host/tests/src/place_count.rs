//! The kinds of faults whose place a full run must have held (places.rs), in rooms and in objects' images. One that is never told fails the run.

use crate::planned;
use reference::fault::{Cause, Fault, Field, Part, Stop, Wrong};

#[derive(Clone, Copy, Debug, PartialEq, Eq, PartialOrd, Ord)]
pub struct Case {
    /// In an object's image, else in the room.
    pub image: bool,
    pub kind: &'static str,
}

impl planned::Case for Case {
    const GROUPS: &'static [&'static str] = &["kinds of faults in a room", "kinds of faults in an object's image"];
    const ALL: &'static str = "kinds of faults";

    fn group(&self) -> usize {
        self.image as usize
    }

    fn name(&self) -> String {
        format!("the place of {} in {}", self.kind, if self.image { "an image" } else { "a room" })
    }
}

/// What only a room has: refusals 1 to 3.
const ROOM: [&str; 23] = [
    "a room over the size",
    "a room without a header",
    "another tag",
    "another size",
    "a size below 8",
    "a block past its container",
    "depth 7",
    "stray bytes",
    "no RMHD",
    "no RMIM",
    "no RMIH",
    "no IM00",
    "no CDHD",
    "no IMHD",
    "a short RMHD",
    "a short RMIH",
    "a short CDHD",
    "a short IMHD",
    "an empty TRNS",
    "a width",
    "a height",
    "a number of planes",
    "an object count",
];

/// What images have too.
const BOTH: [&str; 23] = [
    "no SMAP",
    "a short table",
    "a plane's short table",
    "a low offset",
    "a high offset",
    "an offset that falls",
    "a plane's low offset",
    "a plane's high offset",
    "a plane's offset that falls",
    "an unknown code",
    "a missing colour",
    "missing pixels of code 01",
    "a missing first bit",
    "a missing second bit",
    "a missing third bit",
    "a cut index",
    "a cut change",
    "a cut run",
    "a run past the end",
    "a missing operation byte",
    "cut rows",
    "a missing row",
    "rows past the end",
];

pub fn planned() -> Vec<Case> {
    let all = ROOM.into_iter().chain(BOTH).map(|kind| Case { image: false, kind });
    all.chain(BOTH.map(|kind| Case { image: true, kind })).collect()
}

fn missing(tag: &[u8; 4]) -> &'static str {
    match tag {
        b"RMHD" => "no RMHD",
        b"RMIM" => "no RMIM",
        b"RMIH" => "no RMIH",
        b"IM00" => "no IM00",
        b"CDHD" => "no CDHD",
        b"IMHD" => "no IMHD",
        _ => "no SMAP",
    }
}

fn short(fields: usize) -> &'static str {
    match fields {
        1 => "an empty TRNS",
        2 => "a short RMIH",
        6 => "a short RMHD",
        13 => "a short CDHD",
        _ => "a short IMHD",
    }
}

fn offset(width: usize, wrong: Wrong) -> &'static str {
    match (wrong, width) {
        (Wrong::Low { .. }, 4) => "a low offset",
        (Wrong::Low { .. }, _) => "a plane's low offset",
        (Wrong::High, 4) => "a high offset",
        (Wrong::High, _) => "a plane's high offset",
        (Wrong::Falls { .. }, 4) => "an offset that falls",
        (Wrong::Falls { .. }, _) => "a plane's offset that falls",
    }
}

fn strip(stop: &Stop) -> &'static str {
    match (stop.part, stop.number) {
        (Part::Code, _) => "an unknown code",
        (Part::Colour, _) => "a missing colour",
        (Part::Raw, _) => "missing pixels of code 01",
        (Part::Kind, _) if stop.at == stop.begins => "a missing first bit",
        (Part::Kind, _) => "a missing second bit",
        (Part::Step, _) => "a missing third bit",
        (Part::Index, _) => "a cut index",
        (Part::Change, _) => "a cut change",
        (Part::Run, 7) => "a cut run",
        (Part::Run, _) => "a run past the end",
        (Part::Operation, _) => "a missing operation byte",
        (Part::Literal, 7) => "cut rows",
        (Part::Copies, 7) => "a missing row",
        (Part::Literal | Part::Copies, _) => "rows past the end",
    }
}

fn kind(cause: &Cause) -> &'static str {
    match cause {
        Cause::Long => "a room over the size",
        Cause::Headless => "a room without a header",
        Cause::Tag => "another tag",
        Cause::Unequal => "another size",
        Cause::Small => "a size below 8",
        Cause::Passes { .. } => "a block past its container",
        Cause::Deep => "depth 7",
        Cause::Stray { .. } => "stray bytes",
        Cause::Missing { tag } => missing(tag),
        Cause::Short { fields } => short(*fields),
        Cause::Size { field: Field::Width, .. } => "a width",
        Cause::Size { field: Field::Height, .. } => "a height",
        Cause::Size { field: Field::Planes, .. } => "a number of planes",
        Cause::Size { field: Field::Objects, .. } => "an object count",
        Cause::Lent => "a short buffer",
        Cause::Table { width: 4, .. } => "a short table",
        Cause::Table { .. } => "a plane's short table",
        Cause::Offset { width, wrong, .. } => offset(*width, *wrong),
        Cause::Strip { stop, .. } => strip(stop),
    }
}

pub fn case(fault: &Fault, image: bool) -> Case {
    Case { image, kind: kind(&fault.cause) }
}

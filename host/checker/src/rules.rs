//! The rules that faults break, in the papers' own words.

use reference::fault::{Cause, Fault, Field, Part};

const BLOCKS: &str =
    "document 01: \"the slice isn't one ROOM block filling it, is over the size, a block size is below 8 or passes its parent, \
    children don't fill a container, or a block stands at depth 7\"";
const NEEDED: &str = "document 01: \"Needed: RMHD …, RMIM with RMIH (u16 plane count) and IM00 with SMAP.\"";
const IMAGE: &str = "document 01: \"then 2 and 5 to 8 for an object's image, SMAP before its planes as for the room\"";
const OBJECT: &str = "document 01: \"Each OBCD needs CDHD (13 bytes) and each OBIM needs IMHD (first 16 bytes)\"";
const FIELDS: &str = "document 01: \"a needed block is missing or shorter than its fixed fields\"";
const TRNS: &str = "change request 9: \"2 for an empty TRNS payload\"";
const TABLE: &str =
    "document 01: \"Table of S u32 little-endian offsets counted from the block header. Each is at least 8 + 4S, below the block size, \
    and above the one before it\"";
const PLANE_TABLE: &str =
    "document 01: \"u16 offsets; 0 means all rows zero, no body. The others: at least 8 + 2S, below the block size, rising among \
    themselves\"";
const CODES: &str =
    "document 01: \"Codes: 01 raw; first method 0E–12 vertical …, 18–1C horizontal …, 22–26 vertical transparent …, 2C–30 horizontal \
    transparent …; second method, horizontal, 40–44 …, 54–58 transparent …, 68–6C transparent …, 7C–80 …\"";
const BODY: &str = "document 01: \"Body: code, first colour, bits read from bit 0 up\"";
const RAW: &str = "change request 5: \"In a code 01 strip there is no colour byte: … the 8H pixels follow the code directly.\"";
const PIXELS: &str = "document 01: \"pixel 0 is the first colour and each operation gives the next\"";
const ROWS: &str = "document 01: \"An operation byte below 80 brings that many literal rows, else (byte − 80) copies of one byte.\"";
const RUN: &str = "change request 5: \"a second-method run of n gives n pixels, with 0 meaning 256\"";
const PAST_ROWS: &str = "document 01: \"Passing H is 8, tested before missing bytes, 7.\"";
pub const PLACE: &str = "document 01: \"x or image width not a multiple of 8, a zero size, or a box not wholly in the room\"";

fn size(field: Field) -> &'static str {
    match field {
        Field::Width => "document 01: \"Width W a multiple of 8, 8 to 1,024\"",
        Field::Height => "document 01: \"Height H 1 to 200.\"",
        Field::Planes => "document 01: \"Planes N 0 to 4.\"",
        Field::Objects => "document 01: \"Objects (OBCD blocks) 0 to 128.\"",
    }
}

/// The rule of a missing block; an object's image has its own.
fn missing(tag: &[u8; 4], in_object: bool) -> &'static str {
    match tag {
        b"CDHD" | b"IMHD" => OBJECT,
        b"SMAP" if in_object => IMAGE,
        _ => NEEDED,
    }
}

fn stopped(number: u32, part: Part) -> &'static str {
    match part {
        Part::Code if number == 6 => CODES,
        Part::Code | Part::Colour => BODY,
        Part::Raw => RAW,
        Part::Run if number == 8 => RUN,
        Part::Literal | Part::Copies if number == 8 => PAST_ROWS,
        Part::Operation | Part::Literal | Part::Copies => ROWS,
        _ => PIXELS,
    }
}

/// The rule that a fault breaks; `in_object` where it is an object's image's.
pub fn rule(fault: &Fault, in_object: bool) -> &'static str {
    match fault.cause {
        Cause::Missing { tag } => missing(&tag, in_object),
        Cause::Short { fields: 1 } => TRNS,
        Cause::Short { .. } => FIELDS,
        Cause::Size { field, .. } => size(field),
        Cause::Table { width: 2, .. } | Cause::Offset { width: 2, .. } => PLANE_TABLE,
        Cause::Table { .. } | Cause::Offset { .. } => TABLE,
        Cause::Strip { stop, .. } => stopped(stop.number, stop.part),
        _ => BLOCKS,
    }
}

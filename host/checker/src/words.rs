//! A fault in words: where it is, and what is wrong there.

use crate::rules;
use crate::texts::{are, byte, bytes, count, refusal};
use reference::fault::{Cause, Fault, Field, Part, Stop, Wrong};
use reference::strip::{self, Method};
use reference::tree::{self, Entry};

/// A place in the room, `at` being a bit of the body that starts at `start`. Masks have no bits of their own.
fn place(start: usize, at: usize, part: Part) -> String {
    let byte = byte(start + at / 8);
    if is_mask(part) {
        byte
    } else {
        format!("{byte}, bit {}", at % 8)
    }
}

/// A code in words.
fn code(code: u8) -> String {
    let kind = match strip::code(code) {
        None => return format!("code {code:02X}"),
        Some(strip::Code { method: Method::Raw, .. }) => "raw".into(),
        Some(strip::Code { method, vertical, bits }) => {
            let method = if matches!(method, Method::First) { "first" } else { "second" };
            let order = if vertical { "vertical" } else { "horizontal" };
            let clear = if strip::is_transparent(code) { ", transparent" } else { "" };
            format!("{method} method, {order}{clear}, {bits}-bit index")
        }
    };
    format!("code {code:02X}: {kind}")
}

fn is_mask(part: Part) -> bool {
    matches!(part, Part::Operation | Part::Literal | Part::Copies)
}

/// Where the next pixel or row lies: "pixel 88 of 0 to 1151: row 11, column 0".
fn reached(stop: &Stop, code: u8) -> String {
    let (i, last, h) = (stop.done, stop.all - 1, stop.all / 8);
    if is_mask(stop.part) {
        return format!("row {i} of 0 to {last}");
    }
    let vertical = strip::code(code).is_some_and(|code| code.vertical);
    let (row, column) = if vertical { (i % h, i / h) } else { (i / 8, i % 8) };
    format!("pixel {i} of 0 to {last}: row {row}, column {column}")
}

/// What is missing of a part, before the words that say where.
fn missing(stop: &Stop, code: u8) -> String {
    let there = stop.at - stop.begins;
    let index = strip::code(code).map_or(0, |code| code.bits);
    match stop.part {
        Part::Code => "the code is missing".into(),
        Part::Colour => "the first colour is missing".into(),
        Part::Raw => format!("of {} {} {} there", count(stop.all, "pixel byte"), stop.done, are(stop.done)),
        Part::Kind if there == 0 => "it needs a bit, and none is left".into(),
        Part::Kind => "it begins with 1 and needs a second bit, and none is left".into(),
        Part::Step => "it begins with 11 and needs a third bit, and none is left".into(),
        Part::Index => format!("it is a new index of {index} bits, of which {} {} there", there - 2, are(there - 2)),
        Part::Change => {
            format!("it begins with 11 and needs a 3-bit number, of which {} {} there", count(there - 2, "bit"), are(there - 2))
        }
        Part::Run => format!("it is a run, of whose 8-bit number {} {} there", count(there - 5, "bit"), are(there - 5)),
        Part::Operation => "it needs an operation byte, and none is left".into(),
        Part::Literal => format!("it brings {}, of which {} {} there", count(stop.gives, "literal row"), there / 8 - 1, are(there / 8 - 1)),
        Part::Copies => format!(
            "it brings {} of a byte, which is missing",
            if stop.gives == 1 { "1 copy".into() } else { format!("{} copies", stop.gives) }
        ),
    }
}

/// What passes the strip's end.
fn passing(stop: &Stop) -> String {
    let left = stop.all - stop.done;
    let what = match stop.part {
        Part::Literal => format!("it brings {}", count(stop.gives, "literal row")),
        Part::Copies => format!("it brings {} copies of a byte", stop.gives),
        _ => format!("it is a run of {}", count(stop.gives, "pixel")),
    };
    format!("{what}, and {left} {} left in the strip", are(left))
}

fn stopped(start: usize, stop: &Stop, body_code: u8) -> String {
    match stop.number {
        6 => format!("code {body_code:02X} is unknown"),
        7 => format!("{}: the body ends before {}", missing(stop, body_code), place(start, stop.at, stop.part)),
        _ => passing(stop),
    }
}

fn sized(field: Field, value: usize, at: usize) -> String {
    let (name, right) = match field {
        Field::Width => ("width", "a multiple of 8 from 8 to 1024"),
        Field::Height => ("height", "1 to 200"),
        Field::Planes => ("number of planes", "0 to 4"),
        Field::Objects => return format!("it has {value} OBCD blocks, and a room has at most 128 objects"),
    };
    format!("its {name}, at {}, is {value}, not {right}", byte(at))
}

fn offset(strip: usize, at: usize, value: usize, size: usize, wrong: Wrong) -> String {
    let reason = match wrong {
        Wrong::Low { lowest } => format!("header and table take the block's first {lowest} bytes"),
        Wrong::High => format!("it points past the block's {}", count(size, "byte")),
        Wrong::Falls { strip, value } => format!("it isn't above strip {strip}'s, {value}"),
    };
    format!("strip {strip}'s offset, at {}, is {value}: {reason}", byte(at))
}

/// What is wrong here, in a sentence.
pub fn sentence(room: &[u8], fault: &Fault) -> String {
    let (size, length) = (fault.size, room.len());
    match fault.cause {
        Cause::Long => "the file is longer than 1,048,576 bytes".into(),
        Cause::Headless => format!("the file has {}, and a block's header has 8", count(length, "byte")),
        Cause::Tag => format!("the first block is {}, not ROOM", tree::printable(&room[..4])),
        Cause::Unequal => format!("its size is {size}, and the file has {}", count(length, "byte")),
        Cause::Small => format!("its size is {size}, and its header alone has 8 bytes"),
        Cause::Passes { left } => format!("its size is {size}, and {} {} left in its container", count(left, "byte"), are(left)),
        Cause::Deep => "it stands at depth 7; ROOM is depth 1, and 6 is the deepest".into(),
        Cause::Stray { at, left } => {
            format!("its blocks end at {}, and {} {} left, too few for a block's header", byte(at), count(left, "byte"), are(left))
        }
        Cause::Missing { tag } => format!("it has no {} block", tree::text(tag)),
        Cause::Short { fields } => format!("its payload has {}, and its fixed fields have {fields}", count(size - 8, "byte")),
        Cause::Size { field, value, at } => sized(field, value, at),
        Cause::Lent => "a lent buffer is too short".into(),
        Cause::Table { strips, width } => format!(
            "its header and the table of {} of {width} bytes take {} bytes, and it has {size}",
            count(strips, "offset"),
            8 + strips * width
        ),
        Cause::Offset { strip, at, value, wrong, .. } => offset(strip, at, value, size, wrong),
        Cause::Strip { start, stop, .. } => stopped(start, &stop, room[start]),
    }
}

/// The lines that say where a strip's fault is: its body, and the operation.
fn strip_lines(room: &[u8], strip: usize, start: usize, end: usize, stop: &Stop) -> Vec<String> {
    let kind = if is_mask(stop.part) { String::new() } else { format!(", {}", code(room[start])) };
    let columns = format!("columns {} to {}", 8 * strip, 8 * strip + 7);
    let mut lines = vec![format!("strip {strip} ({columns}), its body {}{kind}", bytes(start, end))];
    if stop.operation > 0 {
        lines.push(format!(
            "operation {} begins at {}; {}",
            stop.operation,
            place(start, stop.begins, stop.part),
            reached(stop, room[start])
        ));
    }
    lines
}

/// The lines of a fault: its text, then, two spaces further in, its block, its place in it, what is wrong and the rule.
pub fn lines(room: &[u8], tree: &[Entry], fault: &Fault, in_object: bool) -> Vec<String> {
    let mut lines = vec![];
    if let Some(i) = tree::find(tree, fault) {
        lines.push(format!("block {} at {}, {}", tree::path(tree, i), byte(fault.at), count(fault.size, "byte")));
    }
    if let Cause::Strip { strip, start, end, stop } = fault.cause {
        lines.extend(strip_lines(room, strip, start, end, &stop));
    }
    lines.push(sentence(room, fault));
    lines.push(format!("rule: {}", rules::rule(fault, in_object)));
    let number = fault.number();
    let head = format!("refused {number}: {}", refusal(number));
    std::iter::once(head).chain(lines.into_iter().map(|line| format!("  {line}"))).collect()
}

#[cfg(test)]
mod tests {
    use super::*;
    use reference::{mask, room};

    /// The lines of a bad body that begins at byte 100, of a strip of h rows.
    fn told(body: &[u8], h: usize, is_mask: bool) -> [String; 3] {
        let room = [vec![0; 100], body.to_vec()].concat();
        let stop = if is_mask { mask::read(body, h) } else { strip::read(body, h) }.expect_err("a bad strip");
        let mut lines = strip_lines(&room, 2, 100, room.len(), &stop);
        lines.resize(2, String::new());
        [lines.swap_remove(0), lines.swap_remove(0), stopped(100, &stop, body[0])]
    }

    /// Document 01's worked rows, cut and spoilt (reference/src/place_rows.rs has the places).
    #[test]
    fn strips() {
        let body = |bytes: &str, code: &str| format!("strip 2 (columns 16 to 23), its body {bytes}{code}");
        let first = ", code 1C: first method, horizontal, 8-bit index";
        let begins = |operation, place: &str, reached: &str| format!("operation {operation} begins at {place}; {reached}");
        let row = [0x1C, 5, 0xB6, 0x97, 0, 0];
        let wanted = [
            body("bytes 100 (0x64) to 103 (0x67)", first),
            begins(5, "byte 103 (0x67), bit 2", "pixel 5 of 0 to 15: row 0, column 5"),
            "it is a new index of 8 bits, of which 4 are there: the body ends before byte 104 (0x68), bit 0".into(),
        ];
        assert_eq!(told(&row[..4], 2, false), wanted);
        let wanted =
            [body("byte 100 (0x64)", first), "".into(), "the first colour is missing: the body ends before byte 101 (0x65), bit 0".into()];
        assert_eq!(told(&row[..1], 2, false), wanted);
        let wanted = [
            body("bytes 100 (0x64) to 102 (0x66)", ", code 26: first method, vertical, transparent, 8-bit index"),
            begins(7, "byte 102 (0x66), bit 6", "pixel 7 of 0 to 15: row 1, column 3"),
            "it begins with 11 and needs a third bit, and none is left: the body ends before byte 103 (0x67), bit 0".into(),
        ];
        assert_eq!(told(&[0x26, 5, 0xC0], 2, false), wanted);
        let wanted = [
            body("bytes 100 (0x64) to 103 (0x67)", ", code 01: raw"),
            "".into(),
            "of 8 pixel bytes 3 are there: the body ends before byte 104 (0x68), bit 0".into(),
        ];
        assert_eq!(told(&[1, 9, 9, 9], 1, false), wanted);
    }

    #[test]
    fn masks() {
        let wanted = [
            "strip 2 (columns 16 to 23), its body bytes 100 (0x64) to 103 (0x67)",
            "operation 2 begins at byte 102 (0x66); row 3 of 0 to 5",
            "it brings 3 literal rows, of which 1 is there: the body ends before byte 104 (0x68)",
        ];
        assert_eq!(told(&[0x83, 0, 3, 1], 6, true), wanted);
        assert_eq!(told(&[0x83], 6, true)[2], "it brings 3 copies of a byte, which is missing: the body ends before byte 101 (0x65)");
        assert_eq!(told(&[0x87], 6, true)[2], "it brings 7 copies of a byte, and 6 are left in the strip");
        assert_eq!(told(&[0x83, 0], 6, true)[2], "it needs an operation byte, and none is left: the body ends before byte 102 (0x66)");
    }

    /// Row 10 cut, and measured in a strip that is too short for its run.
    #[test]
    fn second_method() {
        let row = [0x44, 0x10, 0x63, 0x36, 0xE4, 7];
        let ends = ": the body ends before byte 103 (0x67), bit 0";
        assert_eq!(told(&row[..3], 2, false)[2], format!("it begins with 11 and needs a 3-bit number, of which 1 bit is there{ends}"));
        assert_eq!(told(&row, 1, false)[1], "operation 2 begins at byte 102 (0x66), bit 5; pixel 2 of 0 to 7: row 0, column 2");
        assert_eq!(told(&row, 1, false)[2], "it is a run of 13 pixels, and 6 are left in the strip");
    }

    /// Rooms that are no room: the sentence, and no block where there is none.
    #[test]
    fn whole_rooms() {
        let told = |bytes: &[u8]| {
            let fault = room::judge(bytes, |_| true).err().expect("a bad room");
            lines(bytes, &tree::tree(bytes), &fault, false)[1..].iter().take(2).map(|line| line.trim().into()).collect::<Vec<String>>()
        };
        assert_eq!(told(b"ROOM\0\0\0")[0], "the file has 7 bytes, and a block's header has 8");
        assert_eq!(told(b"RO\nF\0\0\0\x08"), ["block RO?F at byte 0 (0x0), 8 bytes", "the first block is RO?F, not ROOM"]);
        let stray =
            ["block ROOM at byte 0 (0x0), 9 bytes", "its blocks end at byte 8 (0x8), and 1 byte is left, too few for a block's header"];
        assert_eq!(told(b"ROOM\0\0\0\x09x"), stray);
        assert_eq!(told(b"ROOM\0\0\0\x07")[1], "its size is 7, and its header alone has 8 bytes");
    }
}

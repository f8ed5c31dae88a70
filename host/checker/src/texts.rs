//! The refusals' texts, as include/kildegrom.h has them, and how places and names are written.

use reference::tree::printable;

const HEADER: &str = include_str!("../../../include/kildegrom.h");

/// The text of a number, as kg_refusal_text gives it: the header's line `X(NAME, NUMBER, "TEXT")`.
pub fn refusal(number: u32) -> &'static str {
    let start = format!(", {number}, \"");
    let lines = HEADER.lines().filter(|line| line.trim_start().starts_with("X(KG_"));
    let text = lines.filter_map(|line| line.split_once(&start)).find_map(|(_, rest)| rest.split_once("\")"));
    text.map_or("unknown number", |(text, _)| text)
}

/// `byte 1310 (0x51e)`
pub fn byte(at: usize) -> String {
    format!("byte {at} (0x{at:x})")
}

/// `bytes 1300 (0x514) to 1309 (0x51d)`; of one byte, the byte.
pub fn bytes(start: usize, end: usize) -> String {
    match end - start {
        1 => byte(start),
        _ => format!("bytes {start} (0x{start:x}) to {} (0x{:x})", end - 1, end - 1),
    }
}

/// `1 byte`, `2 bytes`
pub fn count(number: usize, thing: &str) -> String {
    format!("{number} {thing}{}", if number == 1 { "" } else { "s" })
}

/// `there is 1 bit`, `there are 2 bits`: the verb.
pub fn are(number: usize) -> &'static str {
    if number == 1 {
        "is"
    } else {
        "are"
    }
}

/// A name in quotation marks.
pub fn quoted(name: &[u8]) -> String {
    format!("\"{}\"", printable(name))
}

#[test]
fn texts() {
    assert_eq!((refusal(0), refusal(7), refusal(18)), ("accepted", "strip bytes run out", "a cast has more than 32 actors"));
    assert_eq!(refusal(17), "unknown number");
    assert_eq!((bytes(16, 17), bytes(16, 18)), ("byte 16 (0x10)".into(), "bytes 16 (0x10) to 17 (0x11)".into()));
}

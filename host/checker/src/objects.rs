//! The objects' images in words.

use crate::library::Loaded;
use crate::rules;
use crate::texts::{byte, count, quoted, refusal};
use crate::words;
use reference::inspect::{Header, Inspected, State, Verdict};
use reference::room::Room;
use reference::tree::{self, Entry};

/// What is told of the images: lines, those of --quiet alone, words for blocks of the tree, and where the library says otherwise.
#[derive(Default)]
pub struct Told {
    pub lines: Vec<String>,
    pub refused: Vec<String>,
    pub marks: Vec<(usize, String)>,
    pub differences: Vec<String>,
}

impl Told {
    /// Lines that --quiet has too.
    fn refuse(&mut self, lines: Vec<String>) {
        self.refused.extend(lines.clone());
        self.lines.extend(lines);
    }
}

/// Why an image of this size can't stand anywhere in the room, or can't at this place: the first of 12's reasons.
fn reason(room: &Room, (x, y): (usize, usize), (width, height): (usize, usize)) -> String {
    match () {
        _ if width == 0 || height == 0 => format!("its size is {width} x {height}"),
        _ if !width.is_multiple_of(8) => format!("its width is {width}, not a multiple of 8"),
        _ if width > room.w || height > room.h => format!("its size is {width} x {height}, and the room's is {} x {}", room.w, room.h),
        _ if !x.is_multiple_of(8) => format!("its x is {x}, not a multiple of 8"),
        _ => format!("{width} x {height} at ({x}, {y}) isn't wholly in the room of {} x {}", room.w, room.h),
    }
}

/// The lines of an image that no draw can place.
fn nowhere(room: &Room, tree: &[Entry], header: &Header) -> Vec<String> {
    let path = tree.iter().position(|entry| entry.at == header.imhd.start).map_or(String::new(), |i| tree::path(tree, i));
    let size = header.imhd.end - header.imhd.start;
    vec![
        format!("refused 12: {}", refusal(12)),
        format!("  block {path} at {}, {}", byte(header.imhd.start), count(size, "byte")),
        format!("  {}: it can't be drawn anywhere", reason(room, header.place, header.size)),
        format!("  rule: {}", rules::PLACE),
    ]
}

/// The lines of a state that is refused, without the object's name; none of one that isn't.
fn refused(bytes: &[u8], room: &Room, tree: &[Entry], header: &Header, state: &State) -> Option<Vec<String>> {
    match &state.verdict {
        Verdict::Nowhere => Some(nowhere(room, tree, header)),
        Verdict::Read { fault: Some(fault), .. } => Some(words::lines(bytes, tree, fault, true)),
        _ => None,
    }
}

/// The block of a state that is refused, with words for the tree.
fn mark(header: &Header, state: &State) -> Option<(usize, String)> {
    match &state.verdict {
        Verdict::Nowhere => Some((header.imhd.start, "refused 12 at a draw".into())),
        Verdict::Read { fault: Some(fault), .. } => Some((fault.at, format!("refused {} at a draw", fault.number()))),
        _ => None,
    }
}

/// What is no fault and worth a note: a place of its own that isn't allowed, and states that aren't there.
fn notes(room: &Room, object: &Inspected, header: &Header) -> Vec<String> {
    let absent = object.states.iter().filter(|state| matches!(state.verdict, Verdict::Absent)).map(|state| state.state);
    let mut notes: Vec<String> =
        absent.map(|state| format!("IMHD promises state {state}, and there is no IM0{state} block: refused 11 at a draw")).collect();
    if object.states.iter().any(|state| matches!(state.verdict, Verdict::Read { allowed: false, .. })) {
        let why = reason(room, header.place, header.size);
        notes.push(format!("refused 12 at its own place: {why}; its states are judged as drawn at (0, 0)"));
    }
    notes
}

/// The states that are accepted, in a line.
fn accepted(object: &Inspected) -> Option<String> {
    let accepted = object.states.iter().filter(|state| matches!(state.verdict, Verdict::Read { fault: None, .. }));
    let words: Vec<String> = accepted.map(|state| format!("state {}: accepted", state.state)).collect();
    (!words.is_empty()).then(|| words.join("; "))
}

fn tell_object(told: &mut Told, bytes: &[u8], room: &Room, tree: &[Entry], object: &Inspected) {
    let (start, length) = object.name;
    let who = format!("object {} id {} {}", object.object, object.id, quoted(&bytes[start..start + length]));
    let Some(header) = &object.image else { return told.lines.push(format!("{who}: no image")) };
    match accepted(object) {
        Some(accepted) => told.lines.push(format!("{who} {accepted}")),
        None if object.states.is_empty() => told.lines.push(format!("{who}: no states")),
        None => (),
    }
    told.lines.extend(notes(room, object, header).iter().map(|note| format!("{who}: note: {note}")));
    for state in &object.states {
        let Some(mut lines) = refused(bytes, room, tree, header, state) else { continue };
        lines[0] = format!("{who} state {}: {}", state.state, lines[0]);
        told.refuse(lines);
        told.marks.extend(mark(header, state));
    }
}

/// Where a draw by the library has another number.
fn compare(told: &mut Told, loaded: &mut Loaded, object: &Inspected) {
    for state in &object.states {
        let (library, own) = (loaded.draws(object.object, state.state), state.verdict.numbers());
        if library != own {
            told.differences.push(format!(
                "object {} state {}: this program's places don't agree with the library's numbers {} and, at (0, 0), {}; the library is right",
                object.object, state.state, library.0, library.1
            ));
        }
    }
}

/// The objects of an accepted room, each beside the library's draws.
pub fn tell(bytes: &[u8], room: &Room, tree: &[Entry], objects: &[Inspected]) -> Told {
    let mut told = Told::default();
    objects.iter().for_each(|object| tell_object(&mut told, bytes, room, tree, object));
    match Loaded::new(bytes, room) {
        Ok(mut loaded) => objects.iter().for_each(|object| compare(&mut told, &mut loaded, object)),
        Err(number) => {
            told.differences.push(format!("the library's load refuses {number} what this program accepts; the library is right"))
        }
    }
    told
}

//! One room of the user's own: how long its load and its whole test take, beside the reference's.

use crate::calls::{record, turn, Side, Stage, Turn};
use crate::clock::{best, timed, Effort};
use crate::picture::Picture;
use crate::room::{Room, Spec, METHODS};
use common::calls::kg_record;
use reference::load::RECORD;

/// The room of a file, which the library must accept.
fn given(path: &str) -> Result<Room, String> {
    let bytes = std::fs::read(path).map_err(|why| format!("{path}: {why}"))?;
    let mut out = [0; RECORD];
    let refusal = unsafe { kg_record(bytes.as_ptr(), bytes.len(), out.as_mut_ptr(), out.len()) };
    if refusal != 0 {
        return Err(format!("{path}: refused {refusal}"));
    }
    let [w, h, n, objects] = [0, 2, 4, 6].map(|at| u16::from_le_bytes([out[at], out[at + 1]]) as usize);
    // Of a room that is given, only the sizes of its making count.
    Ok(Room::new(Spec { objects, ..Spec::background(w, h, n, Picture::Flat, &METHODS) }, bytes))
}

/// The times of a load, library and reference, which must leave the same bytes.
fn load(room: &Room) -> [f64; 2] {
    let (mut library, mut reference) = (Stage::new(room), Stage::new(room));
    let ([library_time], [reference_time]) = best(
        Effort::Full,
        1,
        [&mut |_| timed(|| turn(Side::Library, Turn::Load, room, &mut library))],
        [&mut |_| timed(|| turn(Side::Reference, Turn::Load, room, &mut reference))],
    );
    assert!(library == reference, "library and reference load the room differently");
    [library_time, reference_time]
}

fn test(room: &Room) -> [f64; 2] {
    assert!(record(Side::Library, room.bytes()) == record(Side::Reference, room.bytes()), "library and reference answer different records");
    let side = |side| move |_| timed(|| record(side, room.bytes()));
    let ([library], [reference]) = best(Effort::Full, 1, [&mut side(Side::Library)], [&mut side(Side::Reference)]);
    [library, reference]
}

/// Prints the times of the room in a file.
pub fn table(path: &str) -> Result<(), String> {
    let room = given(path)?;
    let Spec { w, h, n, objects, .. } = room.spec;
    println!("{path}: {w}x{h}, planes {n}, objects {objects}. ns: a pixel. : ref: as a multiple of the reference's time.\n");
    println!("{:<12} {:>9} {:>7} {:>7}", "", "us", "ns", ": ref");
    for (name, [library, reference]) in [("load", load(&room)), ("whole test", test(&room))] {
        println!("{name:<12} {:>9.1} {:>7.2} {:>7.2}", library / 1e3, library / (w * h) as f64, library / reference);
    }
    Ok(())
}

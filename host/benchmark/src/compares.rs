//! The comparison of two rooms: library, reference, and the library's loads of the same two rooms; and how it grows with strips and planes.

use crate::calls::{compare, turn, Side, Stage, Turn, SIDES};
use crate::clock::{best, timed, Effort};
use crate::goal::{Goal, Goals};
use crate::loads::SIZES;
use crate::picture::Picture;
use crate::room::{Method, Room, Spec, MIXED};

const WIDTHS: [usize; 8] = [8, 16, 32, 64, 128, 256, 512, 1024];
/// The methods of `MIXED` in turn too, but another one for each strip.
const TURNED: [Method; 3] = [Method::Vertical, Method::Second, Method::Horizontal];

/// What the second room is.
#[derive(Clone, Copy)]
enum Version {
    /// The same bytes.
    Same,
    /// The same picture, every strip under another method.
    Recoded,
    /// Another picture: every strip differs.
    Repainted,
    /// No plane declared.
    Unmasked,
}

const VERSIONS: [Version; 4] = [Version::Same, Version::Recoded, Version::Repainted, Version::Unmasked];

impl Version {
    fn name(self) -> &'static str {
        match self {
            Version::Same => "the same",
            Version::Recoded => "recoded",
            Version::Repainted => "repainted",
            Version::Unmasked => "no planes",
        }
    }

    fn of(self, spec: Spec) -> Spec {
        match self {
            Version::Same => spec,
            Version::Recoded => Spec { methods: &TURNED, ..spec },
            Version::Repainted => Spec { picture: Picture::Dither, ..spec },
            Version::Unmasked => Spec { n: 0, ..spec },
        }
    }
}

/// Two rooms, and how many places both sides fill, with the same bytes; else nothing is timed.
fn pair(w: usize, h: usize, n: usize, version: Version) -> ([Room; 2], usize) {
    let spec = Spec::background(w, h, n, Picture::Gradient, &MIXED);
    let rooms = [spec.make(), version.of(spec).make()];
    let [library, reference] = SIDES.map(|side| {
        let mut list = [77; 1024];
        (compare(side, &rooms, &mut list), list)
    });
    assert!(library == reference, "library and reference compare two rooms differently");
    (rooms, library.0)
}

/// The times of library and reference, and of the library's two loads.
fn times(effort: Effort, rooms: &[Room; 2]) -> [f64; 3] {
    let (mut list, mut other) = ([0; 1024], [0; 1024]);
    let mut stages = [Stage::new(&rooms[0]), Stage::new(&rooms[1])];
    let mut load = || rooms.iter().zip(&mut stages).for_each(|(room, stage)| turn(Side::Library, Turn::Load, room, stage));
    let ([library, loads], [reference]) = best(
        effort,
        1,
        [&mut |_| timed(|| compare(Side::Library, rooms, &mut list)), &mut |_| timed(&mut load)],
        [&mut |_| timed(|| compare(Side::Reference, rooms, &mut other))],
    );
    [library, reference, loads]
}

fn row(effort: Effort, goals: &mut Goals, (w, h): (usize, usize), n: usize, version: Version) {
    let (rooms, places) = pair(w, h, n, version);
    let [library, reference, loads] = times(effort, &rooms);
    let (size, name) = (format!("{w}x{h}"), version.name());
    goals.see(Goal::Compare, library / loads, &format!("{size}, {n} planes, {name}"));
    goals.see(Goal::Reference, library / reference, &format!("compare, {size}, {n} planes, {name}"));
    let (micros, pixel) = (library / 1e3, library / (w * h) as f64);
    let (loads, reference) = (library / loads, library / reference);
    println!("{size:<9} {n:>6}  {name:<10} {places:>7} {micros:>9.1} {pixel:>7.2} {loads:>7.2} {reference:>7.2}");
}

pub fn tables(effort: Effort, goals: &mut Goals) {
    println!(
        "Comparisons of a room with another version of it, strips under three methods in turn: the same bytes, every strip under another"
    );
    println!(
        "method, another picture, no planes. places: strips that differ. ns: a pixel of one room. : loads: the two loads of these rooms."
    );
    println!("Then growth with the strips and with the planes.\n");
    let heads = ["places", "us", "ns", ": loads", ": ref"];
    println!(
        "{:<9} {:>6}  {:<10} {:>7} {:>9} {:>7} {:>7} {:>7}",
        "room", "planes", "version", heads[0], heads[1], heads[2], heads[3], heads[4]
    );
    for size in SIZES {
        VERSIONS.iter().for_each(|version| row(effort, goals, size, 4, *version));
    }
    println!();
    WIDTHS.iter().for_each(|w| row(effort, goals, (*w, 200), 1, Version::Repainted));
    println!();
    (0..=4).for_each(|n| row(effort, goals, (640, 200), n, Version::Repainted));
    println!();
}

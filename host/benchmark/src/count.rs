//! Instructions a pixel for the loads, and those of calls that paint with a transparent index. The program starts itself again under valgrind's
//! callgrind, which counts what runs inside `counted` and writes one part a call.

use crate::calls::{record, stamp, turn, Side, Turn};
use crate::loads::{alike, spec};
use crate::partners::plain;
use crate::pass::pass;
use crate::picture::{shape, PICTURES};
use crate::room::{Room, Spec, METHODS};
use crate::stamps::{self, ACTORS};
use crate::steps::{draw_state, played, OTHER, STEPS};
use reference::actor::Actor;
use std::path::Path;
use std::process::{Command, Stdio};

const SIZE: (usize, usize) = (640, 200);
const PLANES: [usize; 2] = [0, 4];
/// The argument of the program under callgrind.
pub const INSIDE: &str = "counted";
/// Load, test alone, reference's load, faster pass, plain pass.
const PARTS: usize = 5;
/// The room of the calls that paint: width, height, planes, objects.
const FURNISHED: (usize, usize, usize, usize) = (320, 144, 4, 12);
/// What is counted in it, with each index. The stamps follow.
const CALLS: [&str; 4] = ["record", "draw, a state with transparent pixels", "draw, an opaque state", "take back"];
const INDEXES: [u8; 2] = [255, OTHER];

/// What callgrind counts.
#[export_name = "benchmark_counted"]
#[inline(never)]
fn counted(run: &mut dyn FnMut()) {
    run();
}

fn count(room: &Room) {
    let mut stage = alike(room);
    counted(&mut || turn(Side::Library, Turn::Load, room, &mut stage));
    counted(&mut || (record(Side::Library, room.bytes()), ()).1);
    counted(&mut || turn(Side::Reference, Turn::Load, room, &mut stage));
    counted(&mut || pass(room, &mut stage.pixels, &mut stage.masks));
    counted(&mut || plain(room, &mut stage.pixels, &mut stage.masks));
}

/// The library's calls, in the order of `CALLS`, then the stamps.
fn count_calls(clear: u8) {
    let (w, h, n, objects) = FURNISHED;
    let room = &Spec { clear, ..Spec::furnished(w, h, n, objects) }.make();
    let before = played(room, STEPS);
    counted(&mut || (record(Side::Library, room.bytes()), ()).1);
    let mut stage = before.clone();
    for state in [1, 2] {
        stage.become_like(&before);
        counted(&mut || turn(Side::Library, draw_state(room, STEPS, state), room, &mut stage));
    }
    counted(&mut || turn(Side::Library, Turn::TakeBack, room, &mut stage));
    for (width, height, clip) in ACTORS {
        let picture = &shape(width as usize, height as usize, 30, clear);
        let actor = &Actor { picture, width, height, x: 150, y: 0, clip, clear };
        counted(&mut || stamp(Side::Library, room, &mut stage.pixels, &before.masks, actor));
    }
}

/// Under callgrind: every room once, in the order of the tables.
pub fn inside() {
    for n in PLANES {
        for method in METHODS {
            PICTURES.iter().for_each(|picture| count(&spec(SIZE, n, *picture, method).make()));
        }
    }
    INDEXES.into_iter().for_each(count_calls);
}

/// The total of callgrind's part number i, counted from 1.
fn part(folder: &Path, i: usize) -> Option<f64> {
    let text = std::fs::read_to_string(folder.join(format!("counts.{i}"))).ok()?;
    text.lines().find_map(|line| line.strip_prefix("totals:"))?.trim().parse().ok()
}

/// The totals of all parts, or nothing where valgrind can't be run.
fn counts(folder: &Path) -> Option<Vec<f64>> {
    let program = std::env::current_exe().ok()?;
    let out = format!("--callgrind-out-file={}", folder.join("counts").display());
    let options = ["--tool=callgrind", "--toggle-collect=benchmark_counted", "--dump-after=benchmark_counted"];
    let status = Command::new("valgrind").args(options).arg(out).arg(program).arg(INSIDE).stderr(Stdio::null()).status().ok()?;
    status.success().then(|| (1..).map_while(|i| part(folder, i)).collect())
}

/// How many parts the loads and the calls have.
const LOADS: usize = PLANES.len() * METHODS.len() * PICTURES.len() * PARTS;
const PAINTED: usize = CALLS.len() + ACTORS.len();

fn print_calls(counts: &[f64]) {
    let (w, h, n, objects) = FURNISHED;
    println!("\nInstructions a call, {w}x{h}, {n} planes, {objects} objects, {STEPS} draws in the history, by the transparent index.\n");
    println!("{:<40} {:>10} {:>10}", "call", INDEXES[0], INDEXES[1]);
    let names = CALLS.into_iter().map(String::from).chain(ACTORS.map(stamps::name));
    for (i, name) in names.enumerate() {
        println!("{name:<40} {:>10} {:>10}", counts[i], counts[PAINTED + i]);
    }
}

fn print(counts: &[f64]) {
    let (w, h) = SIZE;
    println!("Instructions a pixel, rooms of {w}x{h}. test: the whole test alone (kg_record), which is the first part of the load.\n");
    println!(
        "{:>6}  {:<17} {:<9} {:>7} {:>7} {:>7} {:>7} {:>10}",
        "planes", "method", "picture", "load", "test", "plain", "pass", "reference"
    );
    let mut rooms = counts.chunks(PARTS);
    for n in PLANES {
        for (method, picture) in METHODS.iter().flat_map(|method| PICTURES.iter().map(move |picture| (method, picture))) {
            let counts = rooms.next().expect("a room's counts");
            let [load, test, reference, pass, plain] = [0, 1, 2, 3, 4].map(|i| counts[i] / (w * h) as f64);
            println!(
                "{n:>6}  {:<17} {:<9} {load:>7.2} {test:>7.2} {plain:>7.2} {pass:>7.2} {reference:>10.2}",
                method.name(),
                picture.name()
            );
        }
    }
}

pub fn tables() {
    let folder = std::env::temp_dir().join(format!("kildegrom-benchmark-{}", std::process::id()));
    std::fs::create_dir_all(&folder).expect("a folder for callgrind's counts");
    let counts = counts(&folder);
    std::fs::remove_dir_all(&folder).expect("callgrind's counts removed");
    match counts {
        Some(counts) if counts.len() >= LOADS + INDEXES.len() * PAINTED => {
            print(&counts[..LOADS]);
            print_calls(&counts[LOADS..]);
        }
        _ => println!("instructions: skipped: valgrind isn't on this machine, or can't run the program"),
    }
}

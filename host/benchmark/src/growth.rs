//! How load, draw and take-back grow with the room's width, its objects and the session's history.

use crate::calls::Turn;
use crate::class::Class;
use crate::clock::Effort;
use crate::goal::{Goal, Goals};
use crate::loads::{load, Load};
use crate::room::{Room, Spec};
use crate::steps::{after, draw, played, step, Call};

const WIDTHS: [usize; 8] = [8, 16, 32, 64, 128, 256, 512, 1024];
const OBJECTS: [usize; 8] = [1, 2, 4, 8, 16, 32, 64, 128];
/// A draw is refused where the history holds 64 steps: from 63 on it makes the last one.
const HISTORIES: [usize; 8] = [0, 1, 2, 4, 8, 16, 32, 63];

const LOAD: &str = "       us      ns : plain  : pass   : ref";
const CALL: &str = "       us      ns  : test   : ref";

fn head(what: &str, (first, columns): (&str, &str), second: &str) {
    println!("{:<8} | {first:<1$} | {second}", "", columns.len());
    println!("{what:<8} | {columns} | {CALL}");
}

/// Microseconds of a room, nanoseconds of a pixel, and the ratios to the others.
fn columns<const N: usize>(rooms: usize, pixels: f64, time: f64, others: [f64; N]) -> String {
    let ratios = others.map(|other| format!(" {:>7.2}", time / other)).concat();
    format!("{:>9.1} {:>7.2}{ratios}", time / rooms as f64 / 1e3, time / pixels)
}

fn load_columns(class: &Class, load: Load) -> String {
    columns(class.rooms.len(), class.pixels(), load.library, [load.plain, load.pass, load.reference])
}

fn call_columns(room: &Room, call: Call) -> String {
    columns(1, room.pixels() as f64, call.library, [call.test, call.reference])
}

/// Load and first draw of a room.
fn load_and_draw(effort: Effort, goals: &mut Goals, what: usize, spec: Spec) {
    let class = Class::of(spec, effort);
    let room = &class.rooms[0];
    let (loads, draws) = (load(effort, &class), step(effort, room, &played(room, 0), draw(room, 0)));
    let place = format!("{}x{}, {} objects", spec.w, spec.h, spec.objects);
    loads.judge(goals, &place);
    goals.see(Goal::Reference, draws.library / draws.reference, &format!("draw, {place}"));
    println!("{what:<8} | {} | {}", load_columns(&class, loads), call_columns(room, draws));
}

fn histories(effort: Effort, goals: &mut Goals) {
    let room = &Spec::furnished(640, 200, 1, 64).make();
    let (mut before, mut made) = (played(room, 0), 0);
    for steps in HISTORIES {
        before = (made..steps).fold(before, |stage, i| after(room, &stage, draw(room, i)));
        made = steps;
        let draws = step(effort, room, &before, draw(room, steps));
        let backs = step(effort, room, &after(room, &before, draw(room, steps)), Turn::TakeBack);
        goals.see(Goal::Reference, draws.library / draws.reference, &format!("draw after {steps} draws"));
        goals.see(Goal::Reference, backs.library / backs.reference, &format!("take back after {steps} draws"));
        println!("{steps:<8} | {} | {}", call_columns(room, draws), call_columns(room, backs));
    }
}

pub fn tables(effort: Effort, goals: &mut Goals) {
    println!("Growth with the width: height 200, 1 plane, 4 objects of 8x40. A load's time is that of many rooms, a draw's that of one.\n");
    head("width", ("load", LOAD), "draw");
    for w in WIDTHS {
        load_and_draw(effort, goals, w, Spec { image: (8, 40), ..Spec::furnished(w, 200, 1, 4) });
    }
    println!("\nGrowth with the objects: 640x200, 1 plane, objects of 32x40.\n");
    head("objects", ("load", LOAD), "draw");
    for objects in OBJECTS {
        load_and_draw(effort, goals, objects, Spec::furnished(640, 200, 1, objects));
    }
    println!("\nGrowth with the history: 640x200, 1 plane, 64 objects of 32x40; a draw after so many draws, and that draw taken back.\n");
    head("history", ("draw", CALL), "take back");
    histories(effort, goals);
    println!();
}

//! Loads and whole tests: the library beside the plain pass, the faster pass and the reference, on rooms of three sizes, five kinds of pictures, four
//! coding methods, 0, 1 and 4 planes.

use crate::calls::{record, turn, Side, Stage, Turn};
use crate::class::Class;
use crate::clock::{best, timed, Effort};
use crate::goal::{Goal, Goals};
use crate::partners::plain;
use crate::pass::pass;
use crate::picture::{Picture, PICTURES};
use crate::room::{Method, Room, Spec, METHODS};
use crate::steps::ROOMS;
use std::cell::RefCell;

pub const SIZES: [(usize, usize); 3] = [(320, 144), (640, 200), (1024, 200)];
pub const PLANES: [usize; 3] = [0, 1, 4];

/// Nanoseconds for all rooms of a class.
#[derive(Clone, Copy)]
pub struct Load {
    pub library: f64,
    pub test: f64,
    pub plain: f64,
    pub pass: f64,
    pub reference: f64,
}

impl Load {
    /// What the goals of loads and tests see.
    pub fn judge(&self, goals: &mut Goals, place: &str) {
        goals.see(Goal::Load, self.library / self.plain, place);
        goals.see(Goal::Test, self.test / self.plain, place);
        goals.see(Goal::Pass, self.library / self.pass, place);
        goals.see(Goal::LoadReference, self.library / self.reference, place);
        goals.see(Goal::Reference, self.test / self.reference, &format!("record, {place}"));
    }
}

/// A room of one method.
pub fn spec((w, h): (usize, usize), n: usize, picture: Picture, method: Method) -> Spec {
    let method = METHODS.iter().position(|known| *known == method).expect("a method");
    Spec::background(w, h, n, picture, &METHODS[method..method + 1])
}

/// The sides that load a room.
type Loader = fn(&Room, &mut Stage);
const LOADERS: [Loader; 4] = [
    |room, stage| turn(Side::Library, Turn::Load, room, stage),
    |room, stage| turn(Side::Reference, Turn::Load, room, stage),
    |room, stage| plain(room, &mut stage.pixels, &mut stage.masks),
    |room, stage| pass(room, &mut stage.pixels, &mut stage.masks),
];

/// All sides fill a stage alike, every byte; else nothing is timed. The stage after the load.
pub fn alike(room: &Room) -> Stage {
    let mut byte = 76;
    let [library, others @ ..] = LOADERS.map(|load| {
        let mut stage = Stage::new(room);
        byte += 1;
        stage.pixels.fill(byte);
        stage.masks.fill(byte);
        load(room, &mut stage);
        stage
    });
    for (other, name) in others.iter().zip(["reference", "plain pass", "faster pass"]) {
        assert!(library == *other, "library and {name} load a room differently");
    }
    assert!(record(Side::Library, room.bytes()) == record(Side::Reference, room.bytes()), "library and reference answer different records");
    library
}

/// The times of a class. All sides write the same surfaces.
pub fn load(effort: Effort, class: &Class) -> Load {
    class.rooms.iter().for_each(|room| (alike(room), ()).1);
    let stage = &RefCell::new(Stage::new(&class.rooms[0]));
    let side = |load: Loader| move |i: usize| timed(|| class.item(i).iter().for_each(|room| load(room, &mut stage.borrow_mut())));
    let mut test = |i: usize| timed(|| class.item(i).iter().for_each(|room| (record(Side::Library, room.bytes()), ()).1));
    let [mut library, mut reference, mut plain, mut pass] = LOADERS.map(side);
    let often = [&mut library as crate::clock::Side, &mut test, &mut plain, &mut pass];
    let ([library, test, plain, pass], [reference]) = best(effort, class.items(), often, [&mut reference]);
    Load { library, test, plain, pass, reference }
}

/// The times of a size, a number of planes and a method, for each kind of picture.
struct Row {
    name: String,
    method: Method,
    times: Vec<Load>,
}

fn row(effort: Effort, goals: &mut Goals, size: (usize, usize), n: usize, method: Method) -> Row {
    let ((w, h), mut times) = (size, vec![]);
    let name = format!("{:<9} {n:>6}  {:<17}", format!("{w}x{h}"), method.name());
    print!("{name}");
    for picture in PICTURES {
        let class = Class::of(spec(size, n, picture, method), effort);
        let load = load(effort, &class);
        load.judge(goals, &format!("{w}x{h}, {n} planes, {}, {}", method.name(), picture.name()));
        print!(" | {:>5.2} {:>7.2} {:>5.2}", load.library / class.pixels(), load.library / load.plain, load.test / load.plain);
        times.push(load);
    }
    println!();
    Row { name, method, times }
}

fn head(columns: &str) {
    print!("{:<35}", "");
    PICTURES.iter().for_each(|picture| print!(" | {:<1$}", picture.name(), columns.len()));
    print!("\n{:<9} {:>6}  {:<17}", "room", "planes", "method");
    PICTURES.iter().for_each(|_| print!(" | {columns}"));
    println!();
}

fn others(rows: &[Row]) {
    println!("\nThe same loads as a multiple of the faster pass and of the reference's load.\n");
    head(": pass  : ref");
    for row in rows {
        print!("{}", row.name);
        row.times.iter().for_each(|load| print!(" | {:>6.2} {:>6.2}", load.library / load.pass, load.library / load.reference));
        println!();
    }
}

/// The least and the most of a ratio.
fn range(ratios: impl Iterator<Item = f64> + Clone) -> String {
    format!("{:.2}-{:.2}", ratios.clone().fold(f64::MAX, f64::min), ratios.fold(0.0, f64::max))
}

fn ranges(rows: &[Row]) {
    println!("\nBy method, over all sizes and planes: loads as a multiple of the plain pass, and in brackets the whole tests.\n");
    print!("{:<17}", "method");
    PICTURES.iter().for_each(|picture| print!(" | {:<21}", picture.name()));
    println!();
    for method in METHODS {
        print!("{:<17}", method.name());
        for picture in 0..PICTURES.len() {
            let times = rows.iter().filter(|row| row.method == method).map(|row| row.times[picture]);
            let (loads, tests) = (times.clone().map(|load| load.library / load.plain), times.map(|load| load.test / load.plain));
            print!(" | {:<21}", format!("{} ({})", range(loads), range(tests)));
        }
        println!();
    }
}

/// A row of the table that follows.
fn other_row(effort: Effort, goals: &mut Goals, spec: Spec, what: &str) {
    let (class, size) = (Class::of(spec, effort), format!("{}x{}", spec.w, spec.h));
    let load = load(effort, &class);
    load.judge(goals, &format!("{size}, {what}"));
    let (micros, pixel, test) = (load.library / class.rooms.len() as f64 / 1e3, load.library / class.pixels(), load.test / load.plain);
    let [plain, pass, reference] = [load.plain, load.pass, load.reference].map(|other| load.library / other);
    println!("{size:<9}  {what:<48} {micros:>8.1} {pixel:>6.2} {plain:>7.2} {test:>5.2} {pass:>6.2} {reference:>6.2}");
}

/// Rooms with objects, and planes whose offsets are all 0.
fn other_rooms(effort: Effort, goals: &mut Goals) {
    println!("\nLoads of other rooms. us: a room.\n");
    println!("{:<9}  {:<48} {:>8} {:>6} {:>7} {:>5} {:>6} {:>6}", "room", "", "us", "ns", ": plain", "test", ": pass", ": ref");
    for (w, h, n, objects) in ROOMS {
        let what = format!("{n} planes, {objects} objects, methods in turn, gradient");
        other_row(effort, goals, Spec::furnished(w, h, n, objects), &what);
    }
    for (size, method) in SIZES.iter().flat_map(|size| [Method::Horizontal, Method::Raw].map(|method| (*size, method))) {
        let spec = Spec { empty: true, ..spec(size, 4, Picture::Flat, method) };
        other_row(effort, goals, spec, &format!("4 empty planes, {}, flat", method.name()));
    }
}

pub fn tables(effort: Effort, goals: &mut Goals) {
    println!("Loads, several rooms a class. ns: the library's nanoseconds a pixel, planes included. : plain: the load as a multiple of the plain pass");
    println!("over the same rooms; under 1 the library is faster. test: the whole test (kg_record) as a multiple of the plain pass.\n");
    head("   ns : plain  test");
    let mut rows = vec![];
    for (size, n) in SIZES.iter().flat_map(|size| PLANES.map(|n| (*size, n))) {
        rows.extend(METHODS.map(|method| row(effort, goals, size, n, method)));
    }
    others(&rows);
    ranges(&rows);
    other_rooms(effort, goals);
    println!();
}

//! Casts: library, the library's single stamps over the list in order, and the reference; how they grow with the actors; and the order of the list
//! beside Rust's own stable sort.

use crate::calls::{cast, stamp_record, Scenery, Side, SIDES};
use crate::clock::{best, timed, Effort};
use crate::goal::{Goal, Goals};
use crate::picture::shape;
use crate::room::Spec;
use crate::steps::{played, STEPS};
use reference::cast::{Record, MOST};

/// Casts in one timing, since one may be short.
const MANY: usize = 16;
const ACTORS: [usize; 4] = [1, 4, 8, 32];
const GROWTH: [usize; 6] = [1, 2, 4, 8, 16, 32];
const PICTURES: [(u32, u32); 2] = [(24, 40), (128, 144)];
const CLIPS: [u32; 2] = [0, 1];
/// Surfaces that are painted on: width, height, planes, objects.
const ROOM: (usize, usize, usize, usize) = (320, 144, 4, 12);
const CLEAR: u8 = 255;

/// How the list is handed over.
#[derive(Clone, Copy, PartialEq)]
enum Arranged {
    /// As it is from frame to frame, since it stays in order.
    InOrder,
    Random,
    Reversed,
}

const ARRANGED: [Arranged; 3] = [Arranged::InOrder, Arranged::Random, Arranged::Reversed];

impl Arranged {
    fn name(self) -> &'static str {
        match self {
            Arranged::InOrder => "in order",
            Arranged::Random => "random",
            Arranged::Reversed => "reversed",
        }
    }

    /// Which actor stands where in a list of so many, counted from the back of the scene. What looks random is always the same.
    fn ranks(self, actors: usize) -> Vec<usize> {
        let mut ranks: Vec<usize> = (0..actors).collect();
        match self {
            Arranged::InOrder => (),
            Arranged::Random => (1..actors).rev().for_each(|i| ranks.swap(i, (7919 * i + 5 * actors) % 101 % (i + 1))),
            Arranged::Reversed => ranks.reverse(),
        }
        ranks
    }
}

/// What is measured: a list as handed over, the same in order, the pictures, the frame and the masks.
struct Scene {
    list: Vec<Record>,
    sorted: Vec<Record>,
    pictures: Vec<u8>,
    frame: Vec<u8>,
    masks: Vec<u8>,
    sizes: [u32; 3],
}

impl Scene {
    /// So many actors side by side, each with a picture of its own.
    fn new(actors: usize, (width, height): (u32, u32), clip: u32, arranged: Arranged) -> Scene {
        let (w, h, n, objects) = ROOM;
        let stage = played(&Spec::furnished(w, h, n, objects).make(), STEPS);
        let size = width * height;
        let record = |rank: usize| {
            let (left, top) = (47 * rank as u32 % (w as u32 - width), 29 * rank as u32 % (h as u32 - height + 1));
            let (y, id, start) = (rank as i32 / 2, rank as u32, rank as u32 * size);
            Record { id, y, left: left as i32, top: top as i32, width, height, clip, start }
        };
        let pictures = (0..actors).flat_map(|i| shape(width as usize, height as usize, 30 + 7 * i, CLEAR)).collect();
        Scene {
            list: arranged.ranks(actors).into_iter().map(record).collect(),
            sorted: (0..actors).map(record).collect(),
            pictures,
            frame: stage.pixels,
            masks: stage.masks,
            sizes: [w, h, n].map(|number| number as u32),
        }
    }

    /// The same with pictures of 1 by 1 outside the frame: what is left is the order and the tests.
    fn outside(arranged: Arranged) -> Scene {
        let mut scene = Scene::new(MOST, (1, 1), 0, arranged);
        scene.list.iter_mut().chain(&mut scene.sorted).for_each(|record| record.left = -1);
        scene
    }

    fn scenery(&self) -> Scenery<'_> {
        Scenery { masks: &self.masks, pictures: &self.pictures, sizes: self.sizes, clear: CLEAR }
    }

    /// One side's list and frame: the list as handed over, and what it becomes.
    fn hand(&self) -> Hand<'_> {
        Hand { scene: self, list: self.list.clone(), frame: self.frame.clone() }
    }
}

struct Hand<'a> {
    scene: &'a Scene,
    list: Vec<Record>,
    frame: Vec<u8>,
}

impl Hand<'_> {
    fn cast(&mut self, side: Side) {
        self.list.copy_from_slice(&self.scene.list);
        cast(side, &mut self.list, &mut self.frame, &self.scene.scenery());
    }

    /// The single stamps of the list in order.
    fn stamps(&mut self) {
        self.list.copy_from_slice(&self.scene.sorted);
        self.stamp_list();
    }

    /// Rust's stable sort of the list, and the single stamps.
    fn sort_and_stamps(&mut self) {
        self.list.copy_from_slice(&self.scene.list);
        self.list.sort_by_key(|record| (record.y, record.id));
        self.stamp_list();
    }

    fn stamp_list(&mut self) {
        self.list.iter().for_each(|record| stamp_record(record, &mut self.frame, &self.scene.scenery()));
    }
}

/// The times of one cast of library and reference, of the stamps alone, and of sort and stamps, which all leave the same list and frame.
fn times(effort: Effort, scene: &Scene) -> [f64; 4] {
    let [mut library, mut reference, mut stamps, mut sort] = [0; 4].map(|_| scene.hand());
    SIDES.iter().zip([&mut library, &mut reference]).for_each(|(side, hand)| hand.cast(*side));
    stamps.stamps();
    sort.sort_and_stamps();
    for other in [&reference, &stamps, &sort] {
        assert!(library.list == other.list && library.frame == other.frame, "library, reference and single stamps cast differently");
    }
    assert!(library.list == scene.sorted, "a cast leaves another order than it was made for");
    let many = |run: &mut dyn FnMut()| timed(|| (0..MANY).for_each(|_| run())) / MANY as f64;
    let ([library, stamps, sort], [reference]) = best(
        effort,
        1,
        [&mut |_| many(&mut || library.cast(Side::Library)), &mut |_| many(&mut || stamps.stamps()), &mut |_| {
            many(&mut || sort.sort_and_stamps())
        }],
        [&mut |_| many(&mut || reference.cast(Side::Reference))],
    );
    [library, reference, stamps, sort]
}

fn row(effort: Effort, goals: &mut Goals, actors: usize, picture: (u32, u32), clip: u32, arranged: Arranged) {
    let [library, reference, stamps, sort] = times(effort, &Scene::new(actors, picture, clip, arranged));
    let ((width, height), name) = (picture, arranged.name());
    let place = format!("{actors} actors of {width}x{height}, clip level {clip}, {name}");
    let goal = if arranged == Arranged::InOrder { Goal::Cast } else { Goal::CastUnsorted };
    goals.see(goal, library / stamps, &place);
    goals.see(Goal::Reference, library / reference, &format!("cast, {place}"));
    let (size, micros, pixel) = (format!("{width}x{height}"), library / 1e3, library / (actors as u32 * width * height) as f64);
    let (stamps, sort, reference) = (library / stamps, library / sort, library / reference);
    println!("{actors:<6} {size:<8} {clip:>4}  {name:<9} {micros:>9.2} {pixel:>7.2} {stamps:>8.3} {sort:>8.3} {reference:>7.2}");
}

/// A list whose pictures lie outside: what its order costs, an actor.
fn order_row(effort: Effort, goals: &mut Goals, arranged: Arranged) {
    let [library, reference, stamps, sort] = times(effort, &Scene::outside(arranged));
    goals.see(Goal::Reference, library / reference, &format!("cast, {MOST} actors outside, {}", arranged.name()));
    let each = (library - stamps) / MOST as f64;
    let (nanos, sorted, rust) = (library, library / sort, (sort - stamps) / MOST as f64);
    println!(
        "{:<9} {nanos:>8.0} {stamps:>8.0} {sort:>8.0} {each:>8.2} {rust:>8.2} {sorted:>8.3} {:>7.2}",
        arranged.name(),
        library / reference
    );
}

fn head() {
    let heads = [": stamps", ": sorted", ": ref"];
    println!(
        "{:<6} {:<8} {:>4}  {:<9} {:>9} {:>7} {:>8} {:>8} {:>7}",
        "actors", "picture", "clip", "list", "us", "ns", heads[0], heads[1], heads[2]
    );
}

pub fn tables(effort: Effort, goals: &mut Goals) {
    let (w, h, n, _) = ROOM;
    println!("Casts on the surfaces of a {w}x{h} room with {n} planes, every picture another one. ns: a pixel of the pictures. : stamps: the same");
    println!("single stamps over the list in order. : sorted: Rust's stable sort of the list as handed over, then the stamps. The list is copied");
    println!("anew before each cast, each sort and each row of stamps, inside the timing, for all sides alike; the frame stays.\n");
    head();
    for (picture, clip) in PICTURES.iter().flat_map(|picture| CLIPS.map(|clip| (*picture, clip))) {
        for actors in ACTORS {
            let lists = if actors == 1 { &ARRANGED[..1] } else { &ARRANGED };
            lists.iter().for_each(|arranged| row(effort, goals, actors, picture, clip, *arranged));
        }
    }
    println!("\nGrowth with the actors, 24x40, clip level 0: the list in order, and reversed.\n");
    head();
    for arranged in [Arranged::InOrder, Arranged::Reversed] {
        GROWTH.iter().for_each(|actors| row(effort, goals, *actors, PICTURES[0], 0, arranged));
    }
    println!("\nThe order alone: {MOST} pictures of 1x1 outside the frame, so that a stamp is its tests. ns of the cast, of the stamps of the list in");
    println!("order, and of Rust's stable sort with the stamps; then an actor, without those stamps: the cast's, and Rust's.\n");
    let heads = ["cast", "stamps", "sorted", "an actor", "Rust's", ": sorted", ": ref"];
    let [cast, stamps, sorted, own, rust, ratio, reference] = heads;
    println!("{:<9} {cast:>8} {stamps:>8} {sorted:>8} {own:>8} {rust:>8} {ratio:>8} {reference:>7}", "list");
    ARRANGED.iter().for_each(|arranged| order_row(effort, goals, *arranged));
    println!();
}

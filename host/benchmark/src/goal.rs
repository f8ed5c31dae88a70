//! The goals of speed, and whether a run met them. They are printed, never judged: a time is no test.

/// What is held against what. Each has the most that its ratio may be; a draw's is a number of microseconds.
#[derive(Clone, Copy)]
pub enum Goal {
    Load,
    Test,
    Draw,
    LongDraw,
    Stamp,
    WriteSmap,
    WritePlane,
    Listing,
    Pass,
    LoadReference,
    Reference,
    Compare,
    Cast,
    CastUnsorted,
}

use Goal::*;

/// In the order in which they are printed.
const GOALS: [(Goal, f64, &str); 14] = [
    (Load, 0.8, "a load takes at most 0.8 of the plain pass"),
    (Test, 0.2, "the whole test takes at most 0.2 of the plain pass"),
    (Draw, 20.0, "a door's draw or take-back in a 1024x200 room takes at most 20 us more than the test"),
    (LongDraw, 1.5, "the same after 63 draws takes at most 1.5 tests"),
    (Stamp, 0.5, "a stamp behind a plane takes at most 0.5 of the plain loop"),
    (WriteSmap, 1.0, "kg_write_smap is no slower than the one-pass encoder"),
    (WritePlane, 1.0, "kg_write_plane is no slower than the one-pass encoder"),
    (Listing, 1.1, "a listing takes at most 1.1 tests"),
    (Pass, 2.5, "a load takes at most 2.5 of the faster pass"),
    (LoadReference, 1.0, "a load is never slower than the reference"),
    (Reference, 1.0, "no other call is slower than the reference"),
    (Compare, 1.25, "a comparison takes about two loads, at most 1.25 times as long"),
    (Cast, 1.1, "a cast takes at most 1.1 times its single stamps"),
    (CastUnsorted, 1.1, "also where its list is out of order, at most 1.1 times"),
];

/// The largest ratio seen, and where.
#[derive(Default)]
struct Worst {
    ratio: f64,
    place: String,
    over: usize,
    all: usize,
}

impl Worst {
    fn see(&mut self, ratio: f64, most: f64, place: &str) {
        self.all += 1;
        self.over += usize::from(ratio > most);
        if self.all == 1 || ratio > self.ratio {
            (self.ratio, self.place) = (ratio, place.to_string());
        }
    }

    fn print(&self, goal: &str) {
        let verdict = match (self.over, self.all) {
            (_, 0) => return println!("goal: {goal}: not measured"),
            (0, all) => format!("met in all {all}"),
            (over, all) => format!("MISSED in {over} of {all}"),
        };
        println!("goal: {goal}: {verdict} (most: {:.2}, {})", self.ratio, self.place);
    }
}

#[derive(Default)]
pub struct Goals {
    seen: [Worst; GOALS.len()],
}

impl Goals {
    pub fn see(&mut self, goal: Goal, ratio: f64, place: &str) {
        self.seen[goal as usize].see(ratio, GOALS[goal as usize].1, place);
    }

    pub fn print(&self) {
        self.seen.iter().zip(GOALS).for_each(|(worst, (_, _, text))| worst.print(text));
    }
}

/// A goal finds its own line.
#[test]
fn goals_stand_in_their_order() {
    GOALS.iter().enumerate().for_each(|(i, (goal, _, _))| assert_eq!(*goal as usize, i));
}

//! Which deliberate ends of bodies (ends.rs) are planned, and how often each was read as it must be. A full run that leaves one out fails (comparison.rs).

use crate::comparison::Place;
use crate::ends::{codes, ends_of, method, operations, End, Last, Method, MOST, SHORT};
use crate::planned::{self, Count};
use crate::strips::Operation;
use std::collections::BTreeMap;
use std::ops::RangeInclusive;

/// Where a body stands: in a background or an object's image, and whether another body follows it or the room ends with it.
#[derive(Clone, Copy, Debug, PartialEq, Eq, PartialOrd, Ord)]
pub struct Spot {
    pub place: Place,
    pub followed: bool,
}

pub const SPOTS: [Spot; 4] = [
    Spot { place: Place::Background, followed: false },
    Spot { place: Place::Background, followed: true },
    Spot { place: Place::Image, followed: false },
    Spot { place: Place::Image, followed: true },
];

impl Spot {
    /// How bodies are changed here, in bytes. To a reader, unused bytes before another body are no other than those at the room's end.
    pub fn changes(self) -> RangeInclusive<i32> {
        -MOST..=if self.followed { 0 } else { MOST }
    }
}

const METHODS: [Method; 3] = [Method::FirstVertical, Method::FirstHorizontal, Method::Second];

/// What a full run must have read.
#[derive(Clone, Copy, Debug, PartialEq, Eq, PartialOrd, Ord)]
pub enum Case {
    /// A body with this end, so many bytes longer or shorter.
    Read { end: End, change: i32, spot: Spot },
    /// A body cut inside this operation after so many of its bits.
    Broken { code: u8, operation: Operation, bits: usize },
    /// A body that the room ends with, the room ending with its page: where both begin, modulo 8.
    Begun { method: Method, place: Place, cut: bool, in_room: usize, in_memory: usize },
    /// A whole body of so many bytes; the short ones are planned.
    Length { method: Method, bytes: usize },
}

fn change_name(change: i32) -> String {
    match change {
        0 => "whole".into(),
        _ if change < 0 => format!("cut by {}", -change),
        _ => format!("{change} unused behind"),
    }
}

impl planned::Case for Case {
    const GROUPS: &'static [&'static str] =
        &["ends, changes and spots", "cuts inside an operation", "first bytes modulo 8, in room and memory", "lengths of short bodies"];
    const ALL: &'static str = "ends of bodies";

    fn group(&self) -> usize {
        match self {
            Case::Read { .. } => 0,
            Case::Broken { .. } => 1,
            Case::Begun { .. } => 2,
            Case::Length { .. } => 3,
        }
    }

    fn name(&self) -> String {
        match self {
            Case::Read { end, change, spot } => format!("{}, {}, {spot:?}", end.name(), change_name(*change)),
            Case::Broken { code, operation, bits } => format!("code {code:02X} cut after {bits} bits of {operation:?}"),
            Case::Begun { method, place, cut, in_room, in_memory } => {
                format!("{method:?}, {place:?}, cut {cut}: first bytes modulo 8, {in_room} in the room, {in_memory} in memory")
            }
            Case::Length { method, bytes } => format!("{method:?}, {bytes} bytes"),
        }
    }
}

/// The cases of one code.
fn planned_of(code: u8) -> Vec<Case> {
    let mut cases = vec![];
    for (end, spot) in ends_of(code).into_iter().flat_map(|end| SPOTS.map(|spot| (end, spot))) {
        cases.extend(spot.changes().map(|change| Case::Read { end, change, spot }));
    }
    cases.push(Case::Broken { code, operation: Operation::Keep, bits: 0 });
    for (operation, all) in operations(code) {
        cases.extend((1..all).map(|bits| Case::Broken { code, operation, bits }));
    }
    cases
}

/// The cases of one method.
fn planned_by(method: Method) -> Vec<Case> {
    let mut cases: Vec<Case> = (SHORT.bytes.0..=SHORT.bytes.1).map(|bytes| Case::Length { method, bytes }).collect();
    for (place, cut) in [(Place::Background, false), (Place::Background, true), (Place::Image, false), (Place::Image, true)] {
        cases.extend((0..64).map(|i| Case::Begun { method, place, cut, in_room: i / 8, in_memory: i % 8 }));
    }
    cases
}

fn planned() -> Vec<Case> {
    codes().into_iter().flat_map(planned_of).chain(METHODS.into_iter().flat_map(planned_by)).collect()
}

#[derive(Default)]
pub struct EndCount {
    count: Count<Case>,
}

impl EndCount {
    pub fn reached(&mut self, case: Case) {
        self.count.reached(case);
    }

    /// How often bodies were read: by change, place and method, runs past the end apart.
    fn sums(&self) -> BTreeMap<i32, [[u64; 4]; 2]> {
        let mut sums: BTreeMap<i32, [[u64; 4]; 2]> = BTreeMap::new();
        for (case, count) in &self.count.counts {
            if let Case::Read { end, change, spot } = case {
                let column = if end.last == Last::Past { 3 } else { method(end.code) as usize };
                sums.entry(*change).or_default()[spot.place as usize][column] += count;
            }
        }
        sums
    }

    fn print_changes(&self) {
        let heads = ["first vertical", "first horizontal", "second", "run past the end"];
        println!("{:<22}{:>8}{}", "ends of bodies", "number", heads.map(|head| format!("{head:>20}")).concat());
        println!("{:>30}{}", "", format!("{:>12}{:>8}", "background", "image").repeat(4));
        for (change, [background, image]) in self.sums() {
            let number = if change < 0 { "7" } else { "0 or 8" };
            let counts: String = (0..4).map(|i| format!("{:>12}{:>8}", background[i], image[i])).collect();
            println!("{:<22}{number:>8}{counts}", change_name(change));
        }
    }

    /// Prints the tables; answers the planned cases that weren't reached, the first of them by name.
    pub fn report(&self) -> Vec<String> {
        self.print_changes();
        self.count.report(&planned())
    }
}

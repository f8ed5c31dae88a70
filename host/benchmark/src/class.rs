//! A class: several rooms of one kind, so that no side's branches are learnt from one room that comes again and again.

use crate::clock::Effort;
use crate::room::{Room, Spec};

/// A class has at least two rooms, and about so many pixels in all.
const PIXELS: usize = 400_000;
/// Rooms are timed together until they have so many pixels, since the clock itself takes a while.
const TOGETHER: usize = 40_000;

pub struct Class {
    pub rooms: Vec<Room>,
    /// How many rooms are timed together.
    together: usize,
}

impl Class {
    /// The rooms that differ from `spec` in their pictures' numbers; one room is enough where times don't count.
    pub fn of(spec: Spec, effort: Effort) -> Class {
        let count = match effort {
            Effort::Quick => 1,
            Effort::Full => (PIXELS / (spec.w * spec.h)).max(2),
        };
        let rooms: Vec<Room> = (0..count).map(|number| Spec { number, ..spec }.make()).collect();
        Class { rooms, together: (TOGETHER / (spec.w * spec.h)).max(1) }
    }

    pub fn items(&self) -> usize {
        self.rooms.len().div_ceil(self.together)
    }

    /// The rooms that are timed together as item i.
    pub fn item(&self, i: usize) -> &[Room] {
        let from = i * self.together;
        &self.rooms[from..self.rooms.len().min(from + self.together)]
    }

    /// The pixels of all its rooms.
    pub fn pixels(&self) -> f64 {
        self.rooms.iter().map(|room| room.pixels() as f64).sum()
    }
}

//! Makes lists of draws, hides and take-backs, and sessions' bytes, right and damaged.

use crate::calls::Turn;
use crate::rng::Rng;
use crate::rooms::Plan;
use reference::step::{Entry, Place, Scene, Step};

/// What a stranger hands over; 8 × 2²⁹ is 0 where the product wraps.
const STRANGE: [u32; 16] =
    [0, 1, 9, 10, 127, 128, 129, 255, 256, 257, 65_536, 0x1FFF_FFFF, 0x2000_0000, 0x2000_0001, 0x8000_0000, 0xFFFF_FFFF];

fn number(r: &mut Rng, good: usize) -> u32 {
    match r.below(40) {
        0 => r.pick(&STRANGE),
        1 => good as u32 + r.pick(&[256, 65_536, 0x2000_0000, 0x8000_0000]),
        _ => good as u32,
    }
}

/// How a list is made: the room's sizes, the share of each call, and the steps that were accepted, some of which are tried again.
pub struct Maker {
    pub w: usize,
    pub h: usize,
    pub n: usize,
    pub objects: usize,
    /// Objects up to this number are named most.
    first: usize,
    share: [usize; 4],
    /// Whether each object mostly gets a place of its own in turn, so that the shown list grows long.
    marching: bool,
    again: Vec<Turn>,
}

impl Maker {
    pub fn new(r: &mut Rng, plan: &mut Plan) -> Maker {
        // Draws at the last place, draws at a strip position, hides, take-backs.
        let share = r.pick(&[[4, 5, 2, 2], [6, 6, 1, 0], [2, 6, 3, 5], [1, 8, 3, 1], [6, 1, 3, 2], [10, 10, 1, 1], [1, 12, 1, 1]]);
        let (objects, first) = (plan.objects(), r.pick(&[12, 128]));
        Maker {
            w: plan.w,
            h: plan.h,
            n: plan.n,
            objects,
            first: objects.clamp(1, first),
            share,
            marching: objects > 60 && r.once_in(2),
            again: vec![],
        }
    }

    pub fn turn(&self, r: &mut Rng) -> Turn {
        if self.marching && !r.once_in(20) {
            let next = self.again.len();
            return Turn::DrawAt { object: (next % self.objects + 1) as u32, state: 1, a: (next % (self.w / 8)) as u32, b: 0 };
        }
        if !self.again.is_empty() && r.once_in(4) {
            return r.pick(&self.again);
        }
        let object = if r.once_in(25) { r.range(0, self.objects + 1) } else { r.range(1, self.first) };
        let state = if r.once_in(15) { r.range(0, 10) } else { r.range(1, 3).min(r.range(1, 3)) };
        let (object, state) = (number(r, object), number(r, state));
        match r.share(&self.share) {
            0 => Turn::DrawLast { object, state },
            1 => {
                let (a, b) = (r.below(self.w / 8 + 1), if r.once_in(2) { 0 } else { r.below(self.h / 8 + 1) });
                Turn::DrawAt { object, state, a: number(r, a), b: number(r, b) }
            }
            2 => Turn::Hide { object: self.drawn(r).unwrap_or(object) },
            _ => Turn::TakeBack,
        }
    }

    /// Mostly an object that was drawn lately.
    fn drawn(&self, r: &mut Rng) -> Option<u32> {
        let newest = &self.again[self.again.len().saturating_sub(6)..];
        match newest {
            [] => None,
            _ if r.once_in(4) => None,
            _ => match r.pick(newest) {
                Turn::DrawLast { object, .. } | Turn::DrawAt { object, .. } => Some(object),
                _ => None,
            },
        }
    }

    pub fn accepted(&mut self, turn: Turn) {
        if !matches!(turn, Turn::TakeBack) {
            self.again.push(turn);
        }
    }

    pub fn needs(&self) -> [usize; 3] {
        [450, self.w * self.h, self.n * (self.w / 8) * self.h]
    }
}

/// The step that a draw or hide names.
fn step(turn: Turn) -> Option<Step> {
    Some(match turn {
        Turn::DrawLast { object, state } => Step::Draw { object: object as usize, state: state as usize, place: Place::Last },
        Turn::DrawAt { object, state, a, b } => {
            Step::Draw { object: object as usize, state: state as usize, place: Place::At(a as usize, b as usize) }
        }
        Turn::Hide { object } => Step::Hide { object: object as usize },
        Turn::TakeBack => return None,
    })
}

/// Demand 3's step list, "fed the room and the calls alone": what the call must answer.
pub fn listed(scene: &Scene, steps: &mut Vec<Step>, turn: Turn) -> u32 {
    let Some(step) = step(turn) else { return if steps.pop().is_some() { 0 } else { 13 } };
    let shown = scene.replay(steps).expect("accepted steps");
    match scene.step(steps, &shown, step) {
        Ok(_) => (steps.push(step), 0).1,
        Err(number) => number,
    }
}

/// The history and shown list that `calls` calls give, as the reference says.
pub fn grown(r: &mut Rng, scene: &Scene, maker: &mut Maker, calls: usize) -> (Vec<Step>, Vec<Entry>) {
    let mut steps = vec![];
    for _ in 0..calls {
        let turn = maker.turn(r);
        if listed(scene, &mut steps, turn) == 0 {
            maker.accepted(turn);
        }
    }
    let shown = scene.replay(&steps).expect("accepted steps");
    (steps, shown)
}

/// A right session's bytes, anything standing in those that aren't read.
pub fn written(r: &mut Rng, steps: &[Step], shown: &[Entry]) -> Vec<u8> {
    let mut bytes = r.bytes(450);
    (bytes[0], bytes[1]) = (steps.len() as u8, shown.len() as u8);
    for (i, step) in steps.iter().enumerate() {
        let at = &mut bytes[2 + 5 * i..7 + 5 * i];
        match *step {
            Step::Hide { object } => (at[0], at[1]) = (0, object as u8),
            Step::Draw { object, state, place: Place::Last } => (at[0], at[1], at[2]) = (1, object as u8, state as u8),
            Step::Draw { object, state, place: Place::At(a, b) } => {
                let kind = if r.once_in(2) { 2 } else { at[0].max(2) };
                at.copy_from_slice(&[kind, object as u8, state as u8, a as u8, b as u8]);
            }
        }
    }
    for (i, entry) in shown.iter().enumerate() {
        (bytes[322 + 2 * i], bytes[323 + 2 * i]) = (entry.object as u8, entry.state as u8);
    }
    bytes
}

/// Damage to a session: counts, a step or an entry, their order, or arbitrary bytes.
pub fn spoil(r: &mut Rng, bytes: &mut [u8]) {
    let (steps, entries) = (bytes[0].min(64) as usize, bytes[1].min(64) as usize);
    match r.below(10) {
        0 => bytes[0] = r.pick(&[0, 1, 63, 64, 65, 128, 255, bytes[0].wrapping_sub(1), bytes[0].wrapping_add(1)]),
        1 => bytes[1] = r.pick(&[0, 1, 63, 64, 65, 128, 255, bytes[1].wrapping_sub(1), bytes[1].wrapping_add(1)]),
        2 if steps > 0 => bytes[2 + r.below(5 * steps)] = r.pick(&[0, 1, 2, 3, 9, 10, 128, 255]),
        3 if steps > 0 => bytes[2 + r.below(5 * steps)] ^= 1 << r.below(8),
        4 if entries > 0 => bytes[322 + r.below(2 * entries)] = r.pick(&[0, 1, 2, 3, 9, 10, 128, 255]),
        5 if entries > 1 => {
            let (i, j) = (r.below(entries), r.below(entries));
            (0..2).for_each(|k| bytes.swap(322 + 2 * i + k, 322 + 2 * j + k));
        }
        6 if steps > 1 => {
            let (i, j) = (r.below(steps), r.below(steps));
            (0..5).for_each(|k| bytes.swap(2 + 5 * i + k, 2 + 5 * j + k));
        }
        7 if steps > 1 => {
            // A step is left out.
            let i = r.below(steps);
            bytes.copy_within(2 + 5 * (i + 1)..2 + 5 * steps, 2 + 5 * i);
            bytes[0] -= 1;
        }
        8 => {
            let few = r.pick(&[2, 5, 255]);
            bytes.iter_mut().for_each(|byte| *byte = r.byte() % few);
        }
        _ => {
            let at = r.below(450);
            bytes[at] = r.byte();
        }
    }
}

/// Steps that a session may have seen: few, some, or as many as fit.
pub fn some_calls(r: &mut Rng, maker: &Maker) -> usize {
    match r.below(6) {
        _ if maker.w * maker.h > 20_000 => r.below(12),
        0 => 0,
        1 => 300,
        _ => r.below(30),
    }
}

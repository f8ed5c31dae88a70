//! Scenes with points: the object under many points, in sessions right and wrong, under any flags.

use crate::calls;
use crate::comparison::Comparison;
use crate::damage;
use crate::maker::{grown, some_calls, spoil, written, Maker};
use crate::rng::Rng;
use crate::room_scenes::lent;
use crate::stages;
use reference::step::Scene;

/// A coordinate below `limit`, often at a strip's edge, or outside: at the rim, or far out.
fn coordinate(r: &mut Rng, limit: usize) -> u32 {
    match r.below(60) {
        0 => limit as u32 + r.below(3) as u32,
        1 => r.pick(&[256, 65_536, 0x7FFF_FFFF, 0x8000_0000, 0xFFFF_FFF8, 0xFFFF_FFFF]),
        2..=25 => ((8 * r.below(limit / 8 + 1) + r.pick(&[0, 7])) % limit) as u32,
        _ => r.below(limit) as u32,
    }
}

/// A byte for each object: mostly 0, so that objects are found; else anything.
fn flags(r: &mut Rng, objects: usize) -> Vec<u8> {
    let mut flags = if r.once_in(4) { lent(r, objects) } else { r.bytes(objects) };
    let zeros = r.pick(&[1, 3, 8, 100]);
    flags.iter_mut().for_each(|flag| *flag = if r.once_in(zeros) { *flag } else { 0 });
    flags
}

pub fn points(b: &mut Comparison, r: &mut Rng) {
    let mut plan = stages::stage(r);
    let (mut room, mut maker) = (plan.root.write(), Maker::new(r, &mut plan));
    let (calls, scene) = (some_calls(r, &maker), Scene::new(&room, |_| true).expect("a stage"));
    let (steps, shown) = grown(r, &scene, &mut maker, calls);
    let mut session = written(r, &steps, &shown);
    if r.once_in(10) {
        spoil(r, &mut session);
    }
    let changes = [stages::change, stages::change, damage::tree, damage::needed, damage::sizes, damage::table, damage::body];
    if r.once_in(6) {
        r.pick(&changes)(r, &mut plan);
        room = plan.root.write();
    }
    if r.once_in(20) {
        damage::bytes(r, &mut room);
    }
    for _ in 0..if maker.w * maker.h > 20_000 { 4 } else { 30 } {
        let mut session = session.clone();
        if r.once_in(40) {
            session.truncate(r.pick(&[0, 1, 2, 321, 449]));
        } else if r.once_in(10) {
            session.push(7);
        }
        let flags = flags(r, maker.objects);
        let (x, y) = (coordinate(r, maker.w), coordinate(r, maker.h));
        calls::object_at(b, &room, &session, &flags, x, y);
    }
}

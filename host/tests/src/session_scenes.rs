//! Scenes with sessions: lists of draws, hides and take-backs on loaded rooms; then sessions, surfaces and rooms of other origin.

use crate::calls::{self, Turn};
use crate::comparison::Comparison;
use crate::maker::{grown, listed, some_calls, spoil, written, Maker};
use crate::rng::Rng;
use crate::room_scenes::lent;
use crate::rooms::{self, Plan};
use crate::{damage, stages};
use reference::step::{Scene, Step};
use reference::{painting, session};

/// Demand 3: "pixels and masks equal, byte for byte, the room painted afresh with the accepted steps not taken back"; so does the list.
fn stands(scene: &Scene, steps: &[Step], lent: &[Vec<u8>; 3]) -> bool {
    let shown = scene.replay(steps).expect("accepted steps");
    let (pixels, masks) = painting::afresh(scene, &shown);
    let entries: Vec<u8> = shown.iter().flat_map(|entry| [entry.object as u8, entry.state as u8]).collect();
    let counts = [steps.len() as u8, shown.len() as u8];
    lent[0].starts_with(&counts) && lent[0][322..].starts_with(&entries) && lent[1].starts_with(&pixels) && lent[2].starts_with(&masks)
}

/// One call of a list, first perhaps with a buffer too short, then as demand 3 has it.
fn play(b: &mut Comparison, r: &mut Rng, scene: &Scene, maker: &mut Maker, steps: &mut Vec<Step>, lent: &mut [Vec<u8>; 3], turn: Turn) {
    if r.once_in(25) {
        let mut short = lent.clone();
        let (which, needs) = (r.below(3), maker.needs());
        short[which].truncate(if r.once_in(3) { r.below(needs[which] + 1) } else { needs[which].saturating_sub(1) });
        calls::turn(b, turn, scene.bytes, &short);
    }
    let (number, after) = calls::turn(b, turn, scene.bytes, lent);
    *lent = after;
    let wanted = listed(scene, steps, turn);
    if number != wanted {
        b.differ(turn.name(), "isn't as the step list says", &format!("{turn:?}: {number}, the step list {wanted}"));
    }
    if number == 0 {
        maker.accepted(turn);
    }
    if !stands(scene, steps, lent) {
        b.differ(turn.name(), "isn't the room painted afresh", &format!("{turn:?}: number {number}, {} steps", steps.len()));
    }
}

/// A list on a loaded room; often all is taken back in the end, which gives the load's surfaces again.
fn list_of(b: &mut Comparison, r: &mut Rng, calls: usize) {
    let mut plan = stages::stage(r);
    let (room, mut maker) = (plan.root.write(), Maker::new(r, &mut plan));
    let lent = maker.needs().map(|need| need + if r.once_in(4) { r.below(20) } else { 0 }).map(|need| r.bytes(need));
    let (number, mut lent) = calls::load(b, &room, &lent[0], &lent[1], &lent[2]);
    let Ok(scene) = Scene::new(&room, |_| true) else {
        return b.differ("load", "refuses a room that was made to be good", &format!("a stage: number {number}"));
    };
    let (calls, mut steps) = (if maker.w * maker.h > 20_000 { calls.min(15) } else { calls }, vec![]);
    let loaded = lent.clone();
    for _ in 0..calls {
        let turn = maker.turn(r);
        play(b, r, &scene, &mut maker, &mut steps, &mut lent, turn);
    }
    if r.once_in(3) {
        for _ in 0..=steps.len() {
            play(b, r, &scene, &mut maker, &mut steps, &mut lent, Turn::TakeBack);
        }
        if lent[1..] != loaded[1..] {
            b.differ("take_back", "doesn't give the load's surfaces again", "all taken back");
        }
    }
}

pub fn list(b: &mut Comparison, r: &mut Rng) {
    let calls = r.range(5, 40);
    list_of(b, r, calls);
}

pub fn long_list(b: &mut Comparison, r: &mut Rng) {
    let calls = r.range(150, 400);
    list_of(b, r, calls);
}

/// Session, pixels and masks of any origin, in buffers of about the right length.
fn strange(r: &mut Rng, session: Vec<u8>, needs: [usize; 3]) -> [Vec<u8>; 3] {
    let mut buffers = needs.map(|need| if r.once_in(3) { lent(r, need) } else { r.bytes(need) });
    let common = buffers[0].len().min(session.len());
    buffers[0][..common].copy_from_slice(&session[..common]);
    buffers
}

/// Right and damaged sessions over surfaces that no load has painted.
pub fn strangers(b: &mut Comparison, r: &mut Rng) {
    let mut plan = stages::stage(r);
    let (room, mut maker) = (plan.root.write(), Maker::new(r, &mut plan));
    let scene = Scene::new(&room, |_| true).expect("a stage");
    let calls = some_calls(r, &maker);
    let (steps, shown) = grown(r, &scene, &mut maker, calls);
    for _ in 0..if maker.w * maker.h > 20_000 { 2 } else { 12 } {
        let mut session = written(r, &steps, &shown);
        assert!(session::stand(&scene, &session).is_ok(), "a session that the reference gave");
        if r.once_in(2) {
            spoil(r, &mut session);
        }
        let mut lent = strange(r, session, maker.needs());
        for _ in 0..r.range(1, 3) {
            let turn = if r.once_in(4) { Turn::TakeBack } else { maker.turn(r) };
            (_, lent) = calls::turn(b, turn, &room, &lent);
        }
    }
}

/// Sessions in a room that was changed since, or that is damaged, or is another one.
pub fn changed_rooms(b: &mut Comparison, r: &mut Rng) {
    let mut plan = stages::stage(r);
    let (room, mut maker) = (plan.root.write(), Maker::new(r, &mut plan));
    let scene = Scene::new(&room, |_| true).expect("a stage");
    let calls = some_calls(r, &maker);
    let (steps, shown) = grown(r, &scene, &mut maker, calls);
    for _ in 0..if maker.w * maker.h > 20_000 { 2 } else { 8 } {
        let mut other = Plan { w: plan.w, h: plan.h, n: plan.n, root: plan.root.clone() };
        let kinds = [damage::tree, damage::needed, damage::sizes, damage::table, damage::body];
        match r.below(9) {
            0..=3 => (0..r.range(1, 3)).for_each(|_| stages::change(r, &mut other)),
            4 | 5 => r.pick(&kinds)(r, &mut other),
            6 => other = stages::stage(r),
            7 => rooms::change_trns(r, &mut other),
            _ => (),
        }
        let mut bytes = other.root.write();
        if r.once_in(6) {
            damage::bytes(r, &mut bytes);
        }
        let mut session = written(r, &steps, &shown);
        if r.once_in(8) {
            spoil(r, &mut session);
        }
        let (w, h) = (other.w.min(1032), other.h.min(201));
        let lent = strange(r, session, [450, w * h, other.n * (w / 8) * h]);
        for _ in 0..2 {
            let turn = if r.once_in(4) { Turn::TakeBack } else { maker.turn(r) };
            calls::turn(b, turn, &bytes, &lent);
        }
    }
}

/// A room from a file: every object's states at their place, hidden, elsewhere; then all of it taken back.
pub fn given(b: &mut Comparison, room: &[u8]) {
    let (number, mut lent) = calls::load(b, room, &[1; 450], &[2; 1024 * 200], &[3; 4 * 128 * 200]);
    let Ok(scene) = Scene::new(room, |_| true) else { return assert!(number != 0) };
    for object in 0..=scene.objects.len() as u32 + 1 {
        let draws = (0..4).flat_map(|state| [Turn::DrawLast { object, state }, Turn::DrawAt { object, state, a: state, b: 1 }]);
        for turn in draws.chain([Turn::Hide { object }, Turn::DrawLast { object, state: 1 }, Turn::TakeBack, Turn::Hide { object }]) {
            (_, lent) = calls::turn(b, turn, room, &lent);
        }
    }
    for _ in 0..65 {
        (_, lent) = calls::turn(b, Turn::TakeBack, room, &lent);
    }
}

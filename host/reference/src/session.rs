//! The session's bytes and the four calls that change it (document 01, "Sessions"; docs/LAYOUTS.md, "Session, 450 bytes").

use crate::load::SESSION;
use crate::painting::rebuild;
use crate::room::Room;
use crate::step::{Entry, Place, Scene, Step};
use crate::{NOTHING, OTHER};

// Where steps and entries stand: five bytes (kind, object, state, a, b) and two (object, state) each.
const STEPS: usize = 2;
const ENTRIES: usize = 322;

/// A step's five bytes: "kind (0 hide, 1 draw at the last place, any other draw at a strip position)".
fn step_of(bytes: &[u8]) -> Step {
    let [kind, object, state, a, b] = [0, 1, 2, 3, 4].map(|i| bytes[i] as usize);
    match kind {
        0 => Step::Hide { object },
        1 => Step::Draw { object, state, place: Place::Last },
        _ => Step::Draw { object, state, place: Place::At(a, b) },
    }
}

/// An accepted step's numbers are small: at most 128 objects, 9 states, 128 by 25 strip positions.
fn bytes_of(step: Step) -> [u8; 5] {
    match step {
        Step::Hide { object } => [0, object, 0, 0, 0],
        Step::Draw { object, state, place: Place::Last } => [1, object, state, 0, 0],
        Step::Draw { object, state, place: Place::At(a, b) } => [2, object, state, a, b],
    }
    .map(|number| u8::try_from(number).expect("an accepted step"))
}

/// 9: the history and the list that it replays to, if that is the list that the session holds. Other bytes aren't looked at.
pub fn stand(scene: &Scene, session: &[u8]) -> Result<(Vec<Step>, Vec<Entry>), u32> {
    let (steps, entries) = (session[0] as usize, session[1] as usize);
    if steps > 64 || entries > 64 {
        return Err(OTHER);
    }
    let history: Vec<Step> = session[STEPS..].chunks(5).take(steps).map(step_of).collect();
    let shown = scene.replay(&history).map_err(|_| OTHER)?;
    let held = session[ENTRIES..].chunks(2).take(entries).map(|entry| (entry[0] as usize, entry[1] as usize));
    let right = held.eq(shown.iter().map(|entry| (entry.object, entry.state)));
    right.then_some((history, shown)).ok_or(OTHER)
}

/// Writes the counts and the shown list.
fn put(session: &mut [u8], steps: usize, shown: &[Entry]) {
    (session[0], session[1]) = (steps as u8, shown.len() as u8);
    for (i, entry) in shown.iter().enumerate() {
        session[ENTRIES + 2 * i] = entry.object as u8;
        session[ENTRIES + 2 * i + 1] = entry.state as u8;
    }
}

/// What draws, hides and take-backs need of their buffers.
fn lent(room: &Room, session: &[u8], pixels: &[u8], masks: &[u8]) -> bool {
    session.len() >= SESSION && pixels.len() >= room.pixels() && masks.len() >= room.masks()
}

fn try_step(room: &[u8], session: &mut [u8], pixels: &mut [u8], masks: &mut [u8], step: Step) -> Result<(), u32> {
    let scene = Scene::new(room, |room| lent(room, session, pixels, masks))?;
    let (history, shown) = stand(&scene, session)?;
    let change = scene.step(&history, &shown, step)?;
    let n = history.len();
    session[STEPS + 5 * n..STEPS + 5 * n + 5].copy_from_slice(&bytes_of(step));
    put(session, n + 1, &change.shown);
    rebuild(&scene, &change.shown, &change.touched, pixels, masks);
    Ok(())
}

fn try_take_back(room: &[u8], session: &mut [u8], pixels: &mut [u8], masks: &mut [u8]) -> Result<(), u32> {
    let scene = Scene::new(room, |room| lent(room, session, pixels, masks))?;
    let (history, _) = stand(&scene, session)?;
    let (newest, before) = history.split_last().ok_or(NOTHING)?;
    let shown = scene.replay(before).expect("a history that replays");
    let change = scene.step(before, &shown, *newest).expect("a history that replays");
    put(session, before.len(), &shown);
    rebuild(&scene, &shown, &change.touched, pixels, masks);
    Ok(())
}

/// A draw or hide.
pub fn make(room: &[u8], session: &mut [u8], pixels: &mut [u8], masks: &mut [u8], step: Step) -> u32 {
    try_step(room, session, pixels, masks, step).err().unwrap_or(0)
}

pub fn draw_last(room: &[u8], session: &mut [u8], pixels: &mut [u8], masks: &mut [u8], object: u32, state: u32) -> u32 {
    make(room, session, pixels, masks, Step::Draw { object: object as usize, state: state as usize, place: Place::Last })
}

/// `numbers`: object, state, a, b.
pub fn draw_at(room: &[u8], session: &mut [u8], pixels: &mut [u8], masks: &mut [u8], numbers: [u32; 4]) -> u32 {
    let [object, state, a, b] = numbers.map(|number| number as usize);
    make(room, session, pixels, masks, Step::Draw { object, state, place: Place::At(a, b) })
}

pub fn hide(room: &[u8], session: &mut [u8], pixels: &mut [u8], masks: &mut [u8], object: u32) -> u32 {
    make(room, session, pixels, masks, Step::Hide { object: object as usize })
}

/// "A take-back rebuilds its step's strips": those of the entries that the step removed or added, from the list before it.
pub fn take_back(room: &[u8], session: &mut [u8], pixels: &mut [u8], masks: &mut [u8]) -> u32 {
    try_take_back(room, session, pixels, masks).err().unwrap_or(0)
}

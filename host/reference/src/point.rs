//! The object under a point (document 01, "Actors, points, limbs"; source 003 for CDHD).

use crate::load::SESSION;
use crate::session::stand;
use crate::step::{moved_to, Entry, Scene, Step};
use crate::OUTSIDE;

/// "box (CDHD sizes × 8, at its newest strip position in the history, else CDHD's place × 8) holds it"
fn holds(scene: &Scene, history: &[Step], object: usize, x: usize, y: usize) -> bool {
    let [left, top, width, height] = [2, 3, 4, 5].map(|i| 8 * scene.objects[object - 1].cdhd[i] as usize);
    let (left, top) = moved_to(history, object).unwrap_or((left, top));
    (left..left + width).contains(&x) && (top..top + height).contains(&y)
}

/// "each parent must have state not 0 if its child's flags have bit 80, else 0, and so on upward. An absent parent or a chain that never
/// reaches 0 closes it." A chain without a loop has fewer links than there are objects.
fn open(scene: &Scene, shown: &[Entry], object: usize, links: usize) -> bool {
    let (flags, parent) = (scene.objects[object - 1].cdhd[6], scene.objects[object - 1].cdhd[7] as usize);
    if parent == 0 {
        return true;
    }
    if parent > scene.objects.len() || links == 0 {
        return false;
    }
    // "State is the shown state, else 0"; a shown state is never 0.
    let not_zero = shown.iter().any(|entry| entry.object == parent);
    not_zero == (flags & 0x80 != 0) && open(scene, shown, parent, links - 1)
}

/// The lowest-numbered object that holds the point, "whose lent flag byte is 0, and whose container chain is open"; 0 for none.
pub fn object_at(room: &[u8], session: &[u8], flags: &[u8], x: u32, y: u32) -> Result<usize, u32> {
    let scene = Scene::new(room, |room| session.len() >= SESSION && flags.len() >= room.objects.len())?;
    let (history, shown) = stand(&scene, session)?;
    let (x, y, count) = (x as usize, y as usize, scene.objects.len());
    if x >= scene.ground.room.w || y >= scene.ground.room.h {
        return Err(OUTSIDE);
    }
    let found = |object: &usize| holds(&scene, &history, *object, x, y) && flags[object - 1] == 0 && open(&scene, &shown, *object, count);
    Ok((1..=count).find(found).unwrap_or(0))
}

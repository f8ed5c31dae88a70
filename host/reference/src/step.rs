//! Steps and their replay (document 01, "Sessions"): which draws and hides are refused, and the shown list that they give.

use crate::image::{self, Object, Strip};
use crate::room::{self, Painted, Room};
use crate::{FULL, NO_OBJECT, PLACE};
use std::cell::RefCell;
use std::collections::BTreeMap;
use std::rc::Rc;

/// "either where the object last was, or at strip position (a, b), meaning pixel (8a, 8b)"
#[derive(Clone, Copy, Debug)]
pub enum Place {
    Last,
    At(usize, usize),
}

/// A step as a call names it. The numbers are any u32, so that every sum below is exact.
#[derive(Clone, Copy, Debug)]
pub enum Step {
    Draw { object: usize, state: usize, place: Place },
    Hide { object: usize },
}

/// An entry of the shown list: what, its box in pixels, its strips.
#[derive(Clone)]
pub struct Entry {
    pub object: usize,
    pub state: usize,
    pub place: (usize, usize),
    pub size: (usize, usize),
    pub strips: Rc<Vec<Strip>>,
}

/// What an accepted step does: the shown list after it, and the entries that it removed or added.
pub struct Change {
    pub shown: Vec<Entry>,
    pub touched: Vec<Entry>,
}

/// An image as it is read: its strips, or its refusal.
type ReadImage = Result<Rc<Vec<Strip>>, u32>;

/// A tested room with its objects. An image is read once, however often it is drawn.
pub struct Scene<'a> {
    pub bytes: &'a [u8],
    pub ground: Painted,
    pub objects: Vec<Object<'a>>,
    read: RefCell<BTreeMap<(usize, usize), ReadImage>>,
}

/// The newest strip position of an object in the history, in pixels.
pub fn moved_to(history: &[Step], object: usize) -> Option<(usize, usize)> {
    history.iter().rev().find_map(|step| match *step {
        Step::Draw { object: drawn, place: Place::At(a, b), .. } if drawn == object => Some((8 * a, 8 * b)),
        _ => None,
    })
}

/// Refusal 12: "x or image width not a multiple of 8, a zero size, or a box not wholly in the room".
pub fn allowed(room: &Room, (x, y): (usize, usize), (width, height): (usize, usize)) -> bool {
    let inside = x + width <= room.w && y + height <= room.h;
    x.is_multiple_of(8) && width.is_multiple_of(8) && width > 0 && height > 0 && inside
}

impl<'a> Scene<'a> {
    /// The whole test of the room; `lent` says whether the call's buffers are long enough.
    pub fn new(bytes: &'a [u8], lent: impl FnOnce(&Room) -> bool) -> Result<Scene<'a>, u32> {
        let ground = room::test(bytes, lent)?;
        let objects = image::objects(bytes, &ground.room);
        Ok(Scene { bytes, ground, objects, read: RefCell::default() })
    }

    /// "Last place: the newest such position in the history, else IMHD's, (0, 0) for an object with no image."
    pub fn last_place(&self, history: &[Step], object: usize) -> (usize, usize) {
        let own = || self.objects[object - 1].image.map_or((0, 0), |image| image.place());
        moved_to(history, object).unwrap_or_else(own)
    }

    /// 11, 12, then the image's own refusals.
    fn entry(&self, history: &[Step], object: usize, state: usize, place: Place) -> Result<Entry, u32> {
        let image = object.checked_sub(1).and_then(|i| self.objects.get(i)?.image).ok_or(NO_OBJECT)?;
        let im = image.state(self.bytes, state).ok_or(NO_OBJECT)?;
        let place = match place {
            Place::At(a, b) => (8 * a, 8 * b),
            Place::Last => self.last_place(history, object),
        };
        let size = image.size();
        if !allowed(&self.ground.room, place, size) {
            return Err(PLACE);
        }
        let read = || image::strips(self.bytes, &self.ground.room, im, size).map(Rc::new);
        let strips = self.read.borrow_mut().entry((object, state)).or_insert_with(read).clone()?;
        Ok(Entry { object, state, place, size, strips })
    }

    /// One step on a history and its shown list: 10, 11, 12, then 2 and 5 to 8 for the image.
    pub fn step(&self, history: &[Step], shown: &[Entry], step: Step) -> Result<Change, u32> {
        if history.len() >= 64 {
            return Err(FULL);
        }
        let (object, added) = match step {
            Step::Draw { object, state, place } => (object, Some(self.entry(history, object, state, place)?)),
            Step::Hide { object } if shown.iter().any(|entry| entry.object == object) => (object, None),
            Step::Hide { .. } => return Err(NO_OBJECT),
        };
        // "A draw removes the object's own entry and any entry of the same box … A hide removes the object's entry".
        let same_box = |entry: &Entry| added.as_ref().is_some_and(|added| (entry.place, entry.size) == (added.place, added.size));
        let goes = |entry: &Entry| entry.object == object || same_box(entry);
        let (mut touched, mut shown): (Vec<Entry>, Vec<Entry>) = shown.iter().cloned().partition(goes);
        touched.extend(added.clone());
        shown.extend(added);
        Ok(Change { shown, touched })
    }

    /// A history from an empty shown list: the list that it gives, or the first refusal.
    pub fn replay(&self, history: &[Step]) -> Result<Vec<Entry>, u32> {
        let mut shown = Vec::new();
        for (i, step) in history.iter().enumerate() {
            shown = self.step(&history[..i], &shown, *step)?.shown;
        }
        Ok(shown)
    }
}

//! Scenes with a room's transparent index (change request 9): TRNS blocks of every kind, faults beside them, strips that hold the index, and stamps. What
//! each must give is known from its making; the reference is asked too, as everywhere.

use crate::calls::{self, Turn};
use crate::clear_blocks::Blocks;
use crate::clear_calls::{Call, Lent, CALLS};
use crate::clear_count::{scenes, Case, Scene};
use crate::clear_faults::Fault;
use crate::clear_images::{self, Image, Index, Look, Surfaces};
use crate::comparison::{Comparison, Place};
use crate::planned::Case as _;
use crate::rng::Rng;
use crate::rooms::{self, u16s};
use crate::tree::{container, leaf, Node};
use reference::actor::Actor;

/// Counts a case that came out as it must; else it is a difference.
fn count(b: &mut Comparison, call: &str, right: bool, case: Case, given: &str) {
    if right {
        return b.clears.reached(case);
    }
    b.differ(call, "does otherwise with a deliberate transparent index", &format!("{}: {given}", case.name()));
}

/// A call on a room with these blocks: its number, and what it leaves. The room ends with its page, so that an empty block has nothing behind it there.
fn ask(b: &mut Comparison, r: &mut Rng, blocks: Blocks, call: Call) {
    let ((room, wanted), lent) = (blocks.make(r), Lent::of(call));
    b.room_at_page_end = true;
    let (number, left) = lent.ask(b, call, &room.write());
    let right = match wanted {
        Ok(clear) => number == 0 && left == lent.left(call, clear),
        Err(refusal) => number == refusal,
    };
    count(b, call.name(), right, Case::Asked { blocks, call }, &format!("number {number}, {left:?}, wanted {wanted:?}"));
}

fn refuse(b: &mut Comparison, r: &mut Rng, fault: Fault, call: Call, empty: bool) {
    let (room, lent) = fault.make(r, call, empty);
    let ((number, _), wanted) = (lent.ask(b, call, &room), fault.wanted(call, empty));
    count(b, call.name(), number == wanted, Case::Refused { fault, call, empty }, &format!("number {number}, wanted {wanted}"));
}

/// An entry of the shown list: object and state, counted from 0, and its place in pixels.
type Entry = (usize, usize, (usize, usize));

/// A room whose painting is known.
struct Stage {
    clear: u8,
    ground: Image,
    /// The states of each object.
    objects: Vec<Vec<Image>>,
    room: Vec<u8>,
}

/// OBIM and OBCD of an object at this place.
fn object(r: &mut Rng, id: usize, (x, y): (usize, usize), states: &[Image]) -> [Node; 2] {
    let (width, height) = states[0].size();
    let mut kids = vec![leaf(b"IMHD", u16s(&[id, states.len(), 0, 0, x, y, width, height]))];
    kids.extend(states.iter().zip(1..).map(|(state, s)| container(&[b'I', b'M', b'0', b'0' + s], state.blocks(r))));
    [container(b"OBIM", kids), rooms::obcd(r, id as u16)]
}

impl Stage {
    /// A room of these images, objects at their places, and a TRNS block at any place where the index is given.
    fn new(r: &mut Rng, ground: Image, objects: Vec<Vec<Image>>, places: &[(usize, usize)], clear: u8, given: bool) -> Stage {
        let (w, h) = ground.size();
        let mut root = rooms::least_room(w, h, ground.picture.planes.len(), ground.blocks(r));
        for (id, (states, place)) in objects.iter().zip(places).enumerate() {
            root.kids().extend(object(r, id, *place, states));
        }
        let at = r.below(root.kids().len() + 1);
        root.kids().splice(at..at, given.then(|| leaf(b"TRNS", vec![clear, !clear])));
        Stage { clear, ground, objects, room: root.write() }
    }

    /// The surfaces with these entries.
    fn painted(&self, shown: &[Entry]) -> Surfaces {
        shown.iter().fold(Surfaces::of(&self.ground), |under, (object, state, place)| {
            under.with(&self.ground, &self.objects[*object][*state], self.clear, *place)
        })
    }

    /// Loads the room and takes these turns, after each of which the surfaces must be those of the entries beside it; else where they are not.
    fn play(&self, b: &mut Comparison, turns: &[(Turn, Vec<Entry>)]) -> Result<(), String> {
        let Surfaces { pixels, masks } = self.painted(&[]);
        let (number, mut lent) = calls::load(b, &self.room, &[1; 450], &vec![2; pixels.len()], &vec![3; masks.len()]);
        let (recorded, record) = calls::record(b, &self.room, &[4; 16]);
        if (number, recorded, record[8]) != (0, 0, self.clear) || lent[1] != pixels || lent[2] != masks {
            return Err(format!("loaded: numbers {number} and {recorded}, index {} of {}", record[8], self.clear));
        }
        for (turn, shown) in turns {
            let (number, after) = calls::turn(b, *turn, &self.room, &lent);
            let wanted = self.painted(shown);
            if number != 0 || after[1] != wanted.pixels || after[2] != wanted.masks {
                return Err(format!("{turn:?}: number {number}"));
            }
            lent = after;
        }
        Ok(())
    }
}

/// The looks in any order, so many of them once more.
fn shuffled(r: &mut Rng, looks: &[Look], more: usize) -> Vec<Look> {
    let mut all = looks.to_vec();
    all.extend((0..more).map(|_| r.pick(looks)));
    r.shuffle(&mut all);
    all
}

/// All looks of a code side by side: as a background, and as an object that is drawn, covered by another, hidden, drawn over that one and taken back.
fn paint(b: &mut Comparison, r: &mut Rng, index: Index, code: u8) {
    let (clear, looks, n, h) = (index.value(r, code), clear_images::looks(index, code), r.range(1, 4), r.range(2, 5));
    let ((left, top), (a, c)) = ((8 * r.below(3), r.below(9)), (r.below(3), r.below(3)));
    let ground_looks = shuffled(r, &looks, 2);
    let ground = Image::new(r, true, &ground_looks, clear, h + 8, n);
    let image_looks = shuffled(r, &looks, 0);
    let image = Image::new(r, false, &image_looks, clear, h, n);
    // The second object is narrower, so that the first isn't evicted.
    let wide = r.pick(&[0x12, 0x1C, 0x26, 0x30, 0x44, 0x58, 0x6C, 0x80, 1]);
    let mut cover_looks = shuffled(r, &clear_images::looks(index, wide), 0);
    cover_looks.truncate(looks.len() - 1);
    let cover = Image::new(r, false, &cover_looks, clear, h, n);
    let stage = Stage::new(r, ground, vec![vec![image], vec![cover]], &[(left, top), (0, 0)], clear, index != Index::Missing);
    let (own, moved, other) = ((0, 0, (left, top)), (0, 0, (8 * a, 8)), (1, 0, (8 * c, 8)));
    let turns = [
        (Turn::DrawLast { object: 1, state: 1 }, vec![own]),
        (Turn::DrawAt { object: 2, state: 1, a: c as u32, b: 1 }, vec![own, other]),
        (Turn::Hide { object: 1 }, vec![other]),
        (Turn::DrawAt { object: 1, state: 1, a: a as u32, b: 1 }, vec![other, moved]),
        (Turn::Hide { object: 2 }, vec![moved]),
        (Turn::TakeBack, vec![other, moved]),
        (Turn::TakeBack, vec![other]),
        (Turn::TakeBack, vec![own, other]),
        (Turn::TakeBack, vec![own]),
        (Turn::TakeBack, vec![]),
    ];
    let played = stage.play(b, &turns);
    for (look, place) in looks.into_iter().flat_map(|look| [Place::Background, Place::Image].map(|place| (look, place))) {
        count(b, "draw_at", played.is_ok(), Case::Painted { look, place }, played.as_ref().err().map_or("", String::as_str));
    }
}

/// A room in which every strip has all 256 colours: in an object under a transparent code and under an opaque one; then one that lacks the index alone.
fn colour(b: &mut Comparison, r: &mut Rng, clear: u8) {
    let mut colours = || {
        let mut all: Vec<u8> = (0..=255).collect();
        r.shuffle(&mut all);
        all
    };
    let [ground, every] = [colours(), colours()];
    let lacking = every.iter().map(|colour| if *colour == clear { !clear } else { *colour }).collect();
    let codes = [r.pick(&[1, 0x12, 0x26, 0x30, 0x6C]), r.pick(&[0x26, 0x30, 0x58, 0x6C]), r.pick(&[1, 0x12, 0x1C, 0x44, 0x80])];
    let n = r.range(1, 4);
    let ground = Image::of(r, true, vec![(codes[0], ground)], n);
    let states = [(codes[1], every.clone()), (codes[2], every), (codes[1], lacking)];
    let states = states.map(|strip| Image::of(r, false, vec![strip], n)).into_iter().collect();
    let stage = Stage::new(r, ground, vec![states], &[(0, 0)], clear, true);
    let shown = |state: usize| vec![(0, state, (0, 0))];
    let draws = [1, 2, 3].map(|state| (Turn::DrawLast { object: 1, state }, shown(state as usize - 1)));
    let backs = [shown(1), shown(0), vec![]].map(|shown| (Turn::TakeBack, shown));
    let played = stage.play(b, &[draws, backs].concat());
    count(b, "draw_last", played.is_ok(), Case::Coloured { clear }, played.as_ref().err().map_or("", String::as_str));
}

/// A stamp of a picture with many pixels of the index, of 255, of 0 and of the index's neighbours, a part of it outside the frame; some of it hidden, or
/// none.
fn stamp(b: &mut Comparison, r: &mut Rng, clear: u8, hidden: bool) {
    let (w, h, n, width, height) = (24, 16, r.range(1, 4), 20, 12);
    let colours = [clear, clear, 255, 0, clear.wrapping_add(1), clear.wrapping_sub(1), !clear, r.byte()];
    let picture: Vec<u8> = (0..width * height).map(|_| r.pick(&colours)).collect();
    let (frame, masks) = (r.bytes(w * h), r.bytes(n * (w / 8) * h));
    let (x, y) = (r.below(15) as i32 - 6, r.below(11) as i32 - 4);
    let plane = r.range(1, n);
    let clip = if hidden { plane } else { r.pick(&[0, n + 1]) };
    let (mut wanted, mut painted, mut kept) = (frame.clone(), 0, 0);
    for (at, pixel) in picture.iter().enumerate() {
        let (column, row) = (x + (at % width) as i32, y + (at / width) as i32);
        if *pixel == clear || !(0..w as i32).contains(&column) || !(0..h as i32).contains(&row) {
            continue;
        }
        let (column, row) = (column as usize, row as usize);
        let covered = hidden && masks[((plane - 1) * h + row) * (w / 8) + column / 8] >> (7 - column % 8) & 1 == 1;
        *(if covered { &mut kept } else { &mut painted }) += 1;
        wanted[row * w + column] = if covered { frame[row * w + column] } else { *pixel };
    }
    let actor = Actor { picture: &picture, width: width as u32, height: height as u32, x, y, clip: clip as u32, clear };
    let (number, after) = calls::stamp(b, &frame, &masks, [w, h, n].map(|number| number as u32), &actor);
    let right = number == 0 && after == wanted && painted > 0 && (kept > 0) == hidden;
    count(b, "stamp", right, Case::Stamped { clear, hidden }, &format!("number {number}, {painted} pixels painted, {kept} hidden"));
}

fn play(b: &mut Comparison, r: &mut Rng, scene: Scene) {
    match scene {
        Scene::Asked(blocks) => CALLS.into_iter().for_each(|call| ask(b, r, blocks, call)),
        Scene::Refused(fault) => {
            fault.calls().into_iter().for_each(|call| [false, true].into_iter().for_each(|empty| refuse(b, r, fault, call, empty)))
        }
        Scene::Painted(index, code) => paint(b, r, index, code),
        Scene::Coloured(clear) => colour(b, r, clear),
        Scene::Stamped(clear) => [false, true].into_iter().for_each(|hidden| stamp(b, r, clear, hidden)),
    }
}

/// A planned scene, numbered from 0 on.
pub fn planned(b: &mut Comparison, r: &mut Rng, which: usize) {
    let scenes = scenes();
    play(b, r, scenes[which % scenes.len()]);
}

/// One of them, made anew.
pub fn any(b: &mut Comparison, r: &mut Rng) {
    let scene = r.pick(&scenes());
    play(b, r, scene);
}

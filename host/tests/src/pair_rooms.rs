//! Makes the rooms of deliberate pairs (pairs.rs), each with what the comparison must give for them.

use crate::comparison::Comparison;
use crate::pairs::{codes, Apart, Difference, Other};
use crate::recode::{plane_tag, Picture};
use crate::rng::Rng;
use crate::rooms::{self, Plan};
use crate::strips::any_code;
use crate::tree::{leaf, Node};
use crate::{calls, damage, writer_scenes};
use reference::{load, UNEQUAL};

/// Two rooms' bytes, and the list of differences or the refusal that they must give, but for a list that is too short.
pub struct Made {
    pub a: Vec<u8>,
    pub b: Vec<u8>,
    pub wanted: Result<Vec<Difference>, u32>,
}

impl Made {
    /// Two good rooms of these pictures.
    fn of(r: &mut Rng, a: &Picture, b: &Picture, wanted: Vec<Difference>) -> Made {
        Made { a: a.room(r).root.write(), b: b.room(r).root.write(), wanted: Ok(wanted) }
    }

    fn alike(a: Plan, b: Plan) -> Made {
        Made { a: a.root.write(), b: b.root.write(), wanted: Ok(vec![]) }
    }
}

/// A small picture of two strips and two rows or more.
fn any_picture(r: &mut Rng, n: usize) -> Picture {
    let (size, colours) = ((8 * r.range(2, 5), r.range(2, 12)), r.pick(&[16, 256]));
    Picture::any(r, size, n, colours)
}

fn edge(last: bool, count: usize) -> usize {
    if last {
        count - 1
    } else {
        0
    }
}

pub fn one_pixel(r: &mut Rng, last_strip: bool, last_row: bool, last_column: bool) -> Made {
    let n = r.below(5);
    let a = any_picture(r, n);
    let (s, y, x) = (edge(last_strip, a.w / 8), edge(last_row, a.h), edge(last_column, 8));
    let mut b = a.clone();
    b.repaint(r, 8 * s + x, y);
    Made::of(r, &a, &b, vec![(s, 1, 0)])
}

pub fn one_bit(r: &mut Rng, k: usize, last_strip: bool, last_row: bool) -> Made {
    let n = r.range(k, 4);
    let a = any_picture(r, n);
    let (s, y) = (edge(last_strip, a.w / 8), edge(last_row, a.h));
    let mut b = a.clone();
    b.flip(r, k, s, y);
    Made::of(r, &a, &b, vec![(s, 0, 1 << (k - 1))])
}

/// Changes so many pixels and these planes of a strip.
fn changed(r: &mut Rng, a: &Picture, pixels: usize, planes: u8) -> Made {
    let (mut b, s) = (a.clone(), r.below(a.w / 8));
    b.change(r, s, pixels, planes);
    Made::of(r, a, &b, vec![(s, pixels, planes)])
}

pub fn many_pixels(r: &mut Rng, count: usize) -> Made {
    let a = Picture::any(r, (16, 200), 1, 16);
    changed(r, &a, count, 0)
}

/// Changes some pixels, some planes or both in each of these strips.
fn changed_strips(r: &mut Rng, a: &Picture, strips: &[usize]) -> Made {
    let (mut b, mut wanted) = (a.clone(), vec![]);
    for s in strips {
        let planes = r.below(1 << a.planes.len()) as u8;
        let least = usize::from(planes == 0);
        let pixels = if r.once_in(3) { least } else { r.range(least, 8 * a.h) };
        b.change(r, *s, pixels, planes);
        wanted.push((*s, pixels, planes));
    }
    Made::of(r, a, &b, wanted)
}

pub fn some_strips(r: &mut Rng, count: usize) -> Made {
    let mut strips: Vec<usize> = (0..128).collect();
    r.shuffle(&mut strips);
    strips.truncate(count);
    strips.sort();
    let (size, n) = ((1024, r.range(1, 3)), r.below(3));
    let a = Picture::any(r, size, n, 16);
    changed_strips(r, &a, &strips)
}

pub fn some_planes(r: &mut Rng, planes: u8, pixels: bool) -> Made {
    let a = any_picture(r, 4);
    let pixels = if pixels { r.range(1, 8 * a.h) } else { 0 };
    changed(r, &a, pixels, planes)
}

fn image(plan: &mut Plan) -> &mut Vec<Node> {
    plan.root.find(&[b"RMIM", b"IM00"]).expect("an image").kids()
}

pub fn same_codes(r: &mut Rng, shift: usize) -> Made {
    let codes = codes();
    let (size, n) = ((8 * codes.len(), r.range(1, 6)), r.below(3));
    let picture = Picture::any(r, size, n, 16);
    let by = |shift: usize| picture.plain(r, |_, s| codes[(s + shift) % codes.len()]);
    let [a, b] = [0, shift].map(by);
    Made::alike(a, b)
}

pub fn by_the_writers(b: &mut Comparison, r: &mut Rng) -> Made {
    let n = r.below(5);
    let picture = any_picture(r, n);
    let (w, h) = (picture.w as u32, picture.h as u32);
    let out = vec![0; 8 + picture.w / 8 * (10 * picture.h + 5)];
    let mut blocks = vec![calls::write_smap(b, &picture.pixels, &out, w, h)];
    blocks.extend(picture.planes.iter().zip(1..).map(|(plane, k)| calls::write_plane(b, plane, &out, w, h, k)));
    let written = writer_scenes::around(picture.w, picture.h, &blocks);
    Made { a: picture.room(r).root.write(), b: written, wanted: Ok(vec![]) }
}

pub fn twice(r: &mut Rng) -> Made {
    let room = rooms::room(r).root.write();
    Made { a: room.clone(), b: room, wanted: Ok(vec![]) }
}

pub fn framed(r: &mut Rng) -> Made {
    let n = r.below(5);
    let picture = any_picture(r, n);
    Made::alike(picture.plain(r, |r, _| any_code(r)), picture.framed(r))
}

pub fn with_object(r: &mut Rng) -> Made {
    let picture = any_picture(r, 1);
    let [bare, mut with] = [(); 2].map(|_| picture.plain(r, |r, _| any_code(r)));
    let mut state = rooms::image(r, picture.w, picture.h, 1);
    state.tag = *b"IM01";
    with.root.kids().extend(rooms::object_of(r, picture.w, picture.h, state));
    Made::alike(bare, with)
}

pub fn declared(r: &mut Rng, n: usize, m: usize, set: bool) -> Made {
    let most = n.max(m);
    let mut a = any_picture(r, most);
    a.planes[n.min(m)..].iter_mut().for_each(|plane| plane.fill(0));
    let (mut b, mut wanted) = (a.clone(), vec![]);
    a.planes.truncate(n);
    b.planes.truncate(m);
    if set {
        let (k, s, y) = (r.range(n.min(m) + 1, most), r.below(a.w / 8), r.below(a.h));
        (if n > m { &mut a } else { &mut b }).flip(r, k, s, y);
        wanted.push((s, 0, 1 << (k - 1)));
    }
    Made::of(r, &a, &b, wanted)
}

pub fn missing(r: &mut Rng, k: usize, set: bool) -> Made {
    let n = r.range(k, 4);
    let a = any_picture(r, n).emptied(k);
    let (mut b, mut wanted) = (a.clone(), vec![]);
    if set {
        let (s, y) = (r.below(a.w / 8), r.below(a.h));
        b.flip(r, k, s, y);
        wanted.push((s, 0, 1 << (k - 1)));
    }
    let [mut without, mut with] = [a.room(r), b.room(r)];
    image(&mut without).retain(|kid| kid.tag != plane_tag(k));
    image(&mut with).insert(0, b.plane(r, k));
    Made { wanted: Ok(wanted), ..Made::alike(without, with) }
}

pub fn above(r: &mut Rng, k: usize, other: Other, rows: bool) -> Made {
    let mut full = any_picture(r, k).emptied(k);
    let (s, y) = (r.below(full.w / 8), r.below(full.h));
    full.flip(r, k, s, y);
    let mut low = full.clone();
    low.planes.truncate(k - 1);
    let (mut one, length) = (low.room(r), r.below(4));
    // A table of two strips or more doesn't fit in 3 bytes.
    let unread = if rows { full.plane(r, k) } else { leaf(&plane_tag(k), r.bytes(length)) };
    image(&mut one).insert(0, unread);
    let (b, wanted) = match other {
        Other::Undeclared => (low, vec![]),
        Other::Zero => (full.emptied(k), vec![]),
        Other::Set => (full, vec![(s, 0, 1 << (k - 1))]),
    };
    Made { wanted: Ok(wanted), ..Made::alike(one, b.room(r)) }
}

pub fn sized(r: &mut Rng, size: (usize, usize), differs: bool) -> Made {
    let n = r.below(5);
    let picture = Picture::any(r, size, n, 16);
    let strips: Vec<usize> = (0..if differs { size.0 / 8 } else { 0 }).collect();
    changed_strips(r, &picture, &strips)
}

/// A room of this picture with this transparent index.
fn with_index(r: &mut Rng, picture: &Picture, clear: Option<u8>) -> Vec<u8> {
    let mut plan = picture.room(r);
    let kids = plan.root.kids();
    kids.retain(|kid| &kid.tag != b"TRNS");
    let at = r.below(kids.len() + 1);
    kids.splice(at..at, clear.map(|clear| leaf(b"TRNS", vec![clear])));
    plan.root.write()
}

/// "Only decoded content counts": the index is none, and a pixel of it is one like others.
pub fn clears(r: &mut Rng, indexes: [Option<u8>; 2], pixels: bool) -> Made {
    let n = r.below(5);
    let picture = any_picture(r, n);
    let (s, w, h) = (r.below(picture.w / 8), picture.w, picture.h);
    let mut pictures = [picture.clone(), picture];
    let mut places: Vec<usize> = (0..8 * h).map(|i| i / 8 * w + 8 * s + i % 8).collect();
    r.shuffle(&mut places);
    places.truncate(if pixels { r.range(1, 8 * h) } else { 0 });
    for (picture, clear) in pictures.iter_mut().zip(indexes) {
        places.iter().for_each(|at| picture.pixels[*at] = clear.unwrap_or(255));
    }
    let [a, b] = [0, 1].map(|i| with_index(r, &pictures[i], indexes[i]));
    Made { a, b, wanted: Ok(if pixels { vec![(s, places.len(), 0)] } else { vec![] }) }
}

/// A room of this size that is refused with this number, which the record gives too.
fn bad_room(r: &mut Rng, size: (usize, usize), number: u32) -> Vec<u8> {
    let n = r.below(5);
    let picture = Picture::any(r, size, n, 16);
    let spoil: fn(&mut Rng, &mut Plan) = match number {
        0 => |_, _| (),
        1 => damage::tree,
        2 => damage::needed,
        3 => damage::sizes,
        5 => damage::table,
        _ => damage::body,
    };
    loop {
        let mut plan = picture.room(r);
        spoil(r, &mut plan);
        let room = plan.root.write();
        if load::record(&room, &mut [0; load::RECORD]) == number {
            return room;
        }
    }
}

pub fn refused(r: &mut Rng, a: u32, b: u32, apart: Apart) -> Made {
    let (w, h) = (8 * r.range(1, 4), r.range(1, 8));
    let (less, more) = match apart {
        Apart::No => ((w, h), (w, h)),
        Apart::Width => ((w, h), (w + 8 * r.range(1, 3), h)),
        Apart::Height => ((w, h), (w, h + r.range(1, 3))),
        Apart::Both => ((w, h), (w + 8, h + 1)),
        Apart::Area => ((w, 2 * h), (2 * w, h)),
    };
    let number = [a, b, if apart == Apart::No { 0 } else { UNEQUAL }].into_iter().find(|number| *number != 0);
    let (one, other) = if r.once_in(2) { (less, more) } else { (more, less) };
    Made { a: bad_room(r, one, a), b: bad_room(r, other, b), wanted: Err(number.expect("a refusal")) }
}

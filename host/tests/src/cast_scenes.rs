//! Scenes with casts (change request 7): the deliberate ones (cast_count.rs), and others by chance. Of what is accepted the library's own calls are
//! asked once more (cast_laws.rs).

use crate::actor_scenes::{any_clear, picture, EDGES};
use crate::calls;
use crate::cast_count::{cases, scenes, Case, Scene};
use crate::cast_faults::{BAD_SIZES, BAD_STARTS, LENT, SIZES};
use crate::cast_laws;
use crate::casts::{Cast, Made};
use crate::comparison::Comparison;
use crate::planned::Case as _;
use crate::rng::{Rng, H, N, W};
use crate::room_scenes::lent;
use crate::rooms::sizes;
use reference::cast::Record;
use reference::LARGE;

/// Makes a cast: its number, and list and frame after it.
fn make(b: &mut Comparison, cast: &Cast) -> (u32, Vec<Record>, Vec<u8>) {
    let given = calls::cast(b, &cast.list, &cast.frame, &cast.setting());
    if given.0 == 0 {
        cast_laws::check(b, &cast.list, &cast.frame, &cast.setting());
    }
    given
}

/// Whether a deliberate cast comes out as it must; else what it gave.
fn comes_out(b: &mut Comparison, made: &Made) -> Result<(), String> {
    let (number, list, frame) = make(b, &made.cast);
    let (wanted, records, pixels) = match &made.wanted {
        Ok((order, frame)) => (0, order.iter().map(|i| made.cast.list[*i]).collect(), frame.clone()),
        Err(number) => (*number, made.cast.list.clone(), made.cast.frame.clone()),
    };
    if (number, &list, &frame) == (wanted, &records, &pixels) {
        return Ok(());
    }
    Err(format!("number {number}, wanted {wanted}; the list is {}, the frame is {}", right(list == records), right(frame == pixels)))
}

fn right(as_wanted: bool) -> &'static str {
    if as_wanted {
        "right"
    } else {
        "another"
    }
}

/// Counts a deliberate cast that comes out as it must; else it is a difference.
fn check(b: &mut Comparison, r: &mut Rng, case: Case) {
    let outcome = match (case.make(r), &case) {
        (Some(made), _) => comes_out(b, &made),
        (None, Case::Huge { count }) => match cast_laws::number_of_many(*count) {
            LARGE => Ok(()),
            number => Err(format!("number {number}, wanted {LARGE}")),
        },
        (None, _) => Err("nothing was made".into()),
    };
    match outcome {
        Ok(()) => b.casts.reached(case),
        Err(given) => b.differ("cast", "does otherwise with a deliberate cast", &format!("{}: {given}", case.name())),
    }
}

fn play(b: &mut Comparison, r: &mut Rng, scene: Scene) {
    cases(scene).into_iter().for_each(|case| check(b, r, case));
}

/// A planned scene, numbered from 0 on.
pub fn planned(b: &mut Comparison, r: &mut Rng, which: usize) {
    let scenes = scenes();
    play(b, r, scenes[which % scenes.len()]);
}

/// One of the planned casts, made anew.
fn any_planned(b: &mut Comparison, r: &mut Rng) {
    let scene = r.pick(&scenes());
    let case = r.pick(&cases(scene));
    check(b, r, case);
}

const YS: [i32; 10] = [i32::MIN, i32::MIN + 1, -256, -1, 0, 1, 5, 256, i32::MAX - 1, i32::MAX];
const IDS: [u32; 10] = [0, 1, 2, 255, 256, 0x7FFF_FFFF, 0x8000_0000, 0x8000_0001, 0xFFFF_FFFE, 0xFFFF_FFFF];

/// A few values of a field, so that many records have the same.
fn few<T: Clone>(r: &mut Rng, values: &[T], other: impl Fn(u64) -> T) -> Vec<T> {
    (0..r.range(1, 4)).map(|_| if r.once_in(4) { other(r.next()) } else { r.pick(values) }).collect()
}

/// A size that fits into so many bytes, if one does.
fn size(r: &mut Rng, bytes: usize) -> (u32, u32) {
    let (wide, high) = if r.once_in(6) { (128, 200) } else { (9, 9) };
    let mut up_to = |most: usize| if r.once_in(4) { most } else { r.range(1, most) };
    let width = up_to(bytes.clamp(1, wide));
    let height = up_to((bytes / width).clamp(1, high));
    (width as u32, height as u32)
}

/// A place for a side of a picture: in the frame or over its edge, or far away.
fn place(r: &mut Rng, length: usize, own: u32) -> i32 {
    match r.below(10) {
        0 => r.pick(&EDGES),
        1 => r.pick(&[-(own as i32), 1 - own as i32, length as i32 - 1, length as i32]),
        _ => r.below(length + 2 * own as usize + 2) as i32 - own as i32 - 1,
    }
}

/// A list of records with nothing wrong, but for one whose picture fits nowhere.
fn records(r: &mut Rng, (w, h): (usize, usize), bytes: usize) -> Vec<Record> {
    let count = match r.below(16) {
        0 => 0,
        1 => 1,
        2 => r.pick(&[31, 32, 33, 34]),
        3 => r.range(9, 32),
        _ => r.range(2, 8),
    };
    let (ys, ids) = (few(r, &YS, |any| any as i32), few(r, &IDS, |any| any as u32));
    let record = |_| {
        let (width, height) = size(r, bytes);
        let last = bytes.saturating_sub((width * height) as usize);
        let start = r.pick(&[0, last, last, last / 2]).min(last) as u32;
        let start = if r.once_in(2) { r.below(last + 1) as u32 } else { start };
        let clip = r.below(7) as u32;
        let clip = if r.once_in(6) { r.wild(u32::MAX) } else { clip };
        Record { id: r.pick(&ids), y: r.pick(&ys), left: place(r, w, width), top: place(r, h, height), width, height, clip, start }
    };
    (0..count).map(record).collect()
}

/// A cast with nothing wrong, but for an empty buffer of pictures, or a list that is too long.
fn any_cast(r: &mut Rng, (w, h): (usize, usize), n: usize) -> Cast {
    let holes = any_clear(r);
    let bytes = match r.below(40) {
        0 => 0,
        1 => 26_000,
        2..=5 => r.range(1, 9),
        _ => r.range(1, 400),
    };
    let (list, pictures) = (records(r, (w, h), bytes), picture(r, bytes, holes));
    let clear = if r.once_in(4) { any_clear(r) } else { holes };
    let (frame, masks) = (r.bytes(w * h), r.bytes(n * (w / 8) * h));
    Cast { list, frame, masks, pictures, sizes: [w as u32, h as u32, n as u32], clear }
}

/// Spoils so many records, some of them perhaps twice.
fn spoil_records(r: &mut Rng, cast: &mut Cast, times: usize) {
    if cast.list.is_empty() {
        return;
    }
    for _ in 0..times {
        let (at, lent) = (r.below(cast.list.len()), cast.pictures.len());
        let record = &mut cast.list[at];
        let sized = (1..=128).contains(&record.width) && (1..=200).contains(&record.height);
        if sized && r.once_in(2) {
            r.pick(&BAD_STARTS).spoil(record, lent);
        } else if sized || r.once_in(2) {
            r.pick(&BAD_SIZES).spoil(record, lent);
        }
    }
}

/// Something wrong, or perhaps nothing: records, sizes, surfaces, pictures, or several of these.
fn spoil(r: &mut Rng, cast: &mut Cast) {
    let [frame, masks] = cast.needs();
    match r.below(8) {
        0 | 1 => spoil_records(r, cast, 1),
        2 | 3 => {
            let times = r.range(2, 5);
            spoil_records(r, cast, times);
        }
        4 => (cast.frame, cast.masks) = (lent(r, frame), lent(r, masks)),
        5 if masks > 0 => r.pick(&LENT).spoil(cast),
        5 | 6 => {
            let bytes = r.below(cast.pictures.len() + 1);
            cast.pictures.truncate(bytes);
        }
        _ => r.pick(&SIZES).spoil(cast),
    }
    if r.once_in(4) {
        let [w, h, n] = cast.sizes;
        cast.sizes = [r.near(w, &W), r.near(h, &H), r.near(n, &N)];
    }
    if r.once_in(4) {
        spoil_records(r, cast, 2);
    }
}

/// Casts of any actors on a room of any size, with or without something wrong; and some of the deliberate ones again, made anew.
pub fn casts(b: &mut Comparison, r: &mut Rng) {
    let ((w, h), n) = (sizes(r), r.below(5));
    for _ in 0..if w * h > 20_000 { 2 } else { 16 } {
        let mut cast = any_cast(r, (w, h), n);
        match r.below(3) {
            0 => spoil(r, &mut cast),
            1 => {
                let more = r.below(30);
                cast.frame.extend(r.bytes(more));
                cast.masks.extend(r.bytes(more / 2));
            }
            _ => (),
        }
        make(b, &cast);
    }
    (0..4).for_each(|_| any_planned(b, r));
}

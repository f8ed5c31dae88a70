//! Scenes with listings: the deliberate ones (list_count.rs), and others by chance. Of what is accepted the library's own calls are asked once more
//! (list_laws.rs).

use crate::calls;
use crate::comparison::Comparison;
use crate::list_count::{cases, scenes, Case, Listing, Scene};
use crate::list_laws;
use crate::planned::Case as _;
use crate::rng::Rng;
use crate::room_scenes::lent;
use crate::rooms::{self, Plan};
use crate::tree::{leaf, Body, Node};
use crate::{damage, stages};

/// Lists a room: the call's number, and record and rows after it. Where it is accepted the laws are asked about at most so many objects.
fn list(b: &mut Comparison, r: &mut Rng, room: &[u8], record: &[u8], rows: &[u8], most: usize) -> (u32, [Vec<u8>; 2]) {
    let given = calls::list(b, room, record, rows);
    if given.0 == 0 {
        list_laws::check(b, r, room, most);
    }
    given
}

/// Counts a deliberate listing that comes out as it must; else it is a difference. The record is held against kg_record's by the laws.
fn check(b: &mut Comparison, r: &mut Rng, case: Case) {
    let Listing { room, record, rows, wanted } = case.make(r);
    let (record, rows) = (r.bytes(record), r.bytes(rows));
    let (number, [record_after, rows_after]) = list(b, r, &room, &record, &rows, 8);
    let (wanted, row_bytes) = match &wanted {
        Ok(wanted) => (0, [wanted, &rows[wanted.len()..]].concat()),
        Err(number) => (*number, rows.clone()),
    };
    let kept = if wanted == 0 { record_after[16..] == record[16..] } else { record_after == record };
    if (number, &rows_after) == (wanted, &row_bytes) && kept {
        return b.lists.reached(case);
    }
    let at = (0..rows.len()).find(|at| rows_after[*at] != row_bytes[*at]);
    let text = format!("{}: number {number}, wanted {wanted}; the first other byte of the rows: {at:?}", case.name());
    b.differ("list", "does otherwise with a deliberate listing", &text);
}

fn play(b: &mut Comparison, r: &mut Rng, scene: Scene) {
    cases(scene).into_iter().for_each(|case| check(b, r, case));
}

/// A planned scene, numbered from 0 on.
pub fn planned(b: &mut Comparison, r: &mut Rng, which: usize) {
    let scenes = scenes();
    play(b, r, scenes[which % scenes.len()]);
}

/// One of the planned listings, made anew.
fn any_planned(b: &mut Comparison, r: &mut Rng) {
    let scene = r.pick(&scenes());
    let case = r.pick(&cases(scene));
    check(b, r, case);
}

/// Rows of about the length that so many objects need.
fn any_rows(r: &mut Rng, objects: usize) -> Vec<u8> {
    match r.below(10) {
        0 => r.bytes(32 * objects.saturating_sub(1)),
        1 => r.bytes(32 * (objects + 1)),
        2 => r.bytes(4096),
        _ => lent(r, 32 * objects),
    }
}

/// Changes what a row is made of: a name's block put first, gone or emptied, an image's numbers, a block of it gone, put twice or under another tag.
fn rearrange(r: &mut Rng, plan: &mut Plan) {
    let tag = r.pick(&[b"OBCD", b"OBIM"]);
    let mut blocks: Vec<&mut Node> = plan.root.kids().iter_mut().filter(|kid| &kid.tag == tag).collect();
    if blocks.is_empty() {
        return;
    }
    let which = r.below(blocks.len());
    let kids = blocks[which].kids();
    let at = r.below(kids.len());
    let text = r.below(6);
    match r.below(6) {
        0 => kids.insert(0, leaf(b"OBNA", r.bytes(text))),
        1 => kids.retain(|kid| &kid.tag != b"OBNA"),
        2 if &kids[at].tag != b"CDHD" && &kids[at].tag != b"IMHD" => drop(kids.remove(at)),
        3 => kids.push(kids[at].clone()),
        4 if kids[at].tag.starts_with(b"IM0") => kids[at].tag[3] = b'0' + r.below(10) as u8,
        _ => {
            if let Some(Node { body: Body::Bytes(bytes), .. }) = kids.iter_mut().find(|kid| &kid.tag == b"IMHD" || &kid.tag == b"CDHD") {
                let field = r.pick(&[0, 0, 1, 2, 2, 3, 5, 12]);
                bytes[field] = r.pick(&[0, 1, 2, 8, 9, 10, 255, bytes[field].wrapping_add(1)]);
            }
        }
    }
}

/// A room with objects and copies of it with other names and images, some of them damaged; and some of the deliberate listings, made anew.
pub fn lists(b: &mut Comparison, r: &mut Rng) {
    let plan = if r.once_in(2) { stages::stage(r) } else { rooms::room(r) };
    for _ in 0..if plan.w * plan.h > 20_000 { 1 } else { 4 } {
        let mut other = plan.clone();
        (0..r.below(6)).for_each(|_| rearrange(r, &mut other));
        if r.once_in(4) {
            r.pick(&[damage::tree, damage::needed, damage::sizes, damage::table, damage::body])(r, &mut other);
        }
        let (mut room, objects) = (other.root.write(), other.objects());
        if r.once_in(8) {
            damage::bytes(r, &mut room);
        }
        if room.len() <= 1_100_000 {
            let (record, rows) = (lent(r, 16), any_rows(r, objects));
            list(b, r, &room, &record, &rows, 2);
        }
    }
    any_planned(b, r);
}

/// A room from a file, with buffers of every length that matters; all its objects held against the single calls.
pub fn given(b: &mut Comparison, room: &[u8]) {
    let r = &mut Rng::new(0);
    for (record, rows) in [(16, 4096), (17, 4097), (15, 4096), (16, 0), (0, 0)] {
        list(b, r, room, &vec![4; record], &vec![5; rows], 128);
    }
}

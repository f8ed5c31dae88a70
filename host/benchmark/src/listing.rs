//! The listing of a room: kg_list in one call, beside the whole test, and beside the older way, which asks for the record and then for header and name
//! of each object.

use crate::calls::{header, name, record, Side, SIDES};
use crate::clock::{best, timed, Effort};
use crate::goal::{Goal, Goals};
use crate::room::{Room, Spec};
use crate::steps::ROOMS;
use common::calls::kg_list;
use reference::listing::{self, ROW};
use reference::load::RECORD;

/// What both ways tell: the record, then header, start and length of the name of each object.
type Listed = (Vec<u8>, Vec<Vec<u8>>);

/// The older way.
fn one_by_one(side: Side, room: &Room) -> Listed {
    let object = |which: u32| {
        let (start, length) = name(side, room.bytes(), which);
        [&header(side, room.bytes(), which)[..], &(start as u32).to_le_bytes(), &(length as u32).to_le_bytes()].concat()
    };
    (record(side, room.bytes()).to_vec(), (1..=room.spec.objects as u32).map(object).collect())
}

/// One call: the record, and a row for each object.
fn list(side: Side, room: &[u8], rows: &mut [u8]) -> [u8; RECORD] {
    let mut out = [0; RECORD];
    let number = match side {
        Side::Library => unsafe { kg_list(room.as_ptr(), room.len(), out.as_mut_ptr(), out.len(), rows.as_mut_ptr(), rows.len()) },
        Side::Reference => listing::list(room, &mut out, rows),
    };
    assert_eq!(number, 0, "a listing was refused");
    out
}

/// Both sides and both ways agree; else nothing is timed.
fn alike(room: &Room) {
    let older = one_by_one(Side::Library, room);
    assert!(older == one_by_one(Side::Reference, room), "library and reference list a room differently, object by object");
    let [library, reference] = SIDES.map(|side| {
        let mut rows = vec![77; ROW * room.spec.objects];
        (list(side, room.bytes(), &mut rows).to_vec(), rows)
    });
    assert!(library == reference, "library and reference list a room differently");
    let told = library.1.chunks(ROW).map(|row| row[..24].to_vec()).collect();
    assert!((library.0, told) == older, "a listing tells otherwise than the calls for each object");
}

/// The times of the test and of the older way.
fn times(effort: Effort, room: &Room) -> [f64; 2] {
    let ([test], [older]) =
        best(effort, 1, [&mut |_| timed(|| record(Side::Library, room.bytes()))], [&mut |_| timed(|| one_by_one(Side::Library, room))]);
    [test, older]
}

/// The times of the test and of kg_list, in turns, and of the reference's listing.
fn list_times(effort: Effort, room: &Room) -> [f64; 3] {
    let [mut rows, mut others] = [0; 2].map(|_| vec![0; ROW * room.spec.objects]);
    let ([test, library], [reference]) = best(
        effort,
        1,
        [&mut |_| timed(|| record(Side::Library, room.bytes())), &mut |_| timed(|| list(Side::Library, room.bytes(), &mut rows))],
        [&mut |_| timed(|| list(Side::Reference, room.bytes(), &mut others))],
    );
    [test, library, reference]
}

fn row(effort: Effort, goals: &mut Goals, (w, h, n, objects): (usize, usize, usize, usize)) {
    let room = &Spec::furnished(w, h, n, objects).make();
    alike(room);
    let (size, [test, older]) = (format!("{w}x{h}"), times(effort, room));
    print!("{size:<9} {n:>6} {objects:>7} | {:>7.1} | {:>8.1} {:>7.1}", test / 1e3, older / 1e3, older / test);
    let [test, library, reference] = list_times(effort, room);
    goals.see(Goal::Listing, library / test, &format!("{size}, {objects} objects"));
    goals.see(Goal::Reference, library / reference, &format!("list, {size}"));
    println!(" | {:>8.1} {:>7.2} {:>7.2} {:>7.3}", library / 1e3, library / test, library / reference, library / older);
}

pub fn tables(effort: Effort, goals: &mut Goals) {
    println!(
        "Listings. us; : test: as a multiple of the whole test (kg_record). One by one: the record, then header and name of every object."
    );
    println!("One call: kg_list.\n");
    println!("{:<24} | {:>7} | {:<16} | one call", "", "test", "one by one");
    let [us, test, reference, older] = ["us", ": test", ": ref", ": older"];
    println!("{:<9} {:>6} {:>7} | {us:>7} | {us:>8} {test:>7} | {us:>8} {test:>7} {reference:>7} {older:>7}", "room", "planes", "objects");
    ROOMS.iter().for_each(|room| row(effort, goals, *room));
    println!();
}

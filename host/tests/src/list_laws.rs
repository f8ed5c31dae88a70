//! What must hold of every accepted listing, asked of the library's own calls alone: the reference has no part in it. The record is kg_record's, a row's
//! header and name are kg_header's and kg_name's, and a state's bit is set exactly where a draw of it isn't refused with 11.

use crate::comparison::Comparison;
use crate::rng::Rng;
use common::calls::{kg_draw_last, kg_header, kg_list, kg_name, kg_name_number, kg_record};
use reference::NO_OBJECT;

const ROW: usize = 32;

/// The library's listing: its number, its record, and the rows of the most objects that a room may have, those behind the last one untouched.
fn listed(room: &[u8]) -> (u32, Vec<u8>, Vec<u8>) {
    let (mut record, mut rows) = (vec![5; 16], vec![6; 128 * ROW]);
    let (at, to) = ((record.as_mut_ptr(), record.len()), (rows.as_mut_ptr(), rows.len()));
    let number = unsafe { kg_list(room.as_ptr(), room.len(), at.0, at.1, to.0, to.1) };
    (number, record, rows)
}

fn recorded(room: &[u8]) -> (u32, Vec<u8>) {
    let mut record = vec![7; 16];
    let number = unsafe { kg_record(room.as_ptr(), room.len(), record.as_mut_ptr(), record.len()) };
    (number, record)
}

/// The header and the name's place as the single calls tell them, in the row's layout, and whether both are accepted.
fn asked(room: &[u8], object: u32) -> (bool, Vec<u8>) {
    let (mut header, at, size) = (vec![8; 16], room.as_ptr(), room.len());
    let numbers = unsafe { (kg_header(at, size, header.as_mut_ptr(), header.len(), object), kg_name_number(at, size, object)) };
    let place = unsafe { kg_name(at, size, object) };
    header.extend(place.to_le_bytes());
    (numbers == (0, 0), header)
}

/// Whether a draw of the state at the object's last place, in a fresh session, isn't refused with 11. The surfaces are of the largest size.
fn drawn(room: &[u8], [session, pixels, masks]: &mut [Vec<u8>; 3], object: u32, state: u32) -> bool {
    session.fill(0);
    let ((s, p, m), size) = ((session.len(), pixels.len(), masks.len()), room.len());
    let (session, pixels, masks) = (session.as_mut_ptr(), pixels.as_mut_ptr(), masks.as_mut_ptr());
    let number = unsafe { kg_draw_last(room.as_ptr(), size, session, s, pixels, p, masks, m, object, state) };
    number != NO_OBJECT
}

/// The law that the library breaks of an object's row. States from 10 on have no bit, and no draw names them; nor does one name state 0.
fn broken_row(room: &[u8], surfaces: &mut [Vec<u8>; 3], object: u32, row: &[u8]) -> Option<&'static str> {
    let (accepted, single) = asked(room, object);
    let bits = u16::from_le_bytes([row[24], row[25]]);
    let bit = |state: u32| state > 0 && bits >> (state - 1) & 1 == 1;
    let laws = [
        ("lists an object that the single calls refuse", accepted),
        ("lists another header than kg_header gives", row[..16] == single[..16]),
        ("lists another name than kg_name tells", row[16..24] == single[16..]),
        ("lists another state than can be drawn", (0..=16).all(|state| bit(state) == drawn(room, surfaces, object, state))),
        ("leaves a row's end other than zero", row[26..] == [0; 6]),
    ];
    laws.into_iter().find(|(_, holds)| !holds).map(|(law, _)| law)
}

/// The objects that are asked about one by one: all, or so many of them, the first and the last among them.
fn some(r: &mut Rng, objects: usize, most: usize) -> Vec<usize> {
    if objects <= most {
        return (1..=objects).collect();
    }
    let within = (2..most).map(|_| r.range(1, objects));
    within.chain([1, objects]).collect()
}

/// The law that the library breaks on this room, which it must accept.
fn broken(r: &mut Rng, room: &[u8], most: usize) -> Option<&'static str> {
    let (number, record, rows) = listed(room);
    let (recorded_number, alone) = recorded(room);
    let objects = u16::from_le_bytes([record[6], record[7]]) as usize;
    let laws = [
        ("is accepted once and refused once", number == 0 && recorded_number == 0),
        ("gives another record than kg_record", record == alone),
        ("lists fewer objects than the room has", !asked(room, objects as u32 + 1).0),
        ("touches the bytes behind the last row", rows[ROW * objects.min(128)..].iter().all(|byte| *byte == 6)),
    ];
    if let Some((law, _)) = laws.into_iter().find(|(_, holds)| !holds) {
        return Some(law);
    }
    let [w, h, n] = [0, 2, 4].map(|at| u16::from_le_bytes([record[at], record[at + 1]]) as usize);
    let mut surfaces = [vec![0; 450], vec![0; w * h], vec![0; n * (w / 8) * h]];
    let mut row = |object: usize| broken_row(room, &mut surfaces, object as u32, &rows[ROW * (object - 1)..ROW * object]);
    some(r, objects, most).into_iter().find_map(&mut row)
}

/// Asks the laws about a room that was listed, and about at most so many of its objects.
pub fn check(b: &mut Comparison, r: &mut Rng, room: &[u8], most: usize) {
    if let Some(law) = broken(r, room, most) {
        b.differ("list", law, &format!("a room of {} bytes", room.len()));
    }
}

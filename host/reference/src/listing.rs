//! A room listed in one test (include/kildegrom.h, kg_list; docs/LAYOUTS.md, "Rows of objects, 32 bytes an object").

use crate::block::Block;
use crate::image::{self, Image};
use crate::load::{record_of, RECORD};
use crate::object::{header_of, name_of, HEADER};
use crate::room::{test, Room};

pub const ROW: usize = 32;

// Where the fields that follow the header stand in a row.
const START: usize = HEADER;
const LENGTH: usize = 20;
const STATES: usize = 24;

/// "the states that can be drawn: bit s − 1 for state s, 1 to 9"; none for an object without an image.
fn states_of(room: &[u8], image: Option<Image>) -> u16 {
    let drawn = |s: &usize| image.is_some_and(|image| image.state(room, *s).is_some());
    (1..=9).filter(drawn).map(|s| 1 << (s - 1)).sum()
}

/// An object's row: its header, where its name starts and how long it is as u32, its states as u16, zeros.
fn row_of(room: &[u8], obcd: Block, image: Option<Image>) -> [u8; ROW] {
    let ((start, length), mut row) = (name_of(room, obcd), [0; ROW]);
    row[..HEADER].copy_from_slice(&header_of(room, obcd));
    row[START..LENGTH].copy_from_slice(&(start as u32).to_le_bytes());
    row[LENGTH..STATES].copy_from_slice(&(length as u32).to_le_bytes());
    row[STATES..STATES + 2].copy_from_slice(&states_of(room, image).to_le_bytes());
    row
}

fn try_list(room: &[u8], record: &mut [u8], rows: &mut [u8]) -> Result<(), u32> {
    let lent = |room: &Room| record.len() >= RECORD && rows.len() >= ROW * room.objects.len();
    let painted = test(room, lent)?;
    record[..RECORD].copy_from_slice(&record_of(&painted.room));
    // "A row for each object, in the order of their numbers. The bytes behind the last row stay".
    let objects = painted.room.objects.iter().zip(image::objects(room, &painted.room));
    for ((obcd, object), row) in objects.zip(rows.chunks_exact_mut(ROW)) {
        row.copy_from_slice(&row_of(room, *obcd, object.image));
    }
    Ok(())
}

/// The record, and a row for each object. "Refusals 1 to 8: 4 where `record` has fewer than KG_RECORD_SIZE bytes or `rows` fewer than KG_ROW_SIZE for
/// each object".
pub fn list(room: &[u8], record: &mut [u8], rows: &mut [u8]) -> u32 {
    try_list(room, record, rows).err().unwrap_or(0)
}

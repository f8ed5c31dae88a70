//! The proved library, asked beside the reference: its number is the one that counts.

use common::calls::{kg_draw_at, kg_draw_last, kg_load, kg_record};
use reference::room::Room;

/// kg_record's number, and the record.
pub fn record(room: &[u8]) -> (u32, [u8; 16]) {
    let mut record = [0; 16];
    let number = unsafe { kg_record(room.as_ptr(), room.len(), record.as_mut_ptr(), record.len()) };
    (number, record)
}

/// A loaded room, for draws in a fresh session each.
pub struct Loaded<'a> {
    room: &'a [u8],
    pixels: Vec<u8>,
    masks: Vec<u8>,
}

impl Loaded<'_> {
    /// The loaded room, or the load's number.
    pub fn new<'a>(room: &'a [u8], sizes: &Room) -> Result<Loaded<'a>, u32> {
        let mut loaded = Loaded { room, pixels: vec![0; sizes.pixels()], masks: vec![0; sizes.masks()] };
        match loaded
            .call(|room, size, session, length, pixels, p, masks, m| unsafe { kg_load(room, size, session, length, pixels, p, masks, m) })
        {
            0 => Ok(loaded),
            number => Err(number),
        }
    }

    /// A call on the room with a fresh session, which is all zeros. Surfaces that an earlier draw has painted are no matter to its number.
    fn call(&mut self, call: impl FnOnce(*const u8, usize, *mut u8, usize, *mut u8, usize, *mut u8, usize) -> u32) -> u32 {
        let (mut session, room) = ([0u8; 450], self.room);
        let (p, m) = (self.pixels.len(), self.masks.len());
        call(room.as_ptr(), room.len(), session.as_mut_ptr(), session.len(), self.pixels.as_mut_ptr(), p, self.masks.as_mut_ptr(), m)
    }

    /// The numbers of a draw at the object's own place, and of one at (0, 0).
    pub fn draws(&mut self, object: usize, state: usize) -> (u32, u32) {
        let (object, state) = (object as u32, state as u32);
        let own = self.call(|room, size, session, length, pixels, p, masks, m| unsafe {
            kg_draw_last(room, size, session, length, pixels, p, masks, m, object, state)
        });
        let corner = self.call(|room, size, session, length, pixels, p, masks, m| unsafe {
            kg_draw_at(room, size, session, length, pixels, p, masks, m, object, state, 0, 0)
        });
        (own, corner)
    }
}

//! Document 01 as code: plain and short rather than fast. Written from the papers alone, without a look at the library, so that a
//! difference between the two means something. A call answers document 01's number, 0 if accepted, and writes what it is lent only then.

pub mod actor;
pub mod block;
pub mod cast;
pub mod compare;
pub mod costume;
pub mod fault;
pub mod image;
pub mod inspect;
pub mod listing;
pub mod load;
pub mod mask;
pub mod object;
pub mod painting;
pub mod point;
pub mod room;
pub mod session;
pub mod step;
pub mod strip;
pub mod table;
pub mod tree;
pub mod write;

/// The refusals (document 01, "Numbered refusals"; 16 is change request 1's, 18 change request 7's).
pub const TREE: u32 = 1;
pub const NEEDED: u32 = 2;
pub const SIZE: u32 = 3;
pub const SHORT: u32 = 4;
pub const TABLE: u32 = 5;
pub const CODE: u32 = 6;
pub const CUT: u32 = 7;
pub const PAST: u32 = 8;
pub const OTHER: u32 = 9;
pub const FULL: u32 = 10;
pub const NO_OBJECT: u32 = 11;
pub const PLACE: u32 = 12;
pub const NOTHING: u32 = 13;
pub const OUTSIDE: u32 = 14;
pub const ANIMATION: u32 = 15;
pub const UNEQUAL: u32 = 16;
pub const LARGE: u32 = 18;

pub(crate) fn u16_at(bytes: &[u8], at: usize) -> usize {
    u16::from_le_bytes([bytes[at], bytes[at + 1]]) as usize
}

pub(crate) fn u32_at(bytes: &[u8], at: usize) -> usize {
    u32::from_le_bytes([bytes[at], bytes[at + 1], bytes[at + 2], bytes[at + 3]]) as usize
}

/// Document 01, "Sizes": W a multiple of 8 from 8 to 1,024, H from 1 to 200, N from 0 to 4.
pub fn sizes_ok(w: usize, h: usize, n: usize) -> bool {
    width_ok(w) && height_ok(h) && planes_ok(n)
}

pub fn width_ok(w: usize) -> bool {
    w.is_multiple_of(8) && (8..=1024).contains(&w)
}

pub fn height_ok(h: usize) -> bool {
    (1..=200).contains(&h)
}

pub fn planes_ok(n: usize) -> bool {
    n <= 4
}

#[cfg(test)]
mod cast_rows;
#[cfg(test)]
mod compare_rows;
#[cfg(test)]
mod limb_rows;
#[cfg(test)]
mod list_rows;
#[cfg(test)]
mod place_rows;
#[cfg(test)]
mod rows;
#[cfg(test)]
mod session_rows;
#[cfg(test)]
mod transparent_rows;

//! What can be wrong with a cast (change request 7), and the number that it is refused with: with the room's numbers, the lent surfaces, or a record.

use crate::casts::Cast;
use reference::cast::Record;
use reference::{SHORT, SIZE};

/// A number of the room outside its limits, or a lent surface that is too short.
#[derive(Clone, Copy, Debug, PartialEq, Eq, PartialOrd, Ord)]
pub enum Surface {
    W(u32),
    H(u32),
    N(u32),
    /// A byte less than the frame or the masks need.
    FrameShort,
    MasksShort,
    FrameEmpty,
    MasksEmpty,
}

/// Those with 3. The numbers past 2^16 and 2^31 are right in fewer bits.
pub const SIZES: [Surface; 19] = [
    Surface::W(0),
    Surface::W(4),
    Surface::W(12),
    Surface::W(1028),
    Surface::W(1032),
    Surface::W(0x1_0010),
    Surface::W(0x8000_0010),
    Surface::W(0xFFFF_FFF8),
    Surface::H(0),
    Surface::H(201),
    Surface::H(256 + 4),
    Surface::H(0x1_0004),
    Surface::H(0x8000_0004),
    Surface::H(0xFFFF_FFFF),
    Surface::N(5),
    Surface::N(256 + 1),
    Surface::N(0x1_0001),
    Surface::N(0x8000_0000),
    Surface::N(0xFFFF_FFFF),
];
/// Those with 4.
pub const LENT: [Surface; 4] = [Surface::FrameShort, Surface::MasksShort, Surface::FrameEmpty, Surface::MasksEmpty];

impl Surface {
    pub fn number(self) -> u32 {
        if matches!(self, Surface::W(_) | Surface::H(_) | Surface::N(_)) {
            SIZE
        } else {
            SHORT
        }
    }

    /// Spoils a good cast that has a plane.
    pub fn spoil(self, cast: &mut Cast) {
        match self {
            Surface::W(w) => cast.sizes[0] = w,
            Surface::H(h) => cast.sizes[1] = h,
            Surface::N(n) => cast.sizes[2] = n,
            Surface::FrameShort => cast.frame.truncate(cast.needs()[0] - 1),
            Surface::MasksShort => cast.masks.truncate(cast.needs()[1] - 1),
            Surface::FrameEmpty => cast.frame.clear(),
            Surface::MasksEmpty => cast.masks.clear(),
        }
    }
}

/// A record's width or height outside its limits, or a picture that passes the end of the lent ones.
#[derive(Clone, Copy, Debug, PartialEq, Eq, PartialOrd, Ord)]
pub enum Flaw {
    Width(u32),
    Height(u32),
    Both(u32, u32),
    /// The picture ends so many bytes past the end.
    Past(u32),
    /// It starts so many bytes past the end.
    Behind(u32),
    /// Start and size are 2^32 and so many bytes more.
    Wraps(u32),
    /// It starts at the last number there is.
    Last,
    /// The start is right in 16 bits, or in 31.
    Bit(u32),
}

/// Those with 3. The largest numbers are right in fewer bits, or their products are.
pub const BAD_SIZES: [Flaw; 23] = [
    Flaw::Width(0),
    Flaw::Width(129),
    Flaw::Width(200),
    Flaw::Width(256 + 3),
    Flaw::Width(0x1_0003),
    Flaw::Width(0x8000_0003),
    Flaw::Width(0xFFFF_FFFF),
    Flaw::Height(0),
    Flaw::Height(201),
    Flaw::Height(255),
    Flaw::Height(256 + 2),
    Flaw::Height(0x1_0002),
    Flaw::Height(0x8000_0002),
    Flaw::Height(0xFFFF_FFFF),
    Flaw::Both(0, 0),
    Flaw::Both(0, 201),
    Flaw::Both(129, 0),
    Flaw::Both(129, 201),
    Flaw::Both(0x1_0000, 0x1_0000),
    Flaw::Both(0x8000_0000, 2),
    Flaw::Both(2, 0x8000_0000),
    Flaw::Both(0x1_0001, 0xFFFF),
    Flaw::Both(0xFFFF_FFFF, 0xFFFF_FFFF),
];
/// Those with 4.
pub const BAD_STARTS: [Flaw; 9] = [
    Flaw::Past(1),
    Flaw::Past(2),
    Flaw::Behind(0),
    Flaw::Behind(1),
    Flaw::Wraps(0),
    Flaw::Wraps(1),
    Flaw::Last,
    Flaw::Bit(16),
    Flaw::Bit(31),
];

impl Flaw {
    pub fn number(self) -> u32 {
        if matches!(self, Flaw::Width(_) | Flaw::Height(_) | Flaw::Both(..)) {
            SIZE
        } else {
            SHORT
        }
    }

    /// Spoils a record, where so many bytes of pictures are lent, fewer than 2^16. A start is spoiled before a size is.
    pub fn spoil(self, record: &mut Record, lent: usize) {
        let (lent, size) = (lent as u32, record.width.saturating_mul(record.height));
        match self {
            Flaw::Width(width) => record.width = width,
            Flaw::Height(height) => record.height = height,
            Flaw::Both(width, height) => (record.width, record.height) = (width, height),
            // Where fewer bytes are lent than it has, it is bad from its start on.
            Flaw::Past(bytes) => record.start = (lent + bytes).saturating_sub(size),
            Flaw::Behind(bytes) => record.start = lent + bytes,
            Flaw::Wraps(bytes) => record.start = (u32::MAX - size + 1) + bytes.min(size - 1),
            Flaw::Last => record.start = u32::MAX,
            Flaw::Bit(bit) => record.start |= 1 << bit,
        }
    }
}

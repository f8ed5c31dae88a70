//! Bits from bit 0 up, as a strip's body has them.

/// The second method's run, `11` and a 3-bit d that is 4; its number follows in 8 bits.
const RUN: usize = 0b11 | 4 << 2;

pub struct Bits {
    pub bytes: Vec<u8>,
    pub used: usize,
}

impl Bits {
    /// A body that starts with these bytes.
    pub fn after(bytes: Vec<u8>) -> Bits {
        Bits { used: 8 * bytes.len(), bytes }
    }

    /// The low bits of a number, low bit first.
    pub fn put(&mut self, number: usize, bits: usize) {
        for i in 0..bits {
            if self.used.is_multiple_of(8) {
                self.bytes.push(0);
            }
            *self.bytes.last_mut().expect("a byte") |= ((number >> i & 1) as u8) << (self.used % 8);
            self.used += 1;
        }
    }

    /// The second method's run of 1 to 256 pixels. Its number is their count, and 0 for 256.
    pub fn put_run(&mut self, pixels: usize) {
        assert!((1..=256).contains(&pixels), "a run of {pixels} pixels has no number");
        self.put(RUN, 5);
        self.put(pixels % 256, 8);
    }
}

/// Document 01's worked rows 3 and 6 and change request 5's rows 10 and 11, put together from their operations.
#[test]
fn worked_rows() {
    let mut third = Bits::after(vec![0x1C, 5]);
    for (number, bits) in [(0, 1), (0b011, 3), (0b011, 3), (0b111, 3), (0b01, 2), (9, 8), (0, 10)] {
        third.put(number, bits);
    }
    assert_eq!((third.bytes, third.used), (vec![0x1C, 5, 0xB6, 0x97, 0, 0], 46));
    let mut sixth = Bits::after(vec![0x44, 0x10]);
    sixth.put(0b11, 5);
    sixth.put_run(13);
    assert_eq!((&sixth.bytes, sixth.used), (&vec![0x44, 0x10, 0x63, 0x36, 0], 34));
    let mut tenth = sixth;
    tenth.put(0b01 | 0x7E << 2, 10);
    assert_eq!((tenth.bytes, tenth.used), (vec![0x44, 0x10, 0x63, 0x36, 0xE4, 7], 44));
    let mut eleventh = Bits::after(vec![0x44, 5]);
    eleventh.put_run(256);
    eleventh.put(0b01 | 0x7E << 2, 10);
    eleventh.put(0, 6);
    assert_eq!((eleventh.bytes, eleventh.used), (vec![0x44, 5, 0x13, 0x20, 0x3F, 0], 45));
}

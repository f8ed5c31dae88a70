//! A small generator (splitmix64): one seed, one scene.

pub struct Rng(u64);

impl Rng {
    pub fn new(seed: u64) -> Rng {
        Rng(seed.wrapping_mul(0xD1B5_4A32_D192_ED03) ^ 0x6B67)
    }

    pub fn next(&mut self) -> u64 {
        self.0 = self.0.wrapping_add(0x9E37_79B9_7F4A_7C15);
        let z = (self.0 ^ (self.0 >> 30)).wrapping_mul(0xBF58_476D_1CE4_E5B9);
        let z = (z ^ (z >> 27)).wrapping_mul(0x94D0_49BB_1331_11EB);
        z ^ (z >> 31)
    }

    /// 0 to n − 1.
    pub fn below(&mut self, n: usize) -> usize {
        (self.next() % n as u64) as usize
    }

    /// a to b, both included.
    pub fn range(&mut self, a: usize, b: usize) -> usize {
        a + self.below(b - a + 1)
    }

    /// Once in n.
    pub fn once_in(&mut self, n: usize) -> bool {
        self.below(n) == 0
    }

    pub fn pick<T: Clone>(&mut self, from: &[T]) -> T {
        from[self.below(from.len())].clone()
    }

    /// An index into the shares, each as often as its share says.
    pub fn share(&mut self, shares: &[usize]) -> usize {
        let mut lot = self.below(shares.iter().sum());
        let mut index = 0;
        while lot >= shares[index] {
            lot -= shares[index];
            index += 1;
        }
        index
    }

    pub fn byte(&mut self) -> u8 {
        self.next() as u8
    }

    pub fn bytes(&mut self, n: usize) -> Vec<u8> {
        (0..n).map(|_| self.byte()).collect()
    }

    pub fn shuffle<T>(&mut self, list: &mut [T]) {
        for i in (1..list.len()).rev() {
            list.swap(i, self.below(i + 1));
        }
    }

    /// Like `wild`, and sometimes one of the limits and their neighbours.
    pub fn near(&mut self, good: u32, limits: &[u32]) -> u32 {
        if self.once_in(12) {
            self.pick(limits)
        } else {
            self.wild(good)
        }
    }

    /// A number as a stranger would hand it over: mostly near `good`, sometimes at an edge of u32.
    pub fn wild(&mut self, good: u32) -> u32 {
        match self.below(12) {
            0 => self.pick(&[0, 1, 0x7FFF_FFFF, 0x8000_0000, 0xFFFF_FFFF, 0xFFFF, 0x10000]),
            1 => good.wrapping_add(self.pick(&[1, 8, 0xFFFF_FFFF, 0xFFFF_FFF8])),
            2 => self.next() as u32,
            _ => good,
        }
    }
}

/// The limits of W, H, N, an actor picture's width and height, and what lies just outside.
pub const W: [u32; 7] = [0, 4, 8, 1016, 1024, 1028, 1032];
pub const H: [u32; 5] = [0, 1, 199, 200, 201];
pub const N: [u32; 4] = [0, 1, 4, 5];
pub const WIDTH: [u32; 5] = [0, 1, 127, 128, 129];

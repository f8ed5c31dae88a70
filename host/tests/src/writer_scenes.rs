//! Scenes with the writers: random pictures and planes, written, then read back by the load.

use crate::calls;
use crate::comparison::Comparison;
use crate::rng::{Rng, H, W};
use crate::room_scenes::lent;
use crate::rooms::sizes;
use crate::tree::{container, leaf, Node};
use reference::write;

/// The next byte of a picture of some kind.
struct Walk {
    kind: usize,
    value: u8,
    left: usize,
}

impl Walk {
    fn next(&mut self, r: &mut Rng) -> u8 {
        match self.kind {
            0 => return r.byte(),
            1 => (),
            2 => self.value = self.value.wrapping_add(r.pick(&[0, 1, 255])),
            3 => self.value = self.value.wrapping_add(r.pick(&[0, 0, 1, 255, 2, 254, 128])),
            4 => return r.pick(&[0, 0, 1, 255]),
            _ => self.run(r),
        }
        self.value
    }

    /// Runs and stretches without runs, around the caps.
    fn run(&mut self, r: &mut Rng) {
        if self.left == 0 {
            self.left = r.pick(&[1, 2, 3, 5, 126, 127, 128, 129, 130]) * 2 + r.below(2);
            self.value = r.byte();
        }
        let step = if self.left % 2 == 1 { 1 } else { 2 };
        self.left = self.left.saturating_sub(step);
        if self.left % 2 == 1 {
            self.value = self.value.wrapping_add(1);
        }
    }
}

/// Bytes with something of a picture in them.
fn structured(r: &mut Rng, size: usize, stride: usize) -> Vec<u8> {
    let kind = r.below(6);
    let mut walk = Walk { kind, value: r.byte(), left: 0 };
    // Along the strips as the writers read them: `stride` bytes in a row.
    let columns = size / stride.max(1);
    let mut bytes = vec![0; size];
    for start in 0..stride {
        for row in 0..columns {
            bytes[row * stride + start] = walk.next(r);
        }
    }
    if r.once_in(2) {
        bytes = (0..size).map(|_| walk.next(r)).collect();
    }
    bytes
}

/// A good room around a written background and planes.
pub fn around(w: usize, h: usize, blocks: &[Vec<u8>]) -> Vec<u8> {
    let block = |bytes: &Vec<u8>| leaf(bytes[..4].try_into().unwrap(), bytes[8..].to_vec());
    let image: Vec<Node> = blocks.iter().map(block).collect();
    let planes = (blocks.len() - 1) as u8;
    let numbers = [(w as u16).to_le_bytes(), (h as u16).to_le_bytes(), [0, 0]].concat();
    let rmim = container(b"RMIM", vec![leaf(b"RMIH", vec![planes, 0]), container(b"IM00", image)]);
    container(b"ROOM", vec![leaf(b"RMHD", numbers), rmim]).write()
}

/// The length of the block that this writer makes, for buffers that just fit.
fn length(written: impl FnOnce(&mut [u8]) -> Result<usize, u32>) -> usize {
    written(&mut vec![0; 400_000]).unwrap_or(0)
}

pub fn pictures(b: &mut Comparison, r: &mut Rng) {
    let (w, h) = sizes(r);
    let (wide, high) = (w as u32, h as u32);
    let pixels = structured(r, w * h, w);
    let need = length(|out| write::smap(&pixels, out, wide, high));
    for _ in 0..6 {
        let out = lent(r, need);
        let rows = if r.once_in(6) { lent(r, w * h) } else { pixels.clone() };
        let (wide, high) = (r.near(wide, &W), r.near(high, &H));
        calls::write_smap(b, &rows, &out, wide, high);
    }
    let n = r.below(5);
    let planes: Vec<Vec<u8>> = (0..n).map(|_| structured(r, w / 8 * h, w / 8)).collect();
    let mut blocks = vec![calls::write_smap(b, &pixels, &lent_long(r, need), wide, high)];
    for (i, plane) in planes.iter().enumerate() {
        let k = i as u32 + 1;
        let need = length(|out| write::plane(plane, out, wide, high, k));
        blocks.push(calls::write_plane(b, plane, &lent_long(r, need), wide, high, k));
    }
    let room = around(w, h, &blocks);
    let (number, [_, read, masks]) = calls::load(b, &room, &[7; 450], &vec![9; w * h], &vec![9; n * (w / 8) * h]);
    if number != 0 || read != pixels || masks != planes.concat() {
        b.differ("load", "doesn't read back what was written", &format!("room of {w} by {h}, {n} planes: number {number}"));
    }
}

fn lent_long(r: &mut Rng, need: usize) -> Vec<u8> {
    let more = r.pick(&[0, 0, 1, 30]);
    r.bytes(need + more)
}

pub fn planes(b: &mut Comparison, r: &mut Rng) {
    let (w, h) = if r.once_in(2) { sizes(r) } else { (8 * r.range(1, 3), r.pick(&[1, 2, 3, 126, 127, 128, 129, 130, 199, 200])) };
    let (wide, high) = (w as u32, h as u32);
    for _ in 0..8 {
        let mut plane = structured(r, w / 8 * h, w / 8);
        if r.once_in(3) {
            let s = r.below(w / 8);
            (0..h).for_each(|y| plane[y * (w / 8) + s] = 0);
        }
        let k = r.range(1, 4) as u32;
        let need = length(|out| write::plane(&plane, out, wide, high, k));
        let out = lent(r, need);
        let rows = if r.once_in(6) { lent(r, w / 8 * h) } else { plane };
        let (wide, high, k) = (r.near(wide, &W), r.near(high, &H), r.wild(k));
        let k = if r.once_in(10) { r.pick(&[0, 5, 6, 256, 257]) } else { k };
        calls::write_plane(b, &rows, &out, wide, high, k);
    }
}

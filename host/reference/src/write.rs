//! The writing rule (document 01, "Writing rule"): whole blocks, tight, headers included.

use crate::{sizes_ok, SHORT, SIZE};

/// One strip of pixels under code 1C, `pixels` by rows.
pub fn strip(pixels: &[u8]) -> Vec<u8> {
    let (mut colour, mut step, mut bits) = (pixels[0], 1u8, Vec::new());
    for &v in &pixels[1..] {
        if v == colour {
            bits.push(0);
        } else if v == colour.wrapping_sub(step) {
            bits.extend([1, 1, 0]);
        } else if v == colour.wrapping_add(step) {
            bits.extend([1, 1, 1]);
            step = step.wrapping_neg();
        } else {
            bits.extend([1, 0]);
            bits.extend((0..8).map(|i| v >> i & 1));
            step = 1;
        }
        colour = v;
    }
    let bytes = bits.chunks(8).map(|byte| byte.iter().rev().fold(0, |sum, bit| 2 * sum + bit));
    [0x1C, pixels[0]].into_iter().chain(bytes).collect()
}

/// One strip of mask rows; nothing if all are zero.
pub fn mask(rows: &[u8]) -> Vec<u8> {
    let run_at = |y: usize| rows[y..].iter().take_while(|row| **row == rows[y]).count().min(127);
    let (mut body, mut y) = (Vec::new(), 0);
    if rows.iter().all(|row| *row == 0) {
        return body;
    }
    while y < rows.len() {
        let run = run_at(y);
        if run >= 2 {
            body.extend([0x80 + run as u8, rows[y]]);
            y += run;
        } else {
            let end = (y + 1..rows.len()).find(|next| run_at(*next) >= 2).unwrap_or(rows.len()).min(y + 127);
            body.push((end - y) as u8);
            body.extend(&rows[y..end]);
            y = end;
        }
    }
    body
}

/// A block of tag, size, table of offsets (`width` bytes each, 0 for a strip without body) and bodies.
fn block(tag: &str, width: usize, bodies: &[Vec<u8>]) -> Vec<u8> {
    let mut offset = 8 + width * bodies.len();
    let size = offset + bodies.iter().map(Vec::len).sum::<usize>();
    let mut block = tag.as_bytes().to_vec();
    block.extend((size as u32).to_be_bytes());
    for body in bodies {
        let stored = if body.is_empty() { 0 } else { offset };
        block.extend(&(stored as u32).to_le_bytes()[..width]);
        offset += body.len();
    }
    block.extend(bodies.concat());
    block
}

/// Lends the block to `out`: its length, or 4.
fn lend(block: &[u8], out: &mut [u8]) -> Result<usize, u32> {
    out.get_mut(..block.len()).ok_or(SHORT)?.copy_from_slice(block);
    Ok(block.len())
}

/// A background of W × H pixels as SMAP.
pub fn smap(rows: &[u8], out: &mut [u8], w: u32, h: u32) -> Result<usize, u32> {
    let (w, h) = (w as usize, h as usize);
    if !sizes_ok(w, h, 0) {
        return Err(SIZE);
    }
    let rows = rows.get(..w * h).ok_or(SHORT)?;
    let pixels = |s: usize| (0..8 * h).map(|i| rows[i / 8 * w + 8 * s + i % 8]).collect::<Vec<u8>>();
    let bodies: Vec<Vec<u8>> = (0..w / 8).map(|s| strip(&pixels(s))).collect();
    lend(&block("SMAP", 4, &bodies), out)
}

/// One plane's S × H rows as ZP0k.
pub fn plane(rows: &[u8], out: &mut [u8], w: u32, h: u32, k: u32) -> Result<usize, u32> {
    let (w, h) = (w as usize, h as usize);
    if !sizes_ok(w, h, 0) || !(1..=4).contains(&k) {
        return Err(SIZE);
    }
    let strips = w / 8;
    let rows = rows.get(..strips * h).ok_or(SHORT)?;
    let bodies: Vec<Vec<u8>> = (0..strips).map(|s| mask(&(0..h).map(|y| rows[y * strips + s]).collect::<Vec<u8>>())).collect();
    lend(&block(&format!("ZP0{k}"), 2, &bodies), out)
}

//! Comparisons worked out by hand (change request 1).

use crate::compare::compare;
use crate::session_rows::{block, u16s};
use crate::write;

const W: usize = 24;

/// A room of these sizes and the blocks of its image.
fn around([w, h, n]: [usize; 3], image: Vec<u8>) -> Vec<u8> {
    let [w, h, n] = [w, h, n].map(|number| number as u16);
    let rmim = block("RMIM", &[block("RMIH", &[u16s(&[n])]), block("IM00", &[image])]);
    block("ROOM", &[block("RMHD", &[u16s(&[w, h, 0])]), rmim])
}

/// A room of 24 by h: `pixels` by rows, so many planes declared, and plane blocks of S × H rows by number.
fn room(pixels: &[u8], n: usize, planes: &[(u32, &[u8])]) -> Vec<u8> {
    let (h, mut out) = (pixels.len() / W, vec![0; 4000]);
    let length = write::smap(pixels, &mut out, W as u32, h as u32).unwrap();
    let mut image = out[..length].to_vec();
    for (k, rows) in planes {
        let length = write::plane(rows, &mut out, W as u32, h as u32, *k).unwrap();
        image.extend(&out[..length]);
    }
    around([W, h, n], image)
}

/// The answer, and the list's bytes after it; they were 77 before.
fn compared(a: &[u8], b: &[u8], bytes: usize) -> (Result<usize, u32>, Vec<u8>) {
    let mut list = vec![77; bytes];
    (compare(a, b, &mut list), list)
}

/// 24 by 2 of colour 5, and these changes of pixels.
fn pixels(changes: &[(usize, usize)]) -> Vec<u8> {
    let mut pixels = vec![5; 2 * W];
    changes.iter().for_each(|(x, y)| pixels[y * W + x] = 9);
    pixels
}

#[test]
fn pixels_by_strip() {
    let (a, b) = (room(&pixels(&[]), 0, &[]), room(&pixels(&[(0, 0), (7, 1), (16, 1)]), 0, &[]));
    let list = [0, 0, 2, 0, 0, 0, 0, 0, 2, 0, 1, 0, 0, 0, 0, 0];
    assert_eq!(compared(&a, &b, 16), (Ok(2), list.to_vec()));
    assert_eq!(compared(&b, &a, 19), (Ok(2), [list.as_slice(), &[77; 3]].concat()));
    assert_eq!((compared(&a, &b, 15), compared(&a, &b, 0)), ((Err(4), vec![77; 15]), (Err(4), vec![])));
    assert_eq!((compared(&a, &a, 0), compared(&b, &b, 9)), ((Ok(0), vec![]), (Ok(0), vec![77; 9])));
}

/// A strip of 200 rows has 1,600 pixels.
#[test]
fn many_pixels() {
    let other: Vec<u8> = (0..200 * W).map(|at| if at % W / 8 == 1 { 9 } else { 5 }).collect();
    let (a, b) = (room(&vec![5; 200 * W], 0, &[]), room(&other, 0, &[]));
    assert_eq!(compared(&a, &b, 8), (Ok(1), vec![1, 0, 0x40, 6, 0, 0, 0, 0]));
}

/// The same picture under two codes: "0 keep" to its end, and a raw strip.
#[test]
fn another_code() {
    let least = |body: &[u8]| around([8, 1, 0], block("SMAP", &[12u32.to_le_bytes().to_vec(), body.to_vec()]));
    let (coded, raw) = (least(&[0x1C, 5, 0]), least(&[1, 5, 5, 5, 5, 5, 5, 5, 5]));
    assert_eq!(compared(&coded, &raw, 0), (Ok(0), vec![]));
    assert_eq!(compared(&coded, &least(&[1, 5, 5, 5, 5, 5, 5, 5, 6]), 8), (Ok(1), vec![0, 0, 1, 0, 0, 0, 0, 0]));
    assert_eq!(compared(&coded, &least(&[0x1C, 5]), 0), (Err(7), vec![]));
}

/// Planes are compared up to the larger N; one that isn't declared reads as zero, whatever stands in its block.
#[test]
fn planes() {
    let (zero, set, ground) = ([0; 6].as_slice(), [0, 0, 0, 0, 0, 1].as_slice(), pixels(&[]));
    let [none, four] = [0, 4].map(|n| room(&ground, n, &[]));
    let (second, fourth) = (room(&ground, 2, &[(2, set)]), room(&ground, 4, &[(1, zero), (4, set)]));
    assert_eq!(compared(&none, &four, 0).0, Ok(0));
    assert_eq!(compared(&none, &fourth, 8), (Ok(1), vec![2, 0, 0, 0, 8, 0, 0, 0]));
    assert_eq!(compared(&fourth, &none, 8), compared(&none, &fourth, 8));
    assert_eq!(compared(&room(&ground, 1, &[(1, &[0, 0, 0x80, 0, 0, 0])]), &four, 8), (Ok(1), vec![2, 0, 0, 0, 1, 0, 0, 0]));
    assert_eq!(compared(&none, &room(&pixels(&[(16, 0)]), 2, &[(2, set)]), 8), (Ok(1), vec![2, 0, 1, 0, 2, 0, 0, 0]));
    assert_eq!(compared(&second, &fourth, 8), (Ok(1), vec![2, 0, 0, 0, 10, 0, 0, 0]));
    let hidden = room(&ground, 1, &[(2, set)]);
    assert_eq!((compared(&hidden, &none, 0).0, compared(&hidden, &four, 0).0), (Ok(0), Ok(0)));
    assert_eq!(compared(&hidden, &second, 8), (Ok(1), vec![2, 0, 0, 0, 2, 0, 0, 0]));
}

/// A's refusal, then B's, then 16, then 4.
#[test]
fn refusals_in_order() {
    let (good, low, five) = (&room(&pixels(&[]), 0, &[])[..], &room(&[9; W], 0, &[])[..], &room(&pixels(&[]), 5, &[])[..]);
    let (cut, table) = (&good[..9], &around([W, 2, 0], block("SMAP", &[]))[..]);
    let answers = |pairs: &[(&[u8], &[u8])]| pairs.iter().map(|(a, b)| compared(a, b, 0).0.unwrap_err()).collect::<Vec<u32>>();
    assert_eq!(answers(&[(five, cut), (cut, five), (table, cut), (table, low)]), [3, 1, 5, 5], "A's");
    assert_eq!(answers(&[(good, cut), (good, five), (low, five), (low, table)]), [1, 3, 3, 5], "B's");
    assert_eq!(answers(&[(good, low), (low, good)]), [16, 16]);
}

//! The writers: the library, a one-pass encoder in C that tests no target, and the reference. The library's target has the length that is enough for
//! any picture, or just the block's.

use crate::clock::{best, timed, Effort};
use crate::goal::{Goal, Goals};
use crate::loads::SIZES;
use crate::partners::{self, plane_bound, smap_bound};
use crate::picture::{grain, plane, PICTURES};
use common::calls::{kg_write_plane, kg_write_smap};
use reference::write;

/// Pictures, or planes, of a row.
const MANY: usize = 4;

/// What is written: pixels, or a plane's rows.
#[derive(Clone, Copy, PartialEq)]
enum Block {
    Smap,
    Plane,
}

/// A row's rows of pixels or masks.
struct Written {
    block: Block,
    size: (usize, usize),
    rows: Vec<Vec<u8>>,
}

/// Writes rows into a target: the block's length.
type Writer = fn(&Written, &[u8], &mut [u8]) -> usize;

/// Plane number k of a room of w by h.
type Plane = fn(usize, usize, usize) -> Vec<u8>;

const PLANES: [(&str, Plane); 3] = [("posts", plane), ("grain", grain), ("empty", |_, w, h| vec![0; w / 8 * h])];

impl Written {
    fn bound(&self) -> usize {
        match self.block {
            Block::Smap => smap_bound(self.size),
            Block::Plane => plane_bound(self.size),
        }
    }

    /// The library's block in the target: its length.
    fn library(&self, rows: &[u8], out: &mut [u8]) -> usize {
        let ((w, h), (r, rn), (o, on)) = (self.size, (rows.as_ptr(), rows.len()), (out.as_mut_ptr(), out.len()));
        let answer = match self.block {
            Block::Smap => unsafe { kg_write_smap(r, rn, o, on, w as u32, h as u32) },
            Block::Plane => unsafe { kg_write_plane(r, rn, o, on, w as u32, h as u32, 1) },
        };
        assert_eq!(answer as u32, 0, "a writer refused");
        (answer >> 32) as usize
    }

    fn encoder(&self, rows: &[u8], out: &mut [u8]) -> usize {
        match self.block {
            Block::Smap => partners::smap(rows, out, self.size),
            Block::Plane => partners::plane(rows, out, self.size, 1),
        }
    }

    fn reference(&self, rows: &[u8], out: &mut [u8]) -> usize {
        let (w, h) = (self.size.0 as u32, self.size.1 as u32);
        match self.block {
            Block::Smap => write::smap(rows, out, w, h).expect("a block"),
            Block::Plane => write::plane(rows, out, w, h, 1).expect("a block"),
        }
    }

    /// The blocks that all sides write alike.
    fn blocks(&self) -> Vec<Vec<u8>> {
        let sides: [Writer; 3] = [Written::library, Written::encoder, Written::reference];
        let block = |rows: &Vec<u8>| {
            let [library, encoder, reference] = sides.map(|write| {
                let mut out = vec![77; self.bound()];
                let length = write(self, rows, &mut out);
                out[..length].to_vec()
            });
            assert!(library == encoder && library == reference, "library, encoder and reference write different blocks");
            library
        };
        self.rows.iter().map(block).collect()
    }

    /// The times of the library with each target, of the encoder and of the reference.
    fn times(&self, effort: Effort) -> [f64; 4] {
        let mut exact = self.blocks();
        let [mut long, mut other, mut third] = [0; 3].map(|_| vec![0; self.bound()]);
        let ([bound, exact, encoder], [reference]) = best(
            effort,
            self.rows.len(),
            [
                &mut |i| timed(|| self.library(&self.rows[i], &mut long)),
                &mut |i| timed(|| self.library(&self.rows[i], &mut exact[i])),
                &mut |i| timed(|| self.encoder(&self.rows[i], &mut other)),
            ],
            [&mut |i| timed(|| self.reference(&self.rows[i], &mut third))],
        );
        [bound, exact, encoder, reference]
    }

    fn row(&self, effort: Effort, goals: &mut Goals, name: &str) {
        let [bound, exact, encoder, reference] = self.times(effort);
        let ((w, h), all) = (self.size, (self.rows.len() * self.rows[0].len()) as f64);
        let (goal, call) = match self.block {
            Block::Smap => (Goal::WriteSmap, "write_smap"),
            Block::Plane => (Goal::WritePlane, "write_plane"),
        };
        goals.see(goal, bound / encoder, &format!("{w}x{h}, {name}, a target of the bound's length"));
        goals.see(goal, exact / encoder, &format!("{w}x{h}, {name}, a target just long enough"));
        goals.see(Goal::Reference, exact / reference, &format!("{call}, {w}x{h}, {name}"));
        let (size, nanos, long, short, reference) = (format!("{w}x{h}"), bound / all, bound / encoder, exact / encoder, bound / reference);
        println!("{size:<9}  {call:<11} {name:<9} {nanos:>7.2} {long:>7.2} {short:>7.2} {reference:>7.2}");
    }
}

pub fn tables(effort: Effort, goals: &mut Goals) {
    println!("Writers, {MANY} pictures or planes a row. ns: a pixel, or a mask byte. : bound, : just: as a multiple of a one-pass C encoder that tests no");
    println!("target, where the library's target has the length that is enough for any picture, or the block's own. : ref: the former.\n");
    println!("{:<9}  {:<11} {:<9} {:>7} {:>7} {:>7} {:>7}", "size", "call", "rows", "ns", ": bound", ": just", ": ref");
    let many = if effort == Effort::Quick { 1 } else { MANY };
    for size in SIZES {
        let (w, h) = size;
        for picture in PICTURES {
            let rows = (0..many).map(|number| picture.pixels(w, h, number)).collect();
            Written { block: Block::Smap, size, rows }.row(effort, goals, picture.name());
        }
        for (name, plane) in PLANES {
            let rows = (1..=many).map(|k| plane(k, w, h)).collect();
            Written { block: Block::Plane, size, rows }.row(effort, goals, name);
        }
    }
    println!();
}

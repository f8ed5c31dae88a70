//! Deliberate bodies at the edges of the rules for raw strips and runs, and the number that each must give. The scenes read every one of them in
//! a background and in an object's image, and a run of the tests that hasn't fails (comparison.rs).

use crate::rng::Rng;
use crate::strips::{put_operations, STARTS};
use common::bits::Bits;
use reference::{CUT, PAST};

/// Where a run ends.
#[derive(Clone, Copy, PartialEq, Eq, PartialOrd, Ord)]
pub enum End {
    /// With the strip's last pixel.
    Exact,
    /// One pixel past it. Not for a run of 1: an operation is read only where a pixel is left.
    Past,
    /// Past it wherever it starts, in a strip of H ≤ 32: a run of 256.
    Low,
}

/// A body. Runs are given by their pixels, so that n = 0 is 256.
#[derive(Clone, Copy, PartialEq, Eq, PartialOrd, Ord)]
pub enum Shape {
    /// The code 01 alone.
    RawCode,
    /// A raw body of 8H bytes and so many more, the code among them.
    Raw(usize),
    /// A run as the last operation.
    Run(End, usize),
    /// The same, but the body ends inside the 8 bits of the run's number.
    Cut(End, usize),
}

const RUNS: [(End, usize); 8] = [
    (End::Exact, 256),
    (End::Exact, 1),
    (End::Exact, 2),
    (End::Exact, 255),
    (End::Past, 256),
    (End::Past, 2),
    (End::Past, 255),
    (End::Low, 256),
];

pub fn shapes() -> Vec<Shape> {
    let mut shapes = vec![Shape::RawCode, Shape::Raw(0), Shape::Raw(1), Shape::Raw(2)];
    shapes.extend(RUNS.map(|(end, pixels)| Shape::Run(end, pixels)));
    shapes.extend(RUNS.map(|(end, pixels)| Shape::Cut(end, pixels)));
    shapes
}

/// The pixels before a run of so many.
fn before(r: &mut Rng, end: End, pixels: usize, h: usize) -> usize {
    match end {
        End::Exact => 8 * h - pixels,
        End::Past => 8 * h + 1 - pixels,
        End::Low => r.range(1, 8 * h - 1),
    }
}

/// A body of the second method whose last operation is this run, with nothing after it.
fn ending(r: &mut Rng, end: End, pixels: usize, h: usize) -> Bits {
    let code = r.pick(&STARTS[4..]) + r.below(5) as u8;
    let colour = if r.once_in(4) { 255 } else { r.byte() };
    let mut bits = Bits::after(vec![code, colour]);
    let made = before(r, end, pixels, h);
    put_operations(r, &mut bits, code, made);
    bits.put_run(pixels);
    bits
}

impl Shape {
    /// What document 01 gives for it: "The number's bits are looked for (7) before its run is measured (8)."
    pub fn number(self) -> u32 {
        match self {
            Shape::RawCode | Shape::Raw(0) | Shape::Cut(..) => CUT,
            Shape::Raw(_) | Shape::Run(End::Exact, _) => 0,
            Shape::Run(..) => PAST,
        }
    }

    pub fn name(self) -> String {
        let run = |end, pixels| match end {
            End::Exact => format!("n = {} to the end", pixels % 256),
            End::Past => format!("n = {} to one past the end", pixels % 256),
            End::Low => format!("n = {}, H <= 32", pixels % 256),
        };
        match self {
            Shape::RawCode => "raw, the code alone".into(),
            Shape::Raw(0) => "raw, 8H bytes".into(),
            Shape::Raw(more) => format!("raw, {more} + 8H bytes"),
            Shape::Run(end, pixels) => run(end, pixels),
            Shape::Cut(end, pixels) => format!("{}, cut", run(end, pixels)),
        }
    }

    /// The lowest and the highest strip that has room for it: the first pixel is never a run's.
    pub fn heights(self) -> (usize, usize) {
        match self {
            Shape::RawCode | Shape::Raw(_) => (1, 200),
            Shape::Run(End::Low, _) | Shape::Cut(End::Low, _) => (1, 32),
            Shape::Run(End::Exact, pixels) | Shape::Cut(End::Exact, pixels) => ((pixels + 1).div_ceil(8), 200),
            Shape::Run(End::Past, pixels) | Shape::Cut(End::Past, pixels) => (pixels.div_ceil(8), 200),
        }
    }

    /// One of these heights, mostly a low one.
    pub fn height(self, r: &mut Rng) -> usize {
        let (least, most) = self.heights();
        match r.below(8) {
            0 => most,
            1 => r.range(least, most),
            2..=4 => least,
            _ => r.range(least, least + 8),
        }
    }

    pub fn body(self, r: &mut Rng, h: usize) -> Vec<u8> {
        match self {
            Shape::RawCode => vec![1],
            Shape::Raw(more) => [vec![1], r.bytes(8 * h + more - 1)].concat(),
            Shape::Run(end, pixels) => {
                let unused = if r.once_in(2) { 0 } else { r.below(4) };
                [ending(r, end, pixels, h).bytes, r.bytes(unused)].concat()
            }
            Shape::Cut(end, pixels) => loop {
                let mut bits = ending(r, end, pixels, h);
                // A number that fills a byte has no place inside it where a body can end.
                if !bits.used.is_multiple_of(8) {
                    bits.bytes.pop();
                    return bits.bytes;
                }
            },
        }
    }
}

/// Any body of those that a strip of this height has room for.
pub fn any_shape(r: &mut Rng, h: usize) -> Vec<u8> {
    let mut shapes = shapes();
    shapes.retain(|shape| (shape.heights().0..=shape.heights().1).contains(&h));
    r.pick(&shapes).body(r, h)
}

#[cfg(test)]
mod tests {
    use super::*;
    use reference::strip;

    /// At every height: the number is the shape's, and a run that ends with the strip fills its end with one colour.
    #[test]
    fn shapes_give_their_numbers() {
        let r = &mut Rng::new(1);
        for shape in shapes() {
            let (least, most) = shape.heights();
            for h in least..=most {
                let read = strip::pixels(&shape.body(r, h), h);
                assert_eq!(read.as_ref().err().unwrap_or(&0), &shape.number(), "{}, H {h}", shape.name());
                if let (Shape::Run(_, pixels), Ok(read)) = (shape, read) {
                    assert!(read[8 * h - pixels..].iter().all(|pixel| *pixel == read[8 * h - 1]), "{}, H {h}", shape.name());
                }
            }
        }
    }

    /// n = 0 has room from H 33 on, n = 255 from H 32 on; at H 32 the first pixel and n = 0 are one too many.
    #[test]
    fn lowest_strips() {
        assert_eq!(RUNS.map(|(end, pixels)| Shape::Run(end, pixels).heights().0), [33, 1, 1, 32, 32, 1, 32, 1]);
    }
}

//! Deliberate casts that are accepted (change request 7), each with the order and the frame that it must leave, known from its making and not from
//! either side. The scenes make every one of them, and a run of the tests that hasn't fails (cast_count.rs).

use crate::calls::Setting;
use crate::cast_keys::{long_key, order, Arranged, Key, Keys};
use crate::rng::Rng;
use reference::cast::Record;
use reference::SHORT;

/// Everything that a call is handed.
#[derive(Clone)]
pub struct Cast {
    pub list: Vec<Record>,
    pub frame: Vec<u8>,
    pub masks: Vec<u8>,
    pub pictures: Vec<u8>,
    /// W, H and N.
    pub sizes: [u32; 3],
    pub clear: u8,
}

impl Cast {
    pub fn setting(&self) -> Setting<'_> {
        Setting { masks: &self.masks, pictures: &self.pictures, sizes: self.sizes, clear: self.clear }
    }

    /// The bytes that frame and masks need, where the sizes are right.
    pub fn needs(&self) -> [usize; 2] {
        let [w, h, n] = self.sizes.map(|number| number as usize);
        [w * h, n * (w / 8) * h]
    }
}

/// What a cast must leave: the records, by their places in the list as handed in, and the frame; or its refusal.
pub type Wanted = Result<(Vec<usize>, Vec<u8>), u32>;

pub struct Made {
    pub cast: Cast,
    pub wanted: Wanted,
}

/// Record i's colour: for up to 255 records it isn't the transparent index, nor another's.
fn colour(clear: u8, i: usize) -> u8 {
    clear.wrapping_add(1 + i as u8)
}

/// Records of these keys and a rectangle each, (left, top, width, height), on a frame of w by h; record i paints the pixels of it that `paints` says.
/// The ranks say in which order. There are no planes, so that no clip level hides anything.
fn layered(
    r: &mut Rng,
    (w, h): (usize, usize),
    (keys, ranks): (&[Key], &[usize]),
    rectangles: &[[i32; 4]],
    paints: impl Fn(usize, (i32, i32)) -> bool,
) -> Made {
    let (clear, frame, order) = (r.byte(), r.bytes(w * h), order(ranks));
    let mut list: Vec<Record> = keys.iter().map(|(y, id)| Record { id: *id, y: *y, ..Record::default() }).collect();
    // The pictures stand in the buffer in any order.
    let (mut pictures, mut places) = (Vec::new(), (0..list.len()).collect::<Vec<usize>>());
    r.shuffle(&mut places);
    for i in places {
        let ([left, top, width, height], start, clip) = (rectangles[i], pictures.len() as u32, r.wild(1));
        list[i] = Record { left, top, width: width as u32, height: height as u32, clip, start, ..list[i] };
        let places = (0..width * height).map(|at| (left + at % width, top + at / width));
        pictures.extend(places.map(|at| if paints(i, at) { colour(clear, i) } else { clear }));
    }
    let covers = |i: usize, (x, y): (i32, i32)| {
        let [left, top, width, height] = rectangles[i];
        (left..left + width).contains(&x) && (top..top + height).contains(&y) && paints(i, (x, y))
    };
    let pixel = |at: usize| {
        let last = order.iter().rev().find(|i| covers(**i, ((at % w) as i32, (at / w) as i32)));
        last.map_or(frame[at], |i| colour(clear, *i))
    };
    let painted = (0..w * h).map(pixel).collect();
    Made { cast: Cast { list, frame, masks: vec![], pictures, sizes: [w as u32, h as u32, 0], clear }, wanted: Ok((order, painted)) }
}

/// Up to four records, each as wide as the frame or wider: record i paints the columns whose number has bit i. So there is a column for each set of
/// records, and it shows which of them came last.
pub fn ordered(r: &mut Rng, keys: Keys, ranks: &[usize]) -> Made {
    let (own, w) = (ranks.iter().map(|rank| keys.keys()[*rank]).collect::<Vec<Key>>(), 8.max(1 << ranks.len()));
    let mut beyond = || r.below(4) as i32;
    let rectangles: Vec<[i32; 4]> = ranks.iter().map(|_| [beyond(), beyond()]).map(|[x, y]| [-x, -y, w as i32 + x, 1 + y]).collect();
    layered(r, (w, 1), (&own, ranks), &rectangles, |i, (x, _)| x >> i & 1 == 1)
}

/// Up to 32 records, each as large as the frame, which has a pixel for each two of them: it shows which of the two came last.
pub fn long(r: &mut Rng, count: usize, arranged: Arranged) -> Made {
    let pairs: Vec<[usize; 2]> = (0..count).flat_map(|j| (0..j).map(move |i| [i, j])).collect();
    let ranks = arranged.ranks(r, count);
    let keys: Vec<Key> = ranks.iter().map(|rank| long_key(*rank)).collect();
    let paints = |i: usize, (x, y): (i32, i32)| pairs.get((128 * y + x) as usize).is_some_and(|pair| pair.contains(&i));
    layered(r, (128, 4), (&keys, &ranks), &vec![[0, 0, 128, 4]; count], paints)
}

/// Four opaque pictures, of which each two overlap.
pub fn stacked(r: &mut Rng, keys: Keys, ranks: &[usize]) -> Made {
    let own: Vec<Key> = ranks.iter().map(|rank| keys.keys()[*rank]).collect();
    layered(r, (16, 8), (&own, ranks), &[[0, 0, 9, 6], [5, -2, 8, 7], [3, 3, 10, 4], [-4, 4, 20, 9]], |_, _| true)
}

/// So many records of one pixel each, side by side, in an order by chance.
pub fn counted(r: &mut Rng, count: usize) -> Made {
    let ranks = Arranged::Shuffled(0).ranks(r, count);
    let keys: Vec<Key> = ranks.iter().map(|rank| long_key(*rank)).collect();
    let rectangles: Vec<[i32; 4]> = (0..count as i32).map(|i| [i, 0, 1, 1]).collect();
    layered(r, (40, 1), (&keys, &ranks), &rectangles, |_, _| true)
}

/// A picture of 3 by 3 at this place of a frame of 8 by 4, over a pixel of another; what passes the edges isn't painted, and the sums are exact.
pub fn placed(r: &mut Rng, left: i32, top: i32) -> Made {
    let keys = [(1, 1), (0, 1)];
    let Made { mut cast, .. } = layered(r, (8, 4), (&keys, &[1, 0]), &[[0, 0, 3, 3], [2, 1, 1, 1]], |_, _| true);
    (cast.list[0].left, cast.list[0].top) = (left, top);
    let mut painted = cast.frame.clone();
    painted[8 + 2] = colour(cast.clear, 1);
    for (at, pixel) in painted.iter_mut().enumerate() {
        let (column, row) = ((at % 8) as i64 - i64::from(left), (at / 8) as i64 - i64::from(top));
        if (0..3).contains(&column) && (0..3).contains(&row) {
            *pixel = colour(cast.clear, 0);
        }
    }
    Made { cast, wanted: Ok((vec![1, 0], painted)) }
}

/// Clip levels: those of the planes, and others, of which some are a plane's in fewer bits.
const CLIPS: [u32; 11] = [0, 1, 2, 3, 4, 5, 256 + 1, 0x1_0002, 0x8000_0003, 0xFFFF_FFFE, 0xFFFF_FFFF];

/// A record for each clip level, a row of the frame each: plane k hides column k, and nothing else.
pub fn clipped(r: &mut Rng, n: usize, arranged: Arranged) -> Made {
    let ranks = arranged.ranks(r, CLIPS.len());
    let keys: Vec<Key> = ranks.iter().map(|rank| long_key(*rank)).collect();
    let rectangles: Vec<[i32; 4]> = (0..CLIPS.len() as i32).map(|row| [0, row, 8, 1]).collect();
    let Made { mut cast, wanted } = layered(r, (8, CLIPS.len()), (&keys, &ranks), &rectangles, |_, _| true);
    let (order, mut painted) = wanted.expect("an accepted cast");
    cast.sizes[2] = n as u32;
    cast.masks = (1..=n).flat_map(|k| [0x80 >> k; CLIPS.len()]).collect();
    for (row, clip) in CLIPS.iter().enumerate() {
        cast.list[row].clip = *clip;
        if (1..=n).contains(&(*clip as usize)) {
            let at = 8 * row + *clip as usize;
            painted[at] = cast.frame[at];
        }
    }
    Made { cast, wanted: Ok((order, painted)) }
}

/// All colours in a picture of 16 by 16, and over it another one that has every second pixel of the index: what shows there is the one below.
pub fn all_colours(r: &mut Rng, clear: u8) -> Made {
    let (low, high): (Vec<u8>, Vec<u8>) = ((0..=255).collect(), (0..=255u8).map(|at| if at % 2 == 0 { clear } else { 255 - at }).collect());
    let record = |y: i32, start: u32| Record { id: 3, y, width: 16, height: 16, start, ..Record::default() };
    let frame: Vec<u8> = (0..=255u8).map(|at| at.wrapping_add(99)).collect();
    let pixel = |at: usize| [high[at], low[at], frame[at]].into_iter().find(|pixel| *pixel != clear).unwrap_or(clear);
    let painted = (0..256).map(pixel).collect();
    let (n, pictures) = (r.below(5), [low, high].concat());
    let (list, masks) = (vec![record(0, 256), record(-1, 0)], r.bytes(n * 2 * 16));
    Made { cast: Cast { list, frame, masks, pictures, sizes: [16, 16, n as u32], clear }, wanted: Ok((vec![1, 0], painted)) }
}

/// How long a lent buffer is.
#[derive(Clone, Copy, Debug, PartialEq, Eq, PartialOrd, Ord)]
pub enum Length {
    Exact,
    /// A byte less than is needed.
    Short,
    Longer,
}

pub const LENGTHS: [Length; 3] = [Length::Exact, Length::Short, Length::Longer];

impl Length {
    /// Gives a buffer of the exact length this one.
    fn give(self, r: &mut Rng, bytes: &mut Vec<u8>) {
        match self {
            Length::Exact => (),
            Length::Short => bytes.truncate(bytes.len() - 1),
            Length::Longer => {
                let more = r.range(1, 40);
                bytes.extend(r.bytes(more));
            }
        }
    }
}

/// One picture of this size that starts here and ends with the lent bytes, or passes their end by one. Its last pixel is the frame's.
pub fn ended(r: &mut Rng, (width, height): (u32, u32), start: u32, length: Length) -> Made {
    let (w, h, clear, size) = (8, 4, r.byte(), (width * height) as usize);
    let (frame, mut pictures) = (r.bytes(w * h), r.bytes(start as usize + size));
    pictures.iter_mut().for_each(|pixel| *pixel = if *pixel == clear { !clear } else { *pixel });
    let (left, top) = (w as i32 - width as i32, h as i32 - height as i32);
    let list = vec![Record { id: r.wild(3), y: r.wild(9) as i32, left, top, width, height, clip: 0, start }];
    let pixel = |at: usize| {
        let (column, row) = ((at % w) as i32 - left, (at / w) as i32 - top);
        let inside = column >= 0 && row >= 0;
        if inside {
            pictures[start as usize + row as usize * width as usize + column as usize]
        } else {
            frame[at]
        }
    };
    let painted = (0..w * h).map(pixel).collect();
    let wanted = if length == Length::Short { Err(SHORT) } else { Ok((vec![0], painted)) };
    length.give(r, &mut pictures);
    Made { cast: Cast { list, frame, masks: vec![], pictures, sizes: [w as u32, h as u32, 0], clear }, wanted }
}

/// Frame and masks of these lengths, and so many records. Nothing is hidden; what lies behind the frame stays.
pub fn lent(r: &mut Rng, n: usize, [frame, masks]: [Length; 2], count: usize) -> Made {
    let Made { mut cast, wanted } = counted(r, count);
    let (order, mut painted) = wanted.expect("an accepted cast");
    cast.sizes[2] = n as u32;
    cast.masks = r.bytes(cast.needs()[1]);
    cast.list.iter_mut().for_each(|record| record.clip = r.pick(&[0, n as u32 + 1]));
    masks.give(r, &mut cast.masks);
    frame.give(r, &mut cast.frame);
    painted.extend(cast.frame.iter().skip(painted.len()));
    let short = frame == Length::Short || masks == Length::Short;
    Made { cast, wanted: if short { Err(SHORT) } else { Ok((order, painted)) } }
}

/// So many records of 4 by 2 side by side whose pictures share bytes: each starts `step` bytes behind the one before it in the list.
pub fn shared(r: &mut Rng, count: usize, step: usize) -> Made {
    let (clear, w) = (r.byte(), 4 * count.next_multiple_of(2));
    let ranks = Arranged::Shuffled(0).ranks(r, count);
    let record = |(i, rank): (usize, &usize)| {
        let (y, id) = long_key(*rank);
        Record { id, y, left: 4 * i as i32, top: 0, width: 4, height: 2, clip: 1, start: (step * i) as u32 }
    };
    let list = ranks.iter().enumerate().map(record).collect();
    let pictures: Vec<u8> = (0..step * (count - 1) + 8).map(|at| colour(clear, at)).collect();
    let frame = vec![clear; 2 * w];
    let pixel = |at: usize| {
        let (x, row) = (at % w, at / w);
        if x / 4 < count {
            pictures[step * (x / 4) + 4 * row + x % 4]
        } else {
            frame[at]
        }
    };
    let painted = (0..2 * w).map(pixel).collect();
    Made { cast: Cast { list, frame, masks: vec![], pictures, sizes: [w as u32, 2, 0], clear }, wanted: Ok((order(&ranks), painted)) }
}

//! Deliberate limbs for the question whether a limb draws, and the number that each must give. The scenes ask every question about every one of
//! them, and a run of the tests that hasn't fails (comparison.rs).

use crate::rng::Rng;
use reference::{ANIMATION, SHORT};

/// What one limb is. It stands among right ones, so that it alone decides whether 15 is given.
#[derive(Clone, Copy, Debug, PartialEq, Eq, PartialOrd, Ord)]
pub enum Kind {
    /// Active, its place in its window.
    Inside,
    /// The same, but start + length is 2^32 or more, so that a sum that wraps or stops there would refuse it.
    Across,
    /// Idle, with the bytes of a wrong one.
    Idle,
    /// Length 0.
    Empty,
    /// Length 129 to 255, its place in so long a window.
    Long,
    /// A place below the start.
    Below,
    /// The place start + length.
    AtEnd,
    /// A place behind that one.
    Past,
    /// A window past 2^32, and a place that arithmetic modulo 2^32 would find in it.
    Around,
}

const RIGHT: [Kind; 3] = [Kind::Inside, Kind::Across, Kind::Idle];
const WRONG: [Kind; 6] = [Kind::Empty, Kind::Long, Kind::Below, Kind::AtEnd, Kind::Past, Kind::Around];

const LAST: u64 = u32::MAX as u64;

/// What leaves the low bytes of a place as they were, and takes it out of its window: a reader of fewer than 32 bits would not see it.
const FAR: [u64; 4] = [1 << 8, 1 << 16, 1 << 24, 1 << 31];

/// `least` to `most`, often at one of the two, or near where a narrower or a signed number wraps.
fn between(r: &mut Rng, least: u64, most: u64) -> u64 {
    if r.once_in(3) {
        return least + r.next() % (most - least + 1);
    }
    let edge = r.pick(&[least, most, 1 << 7, 1 << 8, 1 << 16, 1 << 31]);
    (edge + r.below(256) as u64).saturating_sub(128).clamp(least, most)
}

impl Kind {
    pub fn name(self) -> &'static str {
        match self {
            Kind::Inside => "place inside",
            Kind::Across => "place inside, window past 2^32",
            Kind::Idle => "idle, else wrong",
            Kind::Empty => "length 0",
            Kind::Long => "length 129 to 255",
            Kind::Below => "place below start",
            Kind::AtEnd => "place at start + length",
            Kind::Past => "place past start + length",
            Kind::Around => "place inside modulo 2^32",
        }
    }

    fn length(self, r: &mut Rng) -> u64 {
        match self {
            Kind::Empty => 0,
            Kind::Long => between(r, 129, 255),
            Kind::Around => between(r, 2, 128),
            _ => between(r, 1, 128),
        }
    }

    fn start(self, r: &mut Rng, length: u64) -> u64 {
        match self {
            Kind::Across => between(r, LAST + 1 - length, LAST),
            Kind::Around => between(r, LAST + 2 - length, LAST),
            Kind::Below => between(r, 1, LAST - length),
            Kind::Past => between(r, 0, LAST - length - 1),
            _ => between(r, 0, LAST - length),
        }
    }

    fn place(self, r: &mut Rng, start: u64, end: u64) -> u64 {
        let (inside, far) = (between(r, start, LAST.min(end.max(start + 1) - 1)), r.pick(&FAR));
        match self {
            Kind::Below => inside.checked_sub(far).filter(|_| r.once_in(2)).unwrap_or_else(|| between(r, 0, start - 1)),
            Kind::AtEnd => end,
            Kind::Past => Some(inside + far).filter(|place| *place <= LAST && r.once_in(2)).unwrap_or_else(|| between(r, end + 1, LAST)),
            Kind::Around => between(r, 0, end - LAST - 2),
            _ => inside,
        }
    }

    /// The limb's 16 bytes; those that don't decide are any.
    fn limb(self, r: &mut Rng) -> Vec<u8> {
        if self == Kind::Idle {
            let mut limb = r.pick(&WRONG).limb(r);
            limb[0] = 0;
            return limb;
        }
        let length = self.length(r);
        let start = self.start(r, length);
        let place = self.place(r, start, start + length);
        let mut limb = r.bytes(16);
        limb[0] = r.pick(&[1, 1, 2, 128, 255]);
        limb[1..4].fill_with(|| r.pick(&[0, 0, 1, 1, 2, 255]));
        limb[5] = length as u8;
        limb[8..12].copy_from_slice(&(start as u32).to_le_bytes());
        limb[12..16].copy_from_slice(&(place as u32).to_le_bytes());
        limb
    }

    /// 16 limbs, of which limb `at` is of this kind and the others are right; now and then there are bytes behind them, which no one judges.
    pub fn at(self, r: &mut Rng, at: usize) -> Vec<u8> {
        let mut limbs: Vec<u8> = (0..16).flat_map(|i| if i == at { self.limb(r) } else { r.pick(&RIGHT).limb(r) }).collect();
        if r.once_in(4) {
            limbs.extend(r.pick(&WRONG).limb(r));
        }
        limbs
    }
}

/// What is asked.
#[derive(Clone, Copy, Debug, PartialEq, Eq, PartialOrd, Ord)]
pub enum Question {
    /// Whether the deliberate limb draws.
    Itself,
    /// Whether another one does.
    Another,
    /// Whether one above 15 does.
    Above,
    /// Whether any does, of fewer than 256 bytes.
    Short,
}

const QUESTIONS: [Question; 4] = [Question::Itself, Question::Another, Question::Above, Question::Short];

/// A limb number above 15. Some would be below 16 if only their low bits were read, or if 16 times the number wrapped.
pub fn above(r: &mut Rng) -> u32 {
    r.pick(&[16, 17, 255, 256, 0x1_0000, 0x1000_0000, 0x8000_0000, 0xFFFF_FFFF])
}

impl Question {
    /// The bytes to lend and the limb to ask about.
    pub fn ask(self, r: &mut Rng, limbs: &[u8], at: usize) -> (Vec<u8>, u32) {
        match self {
            Question::Itself => (limbs.to_vec(), at as u32),
            Question::Another => (limbs.to_vec(), ((at + r.range(1, 15)) % 16) as u32),
            Question::Above => (limbs.to_vec(), above(r)),
            Question::Short => (limbs[..r.pick(&[0, 1, 16, 240, 254, 255, 255])].to_vec(), r.below(18) as u32),
        }
    }
}

/// What document 01 gives: 4, then 15, for the limb's number or for a wrong limb.
pub fn number(kind: Kind, question: Question) -> u32 {
    match question {
        Question::Short => SHORT,
        Question::Above => ANIMATION,
        _ if WRONG.contains(&kind) => ANIMATION,
        _ => 0,
    }
}

/// All kinds, each with all questions.
pub fn cases() -> impl Iterator<Item = (Kind, Question)> {
    RIGHT.into_iter().chain(WRONG).flat_map(|kind| QUESTIONS.map(|question| (kind, question)))
}

/// The table: for each kind, how often each question was answered as it must be.
pub fn print(count: impl Fn(Kind, Question) -> u64) {
    let heads = ["itself", "another", "above 15", "short"];
    println!("{:<32}{:>9}{}", "deliberate limbs", "number", heads.map(|head| format!("{head:>12}")).concat());
    for kind in RIGHT.into_iter().chain(WRONG) {
        let counts = QUESTIONS.map(|question| format!("{:>12}", count(kind, question))).concat();
        println!("{:<32}{:>9}{counts}", kind.name(), number(kind, Question::Itself));
    }
}

#[cfg(test)]
mod tests {
    use super::*;
    use reference::costume::limb_draws;

    /// As each of the 16, and often enough that the edges of each kind come.
    #[test]
    fn limbs_give_their_numbers() {
        let r = &mut Rng::new(1);
        for at in (0..16).cycle().take(320) {
            for (kind, question) in cases() {
                let limbs = kind.at(r, at);
                let (lent, which) = question.ask(r, &limbs, at);
                let given = limb_draws(&lent, which).err().unwrap_or(0);
                assert_eq!(given, number(kind, question), "{}, {question:?}", kind.name());
            }
        }
    }
}

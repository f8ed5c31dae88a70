//! Runs one call on the library and on the reference, compares every byte, and keeps the count.

use crate::cast_count;
use crate::clear_count::{self, Case};
use crate::end_count::EndCount;
use crate::lent::Slot;
use crate::limbs::{self, Kind, Question};
use crate::list_count;
use crate::pair_count::PairCount;
use crate::place_count;
use crate::planned::Count;
use crate::rng::Rng;
use crate::shapes::{shapes, Shape};
use std::collections::BTreeMap;
use std::sync::atomic::{AtomicU64, AtomicUsize, Ordering::Relaxed};

pub const CALLS: [&str; 20] = [
    "record",
    "load",
    "draw_last",
    "draw_at",
    "hide",
    "take_back",
    "object_at",
    "list",
    "header",
    "name",
    "name_number",
    "hidden",
    "stamp",
    "cast",
    "start",
    "tick",
    "limb_draws",
    "compare",
    "write_smap",
    "write_plane",
];
/// A full run must have reached them all.
const NUMBERS: [u32; 18] = [0, 1, 2, 3, 4, 5, 6, 7, 8, 9, 10, 11, 12, 13, 14, 15, 16, 18];
/// A full run must have reached these of the comparison and of the cast too, which alone give 16 and 18, and all that the listing has.
const OWN: [(&str, &[u32]); 3] =
    [("compare", &[0, 1, 2, 3, 4, 5, 6, 7, 8, 16]), ("cast", &[0, 3, 4, 18]), ("list", &[0, 1, 2, 3, 4, 5, 6, 7, 8])];
/// The name of a buffer that is a list of actors: it stands at a multiple of 4.
pub const CAST: &str = "cast";

/// Where a deliberate body is read. A full run must have reached them all in both.
#[derive(Clone, Copy, Debug, PartialEq, Eq, PartialOrd, Ord)]
pub enum Place {
    Background,
    Image,
}

/// What runs now, for the signal handler.
static SEED: AtomicU64 = AtomicU64::new(0);
static CALL: AtomicUsize = AtomicUsize::new(0);

extern "C" {
    fn signal(number: i32, handler: extern "C" fn(i32)) -> usize;
    fn alarm(seconds: u32) -> u32;
    fn _exit(status: i32) -> !;
}

extern "C" fn fell(number: i32) {
    let what = if number == 14 { "doesn't end" } else { "touches memory that it wasn't lent" };
    println!("DIFFERENCE seed {} call kg_{}: {what} (signal {number})", SEED.load(Relaxed), CALLS[CALL.load(Relaxed)]);
    unsafe { _exit(1) }
}

pub struct Comparison {
    slots: Vec<Slot>,
    place: Rng,
    seed: u64,
    pub cases: u64,
    counts: BTreeMap<(usize, u32), u64>,
    /// How often each deliberate body was read as it must be, by place.
    shapes: BTreeMap<Shape, [u64; 2]>,
    /// How often each question about a deliberate limb was answered as it must be.
    limbs: BTreeMap<(Kind, Question), u64>,
    /// The same for the deliberate ends of bodies.
    pub ends: EndCount,
    /// The same for the deliberate pairs of rooms.
    pub pairs: PairCount,
    /// The same for the deliberate rooms and stamps with a transparent index.
    pub clears: Count<Case>,
    /// The same for the deliberate casts.
    pub casts: Count<cast_count::Case>,
    /// The same for the deliberate listings.
    pub lists: Count<list_count::Case>,
    /// How often the place of each kind of fault was told as it must be.
    pub places: Count<place_count::Case>,
    /// Whether a call's first buffer, its room, ends with its page; else it may stand anywhere. A scene begins without it.
    pub room_at_page_end: bool,
    differences: BTreeMap<String, u64>,
}

impl Comparison {
    pub fn new() -> Comparison {
        for number in [4, 7, 8, 11, 14] {
            unsafe { signal(number, fell) };
        }
        Comparison {
            slots: (0..4).map(|_| Slot::new()).collect(),
            place: Rng::new(0),
            seed: 0,
            cases: 0,
            counts: BTreeMap::new(),
            shapes: shapes().into_iter().map(|shape| (shape, [0; 2])).collect(),
            limbs: limbs::cases().map(|case| (case, 0)).collect(),
            ends: EndCount::default(),
            pairs: PairCount::default(),
            clears: Count::default(),
            casts: Count::default(),
            lists: Count::default(),
            places: Count::default(),
            room_at_page_end: false,
            differences: BTreeMap::new(),
        }
    }

    /// A new scene: its seed is what a failure prints.
    pub fn scene(&mut self, seed: u64) -> Rng {
        SEED.store(seed, Relaxed);
        unsafe { alarm(120) };
        self.place = Rng::new(!seed);
        self.seed = seed;
        self.room_at_page_end = false;
        Rng::new(seed)
    }

    /// Where the last call's first buffer began.
    pub fn room_address(&self) -> usize {
        self.slots[0].address()
    }

    /// Lends copies of the buffers.
    fn lend(&mut self, buffers: &[(&str, &[u8])]) -> Vec<*mut u8> {
        let mut pointers = Vec::new();
        for (i, (slot, (name, bytes))) in self.slots.iter_mut().zip(buffers).enumerate() {
            let place = self.place.pick(&[0, 0, 0, 0, 1, 1, 2, 3, 5]);
            let place = if *name == CAST && place > 1 { 4 * place } else { place };
            pointers.push(slot.lend(bytes, if i == 0 && self.room_at_page_end { 0 } else { place }));
        }
        pointers
    }

    /// A difference: printed the first three times of its kind, counted always.
    pub fn differ(&mut self, call: &str, kind: &str, text: &str) {
        let kind = format!("kg_{call}: {kind}");
        let seen = self.differences.entry(kind.clone()).or_default();
        *seen += 1;
        if *seen <= 3 {
            println!("DIFFERENCE seed {} call {kind}\n    {text}", self.seed);
        }
    }

    /// A deliberate body was read: counted if the call's number is the body's.
    pub fn read(&mut self, call: &str, shape: Shape, place: Place, number: u32) {
        if number == shape.number() {
            return self.shapes.get_mut(&shape).expect("a shape")[place as usize] += 1;
        }
        self.differ(call, "reads a deliberate body otherwise", &format!("{}: {number}, not {}", shape.name(), shape.number()));
    }

    /// A question about a deliberate limb was asked: counted if the call's number is the limb's.
    pub fn asked(&mut self, kind: Kind, question: Question, number: u32) {
        let planned = limbs::number(kind, question);
        if number == planned {
            return *self.limbs.get_mut(&(kind, question)).expect("a planned question") += 1;
        }
        let text = format!("{}, {question:?}: {number}, not {planned}", kind.name());
        self.differ("limb_draws", "answers a deliberate limb otherwise", &text);
    }

    /// One case. `library` gets pointers to guarded copies of the buffers, `reference` gets copies; each answers one word, and the
    /// reference document 01's number too. Answers the reference's word and buffers.
    pub fn case(
        &mut self,
        call: &str,
        numbers: &[i64],
        buffers: &[(&str, &[u8])],
        library: impl FnOnce(&[*mut u8]) -> u64,
        reference: impl FnOnce(&mut [Vec<u8>]) -> (u32, u64),
    ) -> (u32, u64, Vec<Vec<u8>>) {
        let index = CALLS.iter().position(|known| *known == call).unwrap();
        CALL.store(index, Relaxed);
        let got = library(&self.lend(buffers));
        let mut after: Vec<Vec<u8>> = buffers.iter().map(|(_, bytes)| bytes.to_vec()).collect();
        let (number, want) = reference(&mut after);
        self.cases += 1;
        *self.counts.entry((index, number)).or_default() += 1;

        let sizes: Vec<String> = buffers.iter().map(|(name, bytes)| format!("{name}[{}]", bytes.len())).collect();
        let text = |what: String| format!("{} numbers {numbers:?}: {what}", sizes.join(" "));
        if got != want {
            let halves = |word: u64| format!("number {} value {}", word as u32, word >> 32);
            let kind = format!("answers {} where the reference answers {}", got as u32, want as u32);
            let kind = if call == "name" { "answers another place".into() } else { kind };
            self.differ(call, &kind, &text(format!("library {}, reference {}", halves(got), halves(want))));
        }
        for (i, (name, before)) in buffers.iter().enumerate() {
            assert!(number == 0 || after[i] == *before, "the reference changed {name} although it refused");
            if let Some((at, is, wanted)) = self.slots[i].differs(&after[i]) {
                let kind = format!("leaves another {name} (number {})", want as u32);
                self.differ(call, &kind, &text(format!("{name}, first differing byte {at}: library {is:02X}, reference {wanted:02X}")));
            }
        }
        (number, want, after)
    }

    /// The table of calls and numbers, and the numbers that no call gave.
    fn numbers(&self) -> Vec<String> {
        print!("{:>12}", "");
        NUMBERS.iter().for_each(|number| print!("{number:>9}"));
        println!();
        for (index, call) in CALLS.iter().enumerate() {
            print!("{call:>12}");
            for number in NUMBERS {
                match self.counts.get(&(index, number)) {
                    Some(count) => print!("{count:>9}"),
                    None => print!("{:>9}", "."),
                }
            }
            println!();
        }
        let sum = |number: u32| self.counts.iter().filter(|((_, n), _)| *n == number).map(|(_, count)| count).sum::<u64>();
        print!("{:>12}", "all");
        NUMBERS.iter().for_each(|number| print!("{:>9}", sum(*number)));
        println!();
        NUMBERS.into_iter().filter(|number| sum(*number) == 0).map(|number| number.to_string()).collect()
    }

    /// The numbers of `OWN` that the call never gave.
    fn own(&self) -> Vec<String> {
        let place = |name: &str| CALLS.iter().position(|call| *call == name).expect("a call");
        let all = OWN.into_iter().flat_map(|(call, numbers)| numbers.iter().map(move |number| (call, *number)));
        let missing = all.filter(|(call, number)| !self.counts.contains_key(&(place(call), *number)));
        missing.map(|(call, number)| format!("{call}'s {number}")).collect()
    }

    /// The table of deliberate bodies, and those that weren't reached in both places.
    fn bodies(&self) -> Vec<String> {
        println!("{:<32}{:>9}{:>12}{:>9}", "deliberate bodies", "number", "background", "image");
        for (shape, [background, image]) in &self.shapes {
            println!("{:<32}{:>9}{background:>12}{image:>9}", shape.name(), shape.number());
        }
        self.shapes.iter().filter(|(_, counts)| counts.contains(&0)).map(|(shape, _)| shape.name()).collect()
    }

    /// The table of deliberate limbs, and the questions that weren't asked.
    fn limbs(&self) -> Vec<String> {
        limbs::print(|kind, question| self.limbs[&(kind, question)]);
        let missing = self.limbs.iter().filter(|(_, count)| **count == 0);
        missing.map(|((kind, question), _)| format!("limb with {}, {question:?}", kind.name())).collect()
    }

    /// The table of rooms and stamps with a transparent index, and what wasn't reached of it.
    fn clears(&self) -> Vec<String> {
        println!("transparent indexes");
        self.clears.report(&clear_count::planned())
    }

    /// The table of deliberate casts, and those that weren't made.
    fn casts(&self) -> Vec<String> {
        println!("deliberate casts");
        self.casts.report(&cast_count::planned())
    }

    /// The table of deliberate listings, and those that weren't made.
    fn lists(&self) -> Vec<String> {
        println!("deliberate listings");
        self.lists.report(&list_count::planned())
    }

    /// The table of the places of faults, and the kinds that were never told.
    fn places(&self) -> Vec<String> {
        println!("places of faults: {}", self.places.counts.values().sum::<u64>());
        self.places.report(&place_count::planned())
    }

    /// The tables, and whether all is well; a full run must have reached everything.
    pub fn report(&self, full: bool) -> bool {
        let mut missing = self.numbers();
        if full {
            missing.extend(self.bodies());
            missing.extend(self.limbs());
            missing.extend(self.ends.report());
            missing.extend(self.own());
            missing.extend(self.pairs.report());
            missing.extend(self.clears());
            missing.extend(self.casts());
            missing.extend(self.lists());
            missing.extend(self.places());
        }
        if full && !missing.is_empty() {
            println!("never reached: {missing:?}");
        }
        for (kind, count) in &self.differences {
            println!("{count} times {kind}");
        }
        let differences: u64 = self.differences.values().sum();
        println!("{} cases, {differences} differences", self.cases);
        differences == 0 && (missing.is_empty() || !full)
    }
}

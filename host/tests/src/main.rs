//! Differential tests: the library's C interface against the reference.
//!
//!     tests [SEEDS]          seeds 0 to SEEDS − 1, the planned ends of bodies, pairs of rooms, transparent indexes, casts and listings, then
//!                            the tables
//!     tests soak SECONDS     new seeds until the time is over, and the same
//!     tests seed SEED        one seed again
//!     tests room FILE        the calls on a room from a file
//!     tests speed            library : reference for loads of 640 × 200 rooms

mod actor_scenes;
mod calls;
mod cast_count;
mod cast_faults;
mod cast_keys;
mod cast_laws;
mod cast_refused;
mod cast_scenes;
mod casts;
mod clear_blocks;
mod clear_calls;
mod clear_count;
mod clear_faults;
mod clear_images;
mod clear_rooms;
mod clear_scenes;
mod compare_scenes;
mod comparison;
mod costume_scenes;
mod damage;
mod end_count;
mod end_scenes;
mod ends;
mod lent;
mod limbs;
mod list_count;
mod list_laws;
mod list_rooms;
mod list_scenes;
mod maker;
mod pair_count;
mod pair_rooms;
mod pairs;
mod place_count;
mod place_scenes;
mod place_strips;
mod places;
mod planned;
mod point_scenes;
mod recode;
mod rng;
mod room_scenes;
mod rooms;
mod session_scenes;
mod shape_scenes;
mod shapes;
mod stages;
mod strips;
mod tree;
mod writer_scenes;

use comparison::Comparison;
use rng::Rng;
use std::time::{Duration, Instant, SystemTime};

/// About 90 seconds on one core.
const SEEDS: u64 = 100_000;

/// A seed from here on is a code's planned ends of bodies. A full run takes one for each code, so that none is left to chance.
const ENDS: u64 = 1 << 63;

/// A seed from here on is a planned pair of rooms. A full run takes each of them.
const PAIRS: u64 = 3 << 62;

/// A seed from here on is a planned scene with a transparent index. A full run takes each of them.
const CLEARS: u64 = 7 << 61;

/// A seed from here on is a planned scene with casts. A full run takes each of them.
const CASTS: u64 = 15 << 60;

/// A seed from here on is a planned scene with listings. A full run takes each of them.
const LISTS: u64 = 31 << 59;

fn run(b: &mut Comparison, seed: u64) {
    let r = &mut b.scene(seed);
    match seed {
        LISTS.. => list_scenes::planned(b, r, (seed - LISTS) as usize),
        CASTS.. => cast_scenes::planned(b, r, (seed - CASTS) as usize),
        CLEARS.. => clear_scenes::planned(b, r, (seed - CLEARS) as usize),
        PAIRS.. => compare_scenes::planned(b, r, (seed - PAIRS) as usize),
        ENDS.. => end_scenes::planned(b, r, (seed - ENDS) as usize),
        _ => random(b, r, seed % 40),
    }
}

/// A scene of one of 40 kinds, some of which are rare.
fn random(b: &mut Comparison, r: &mut Rng, kind: u64) {
    match kind {
        0..=4 => room_scenes::good(b, r),
        5 => list_scenes::lists(b, r),
        6 => compare_scenes::versions(b, r),
        7..=11 => room_scenes::damaged(b, r),
        12 => compare_scenes::strangers(b, r),
        13..=15 => room_scenes::order(b, r),
        16 => room_scenes::bodies(b, r),
        17 | 18 => room_scenes::flipped(b, r),
        19 => room_scenes::arbitrary(b, r),
        20 if r.once_in(8) => room_scenes::every_cut(b, r),
        20 if r.once_in(8) => end_scenes::any_end(b, r),
        20 if r.once_in(4) => clear_scenes::any(b, r),
        20 if r.once_in(2) => place_scenes::images(b, r),
        21 if r.once_in(40) => room_scenes::at_the_limit(b, r),
        21 if r.once_in(2) => shape_scenes::every_shape(b, r),
        20 | 21 => room_scenes::damaged(b, r),
        22 if r.once_in(4) => actor_scenes::every_point(b, r),
        22 => actor_scenes::questions(b, r),
        23 if r.once_in(4) => actor_scenes::every_offset(b, r),
        23 => actor_scenes::stamps(b, r),
        24 => cast_scenes::casts(b, r),
        25 | 26 => {
            costume_scenes::arbitrary(b, r);
            costume_scenes::questions(b, r);
        }
        27 => costume_scenes::playing(b, r),
        28 | 29 => writer_scenes::pictures(b, r),
        30 | 31 => writer_scenes::planes(b, r),
        32 if r.once_in(4) => session_scenes::long_list(b, r),
        32..=34 => session_scenes::list(b, r),
        35 | 36 => session_scenes::strangers(b, r),
        37 | 38 => session_scenes::changed_rooms(b, r),
        _ => point_scenes::points(b, r),
    }
}

fn soak(b: &mut Comparison, seconds: u64) {
    let now = SystemTime::now().duration_since(SystemTime::UNIX_EPOCH).expect("a clock").as_secs();
    let (begun, mut told) = (Instant::now(), Instant::now());
    let mut seed = now << 24;
    println!("first seed {seed}");
    while begun.elapsed() < Duration::from_secs(seconds) {
        run(b, seed);
        seed += 1;
        if told.elapsed() >= Duration::from_secs(20) {
            println!("{:>6} s, {} cases", begun.elapsed().as_secs(), b.cases);
            told = Instant::now();
        }
    }
}

/// Interleaved loads of a 640 × 200 room with four planes; the best time of each.
fn speed(seed: u64) {
    let plan = rooms::room_of(&mut rng::Rng::new(seed), 640, 200, 4);
    let room = plan.root.write();
    let (mut session, mut pixels, mut masks) = (vec![0; 450], vec![0; 640 * 200], vec![0; 4 * 80 * 200]);
    let mut best = [f64::MAX; 2];
    for round in 0..200 {
        let begun = Instant::now();
        let number = calls::bare_load(&room, &mut session, &mut pixels, &mut masks, round % 2 == 0);
        assert_eq!(number, 0, "the room of the speed test");
        best[round % 2] = best[round % 2].min(begun.elapsed().as_secs_f64() * 1e3);
    }
    let [library, reference] = best;
    let ratio = reference / library;
    println!("load of 640 x 200, {} bytes: library {library:.3} ms, reference {reference:.3} ms, 1 : {ratio:.2}", room.len());
}

fn main() {
    let arguments: Vec<String> = std::env::args().skip(1).collect();
    let number = |i: usize| arguments.get(i).and_then(|text| text.parse::<u64>().ok());
    let b = &mut Comparison::new();
    let mut full = true;
    match arguments.first().map(String::as_str) {
        Some("speed") => return (1..=4).for_each(speed),
        Some("room") => {
            full = false;
            room_scenes::given(b, &std::fs::read(arguments.get(1).expect("tests room FILE")).expect("a room's file"));
        }
        Some("soak") => soak(b, number(1).expect("tests soak SECONDS")),
        Some("seed") => {
            full = false;
            run(b, number(1).expect("tests seed SEED"));
        }
        Some(_) => (0..number(0).expect("tests [SEEDS]")).for_each(|seed| run(b, seed)),
        None => (0..SEEDS).for_each(|seed| run(b, seed)),
    }
    if full {
        (ENDS..ENDS + ends::codes().len() as u64).for_each(|seed| run(b, seed));
        (PAIRS..PAIRS + pairs::planned().len() as u64).for_each(|seed| run(b, seed));
        (CLEARS..CLEARS + clear_count::scenes().len() as u64).for_each(|seed| run(b, seed));
        (CASTS..CASTS + cast_count::scenes().len() as u64).for_each(|seed| run(b, seed));
        (LISTS..LISTS + list_count::scenes().len() as u64).for_each(|seed| run(b, seed));
    }
    if !b.report(full) {
        std::process::exit(1);
    }
}

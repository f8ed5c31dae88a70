//! How fast the library is: ratios to partners of each call's own, measured in turns in one run. host/bench starts it.
//!
//!     benchmark                  every table, two to three minutes; then whether the goals are met. The exit status is 0 either way
//!     benchmark quick            everything once in a few seconds: the comparisons count, the times don't
//!     benchmark --instructions   instructions a pixel for the loads and of calls that paint, where valgrind is on the machine
//!     benchmark against FILES    how many times as long as those of the last four shared objects the calls of the first four take
//!     benchmark ROOM             how long the load and the whole test of one room take
//!
//! Before a thing is timed, its result is compared, byte by byte, with the reference's and with that of every other partner.

mod against;
mod calls;
mod casts;
mod class;
mod clock;
mod compares;
mod count;
mod draws;
mod goal;
mod growth;
mod listing;
mod loads;
mod own;
mod partners;
mod pass;
mod picture;
mod room;
mod stamps;
mod steps;
mod writers;

use clock::Effort;
use goal::Goals;
use std::hint::black_box;

/// A reference built with overflow checks or debug assertions would be too easy a partner.
fn fair() -> bool {
    std::panic::set_hook(Box::new(|_| ()));
    let wraps = std::panic::catch_unwind(|| black_box(255u8) + black_box(1)).is_ok();
    let _ = std::panic::take_hook();
    wraps && !cfg!(debug_assertions)
}

fn tables(effort: Effort) {
    let goals = &mut Goals::default();
    println!("Partners. plain: the usual decoder in C, one operation at a time, a bit at a time, with no test and no colour looked up (partners/plain.c).");
    println!("pass: a faster decoder in Rust, up to 64 bits at a time, with no test (src/pass.rs). loop, encoder: a stamp and the writers in plain C, with");
    println!("no test. ref: host/reference, document 01 as Rust, with all tests. C by {}.\n", partners::COMPILER);
    loads::tables(effort, goals);
    steps::tables(effort, goals);
    draws::tables(effort, goals);
    listing::tables(effort, goals);
    stamps::tables(effort, goals);
    writers::tables(effort, goals);
    growth::tables(effort, goals);
    compares::tables(effort, goals);
    casts::tables(effort, goals);
    match effort {
        Effort::Full => goals.print(),
        Effort::Quick => println!("quick: all results agree; the times were taken once and mean little"),
    }
}

/// Ends with status 1 where a table can't be made.
fn told(made: Result<(), String>) {
    if let Err(why) = made {
        eprintln!("benchmark: {why}");
        std::process::exit(1);
    }
}

fn main() {
    if !fair() {
        eprintln!("benchmark: built with overflow checks or debug assertions; host/bench builds it right");
        std::process::exit(2);
    }
    let arguments: Vec<String> = std::env::args().skip(1).collect();
    match arguments.iter().map(String::as_str).collect::<Vec<&str>>()[..] {
        [] => tables(Effort::Full),
        ["quick"] => tables(Effort::Quick),
        ["--instructions"] => count::tables(),
        [count::INSIDE] => count::inside(),
        ["against", a, b, c, d, e, f, g, h] => told(against::table(&[a, b, c, d, e, f, g, h])),
        [room] if !room.starts_with('-') => told(own::table(room)),
        _ => {
            eprintln!("usage: benchmark [quick | --instructions | against FILES | ROOM]");
            std::process::exit(2);
        }
    }
}

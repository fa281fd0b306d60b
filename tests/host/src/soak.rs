//! Hostile calls on the library `moachest` through its C interface:
//!   soak CALLS SEED             lives from SEED on until so many calls are made
//!   soak life SEED              one life, each call printed
//! With a file named in SOAK_LIFE the number of the life stands there while it runs.
//! Every call is held against the oracle's reading of document 01 on the same slots.

#[allow(dead_code)]
#[path = "../../oracle/src/beyond.rs"]
mod beyond;
#[path = "soak/bend.rs"]
mod bend;
#[allow(dead_code)]
mod checksum;
#[allow(dead_code)]
mod disk;
#[path = "soak/guard.rs"]
mod guard;
#[path = "soak/judge.rs"]
mod judge;
#[path = "soak/lends.rs"]
mod lends;
#[allow(dead_code)]
mod library;
#[path = "soak/life.rs"]
mod life;
#[path = "soak/model.rs"]
mod model;
#[path = "soak/plan.rs"]
mod plan;
#[path = "soak/predict.rs"]
mod predict;
#[allow(dead_code)]
#[path = "../../oracle/src/random.rs"]
mod random;
#[allow(dead_code)]
#[path = "soak/reading.rs"]
mod reading;
#[allow(dead_code)]
#[path = "../../oracle/src/session.rs"]
mod session;
#[allow(dead_code)]
#[path = "../../oracle/src/setup.rs"]
mod setup;
#[allow(dead_code)]
#[path = "../../oracle/src/strict.rs"]
mod strict;
#[path = "soak/totals.rs"]
mod totals;
#[allow(dead_code)]
#[path = "../../oracle/src/words.rs"]
mod words;

use lends::Guards;
use life::{End, Life};
use totals::Totals;

/// How many faults end a soak.
const ENOUGH: u64 = 5;

/// One life; true if nothing was wrong.
fn one(seed: u64, guards: &mut Guards, totals: &mut Totals, told: bool) -> bool {
    totals.lives += 1;
    let mut life = Life::new(seed, guards, totals);
    life.told = told;
    match life.live() {
        Err(End::Fault(why)) => {
            println!("life {seed}: {}", why.chars().take(600).collect::<String>());
            false
        }
        _ => true,
    }
}

fn soak(calls: u64, first: u64) -> bool {
    let (mut guards, mut totals, mut wrong) = (Guards::new(), Totals::default(), 0);
    let (mut seed, at) = (first, std::env::var_os("SOAK_LIFE"));
    while totals.calls < calls && wrong < ENOUGH {
        // Where the library faults, this says in which life.
        if let Some(file) = &at {
            std::fs::write(file, seed.to_string()).expect("the file for the life can be written");
        }
        wrong += !one(seed, &mut guards, &mut totals, false) as u64;
        seed += 1;
    }
    totals.print();
    println!("lives {first} to {}, {wrong} wrong", seed - 1);
    wrong == 0
}

fn main() {
    // A panic in the reading means that it does not tell; its message would only disturb.
    std::panic::set_hook(Box::new(|why| {
        if !why.location().is_some_and(|l| l.file().contains("oracle")) && !why.location().is_some_and(|l| l.file().contains("library")) {
            eprintln!("{why}");
        }
    }));
    let words: Vec<String> = std::env::args().skip(1).collect();
    let words: Vec<&str> = words.iter().map(String::as_str).collect();
    let number = |w: &str| w.parse::<u64>().ok();
    let done = match words[..] {
        ["life", seed] => number(seed).map(|s| one(s, &mut Guards::new(), &mut Totals::default(), true)),
        [calls, seed] => number(calls).zip(number(seed)).map(|(c, s)| soak(c, s)),
        _ => None,
    };
    std::process::exit(match done {
        Some(true) => 0,
        Some(false) => 1,
        None => {
            eprintln!("soak CALLS SEED | soak life SEED");
            2
        }
    });
}

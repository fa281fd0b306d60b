//! Speaks the script language over the library `moachest`:
//!   host [--trusted] < SCRIPT
//! `--trusted` has calls on a tree that was opened here leave out refusal 1 of its slots.

// The oracle's files ask their sums of a crate of this name, and byte order of a module of that one.
extern crate self as apfs;

pub mod checksum;
mod disk;
mod library;
mod runner;
#[allow(dead_code)]
#[path = "../../oracle/src/strict.rs"]
mod strict;
mod walk;
#[allow(dead_code)]
#[path = "../../oracle/src/words.rs"]
mod words;
mod workspace;

mod session {
    pub fn byte_order(a: &[u8], b: &[u8]) -> std::cmp::Ordering {
        a.cmp(b)
    }
}

use std::io::{BufRead, Write};

fn main() {
    let options: Vec<String> = std::env::args().skip(1).collect();
    if options.iter().any(|o| o != "--trusted") {
        eprintln!("host [--trusted] < SCRIPT");
        std::process::exit(2);
    }
    let mut runner = runner::Runner::new(!options.is_empty());
    let mut out = std::io::BufWriter::new(std::io::stdout().lock());
    for line in std::io::stdin().lock().lines().map_while(Result::ok) {
        if let Some(answer) = runner.run(&line) {
            writeln!(out, "{answer}").expect("standard output takes the answer");
        }
    }
}

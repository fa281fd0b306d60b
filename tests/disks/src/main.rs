//! Edits real APFS containers, made by `mkapfs`, through the editor, and has `apfsck` judge every result.

mod bench;
mod bytes;
mod cases;
mod container;
mod disk;
mod editor;
mod judge;
mod keys;
mod model;
mod node;
mod plan;
mod queue;
mod random;
mod records;
mod space;
mod transaction;
mod volume;

use std::path::Path;

const USE: &str = "disks DIRECTORY [CASE ..]             all cases, or those named; containers are made in DIRECTORY
disks DIRECTORY soak FIRST COUNT      random cases, from a seed on";

fn main() {
    let words: Vec<String> = std::env::args().skip(1).collect();
    let words: Vec<&str> = words.iter().map(String::as_str).collect();
    let wrong = match &words[..] {
        [directory, "soak", first, count] => match (first.parse(), count.parse()) {
            (Ok(first), Ok(count)) => cases::soak(Path::new(directory), first, count),
            _ => return eprintln!("{USE}"),
        },
        [directory, chosen @ ..] => cases::run(Path::new(directory), chosen),
        [] => return eprintln!("{USE}"),
    };
    println!("{wrong} cases went wrong");
    std::process::exit((wrong > 0) as i32);
}

//! `moachest`: object maps and B-trees of APFS images, over the proved library. `help.txt` says what it does.

mod args;
mod failure;
mod free;
mod image;
mod node;
mod omap;
mod show;
mod trees;
mod verify;

use std::io::{self, Write};
use std::process::ExitCode;

use args::Args;
use failure::Failure;

/// What a command prints is collected, so that one that fails half-way prints nothing but why.
fn run(words: &[String]) -> Result<String, Failure> {
    let words: Vec<&str> = words.iter().map(String::as_str).collect();
    match words[..] {
        [] | ["help"] | ["--help" | "-h"] => Ok(include_str!("help.txt").to_string()),
        [.., "--help" | "-h"] => Ok(include_str!("help.txt").to_string()),
        ["omap", "list", ref rest @ ..] => omap::list(Args::read(rest)?),
        ["omap", "get", ref rest @ ..] => omap::get(Args::read(rest)?),
        ["omap", "put", ref rest @ ..] => omap::put(Args::read(rest)?),
        ["omap", "drop", ref rest @ ..] => omap::drop(Args::read(rest)?),
        ["tree", "show", ref rest @ ..] => show::show(Args::read(rest)?),
        ["verify", ref rest @ ..] => verify::verify(Args::read(rest)?),
        _ => Err(Failure::usage("there is no such command")),
    }
}

fn main() -> ExitCode {
    let words: Vec<String> = std::env::args().skip(1).collect();
    match run(&words) {
        Ok(text) => match io::stdout().write_all(text.as_bytes()) {
            Ok(()) => ExitCode::SUCCESS,
            Err(_) => ExitCode::from(failure::FILES),
        },
        Err(failure) => {
            eprintln!("moachest: {failure}");
            ExitCode::from(failure.code())
        }
    }
}

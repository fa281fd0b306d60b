//! The oracle: the published Rust, driven by scripts.

mod beyond;
mod compare;
mod generate;
mod plain_list;
mod random;
mod reading;
mod session;
mod setup;
mod shrink;
mod soak;
mod strict;
mod words;

use std::io::{BufRead, Write};

/// Answers the script on standard input. Options: `--keep-traces` goes on from what the Rust leaves
/// after a refusal; `--why` says on standard error why a line is refused, and where document 01 parts.
fn run(options: &[&str]) {
    let mut session = session::Session::new();
    session.keep_traces = options.contains(&"--keep-traces");
    session.watch = options.contains(&"--why");
    let mut out = std::io::BufWriter::new(std::io::stdout().lock());
    for line in std::io::stdin().lock().lines() {
        let Ok(line) = line else { break };
        if let Some(answer) = session.run(&line) {
            writeln!(out, "{answer}").expect("standard output takes the answer");
            if session.watch && answer.ends_with(" refused)") {
                eprintln!("{answer}: {}", session.why);
            }
            if let Some(why) = session.parted {
                eprintln!("{}: document 01 parts: {why}", compare::shortened(&line));
            }
        }
    }
}

/// Answers the script on standard input as document 01 reads.
fn demand() {
    let mut reading = reading::Reading::new();
    for line in std::io::stdin().lock().lines().map_while(Result::ok) {
        if let Some(answer) = reading.run(&line) {
            println!("{answer}");
        }
    }
}

fn generate(seed: u64, options: &[&str]) -> Result<bool, String> {
    generate::script(seed, options)?.iter().for_each(|l| println!("{l}"));
    Ok(true)
}

fn number(word: &str) -> Result<u64, String> {
    word.parse().map_err(|_| format!("{word} is no number"))
}

const USE: &str = "oracle run [--keep-traces] [--why]       answers the script on standard input
oracle demand                            answers as document 01 demands
oracle generate SEED [OPTION=VALUE ..]   prints a script
oracle soak FIRST LINES [OPTION=VALUE ..] runs scripts from seed FIRST on until LINES lines are done
oracle compare FIRST COUNT COMMAND [OPTION=VALUE ..] compares COMMAND over COUNT seeds";

fn command(words: &[&str]) -> Result<bool, String> {
    match words {
        ["run", options @ ..] => run(options),
        ["demand"] => demand(),
        ["generate", seed, options @ ..] => return generate(number(seed)?, options),
        ["soak", first, lines, options @ ..] => return Ok(soak::run(number(first)?, number(lines)?, options)),
        ["compare", first, count, other, options @ ..] => return compare::run(number(first)?, number(count)?, other, options),
        _ => return Err(USE.into()),
    }
    Ok(true)
}

fn main() {
    // A panic in the Rust is a refusal; its message would only disturb.
    std::panic::set_hook(Box::new(|_| {}));
    let words: Vec<String> = std::env::args().skip(1).collect();
    let words: Vec<&str> = words.iter().map(String::as_str).collect();
    let done = command(&words).unwrap_or_else(|why| {
        eprintln!("{why}");
        std::process::exit(2);
    });
    std::process::exit(if done { 0 } else { 1 });
}

//! Runs the scripts of many seeds and looks whether the oracle misbehaves: a script run afresh must give
//! the answers that it gave while it was made, and those must be the plain list's.

use std::collections::BTreeMap;
use std::time::Instant;

use crate::compare::shortened;
use crate::generate;
use crate::plain_list::PlainList;
use crate::session::Session;
use crate::shrink;

#[derive(Default)]
struct Totals {
    scripts: u64,
    lines: u64,
    answers: u64,
    refused: u64,
    errors: u64,
    left_out: BTreeMap<&'static str, u64>,
    why: BTreeMap<String, u64>,
    levels: BTreeMap<u16, u64>,
}

impl Totals {
    /// Counts why calls are refused (numbers in the Rust's words left out) and how high trees are.
    fn note(&mut self, session: &Session, line: &str, answer: &str) {
        if answer.ends_with(" refused)") {
            self.refused += 1;
            let why: String = session.why.split(' ').filter(|w| !w.contains(|c: char| c.is_ascii_digit())).collect::<Vec<_>>().join(" ");
            *self.why.entry(format!("{} {why}", line.split(' ').next().unwrap_or(""))).or_default() += 1;
        }
        if let Some((tree, _)) = &session.tree {
            *self.levels.entry(tree.root_level()).or_default() += 1;
        }
    }
}

/// Whether a script that stays on common ground goes against the plain list.
fn goes_wrong(lines: &[String]) -> bool {
    let mut session = Session::new();
    session.watch = true;
    let mut list = PlainList::default();
    for line in lines {
        let Some(answer) = session.run(line) else { continue };
        if session.parted.is_some() {
            return false;
        }
        if list.feed(&mut session, line, &answer).is_err() {
            return true;
        }
    }
    false
}

/// One script, from its text alone. An error names the line, and gives a small script with the same fault.
fn one(seed: u64, options: &[&str], totals: &mut Totals) -> Result<(), String> {
    let made = generate::made(seed, options)?;
    made.left_out.iter().for_each(|why| *totals.left_out.entry(why).or_default() += 1);
    let mut session = Session::new();
    let mut list = PlainList::default();
    totals.scripts += 1;
    for (line, before) in made.lines.iter().zip(&made.answers) {
        let Some(answer) = session.run(line) else { continue };
        if answer != *before {
            return Err(format!("seed {seed}: {}\nanswered otherwise while it was made", shortened(line)));
        }
        totals.lines += 1;
        totals.answers += answer.lines().count() as u64;
        totals.note(&session, line, &answer);
        totals.errors += (answer == "(error)") as u64;
        if let Err(why) = list.feed(&mut session, line, &answer) {
            let small = shrink::script(&goes_wrong, &made.lines).join("\n");
            return Err(format!("seed {seed}: {}\n{}\n{}\n{small}", shortened(line), shortened(&answer), shortened(&why)));
        }
    }
    Ok(())
}

/// Seeds from `first` on until so many script lines have run. False if something was wrong.
pub fn run(first: u64, lines: u64, options: &[&str]) -> bool {
    let start = Instant::now();
    let mut totals = Totals::default();
    let mut seed = first;
    let mut wrong = 0;
    while totals.lines < lines {
        if let Err(why) = one(seed, options, &mut totals) {
            println!("{why}");
            wrong += 1;
            if wrong > 5 {
                break;
            }
        }
        seed += 1;
    }
    println!(
        "seeds {first} to {}: {} scripts, {} lines, {} answer lines, {} refused, {} errors, {wrong} wrong, {:.0} s",
        seed - 1,
        totals.scripts,
        totals.lines,
        totals.answers,
        totals.refused,
        totals.errors,
        start.elapsed().as_secs_f64()
    );
    totals.left_out.iter().for_each(|(why, n)| println!("left out {n} lines: {why}"));
    totals.levels.iter().for_each(|(level, n)| println!("{n} lines with a root at level {level}"));
    totals.why.iter().for_each(|(why, n)| println!("refused {n} times: {why}"));
    wrong == 0
}

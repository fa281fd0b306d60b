//! Holds the answers of another program against the oracle's, script by script.

use std::io::{Read, Write};
use std::process::{Command, Stdio};

use crate::generate::plan::is_whole_ground;
use crate::generate;
use crate::reading::Reading;
use crate::session::Session;
use crate::shrink;

const CALLS: [&str; 9] = ["open", "get", "floor", "range", "upsert", "remove", "put", "drop", "flush"];

/// A refusal without its number: the Rust has none.
pub fn without_number(answer: &str) -> String {
    let words: Vec<&str> = answer.trim_start_matches('(').trim_end_matches(')').split(' ').collect();
    match words.as_slice() {
        [name, r] if CALLS.contains(name) && r.parse::<u64>().is_ok_and(|n| n != 0) => format!("({name} refused)"),
        ["walk", "refused", _] => "(walk refused)".into(),
        _ => answer.into(),
    }
}

/// What a program answers to a script, line by line.
pub fn answers_of(command: &str, script: &[String]) -> std::io::Result<Vec<String>> {
    let mut child = Command::new("sh").args(["-c", command]).stdin(Stdio::piped()).stdout(Stdio::piped()).spawn()?;
    let mut input = child.stdin.take().expect("standard input is piped");
    let text = script.join("\n") + "\n";
    // Written beside the reading: both pipes are short. A program may stop reading early.
    let writing = std::thread::spawn(move || input.write_all(text.as_bytes()).is_ok());
    let mut out = Vec::new();
    child.stdout.take().expect("standard output is piped").read_to_end(&mut out)?;
    let _ = writing.join();
    child.wait()?;
    Ok(String::from_utf8_lossy(&out).lines().map(String::from).collect())
}

/// Who says what is right: the Rust, on common ground and without numbers, or the reading of document 01.
#[derive(Clone, Copy)]
pub enum Judge {
    Rust,
    Reading,
}

impl Judge {
    /// The right answers with the number of the script line that each belongs to; none where the script
    /// leaves the judge's ground.
    fn answers(self, script: &[String]) -> Option<Vec<(usize, String)>> {
        match self {
            Judge::Rust => oracle_answers(script),
            Judge::Reading => {
                let mut reading = Reading::new();
                let answers = script.iter().enumerate().map(|(i, l)| (i, reading.run(l).unwrap_or_default()));
                Some(answers.flat_map(|(i, a)| a.lines().map(|l| (i, l.to_string())).collect::<Vec<_>>()).collect())
            }
        }
    }

    /// Whether an answer is right.
    fn accepts(self, right: &str, answer: &str) -> bool {
        match self {
            Judge::Rust => right == without_number(answer),
            Judge::Reading => right == answer,
        }
    }

    /// The first place where a program goes wrong.
    fn difference(self, right: &[(usize, String)], other: &[String]) -> Option<Difference> {
        let last = right.last().map_or(0, |o| o.0);
        (0..right.len().max(other.len())).find_map(|i| {
            let (line, ours) = right.get(i).map_or((last, "nothing"), |o| (o.0, o.1.as_str()));
            let theirs = other.get(i).map_or("nothing", String::as_str);
            (!self.accepts(ours, theirs)).then(|| Difference { line, right: ours.into(), other: theirs.into() })
        })
    }

    /// Whether a program goes wrong first in a call of this name.
    fn differs_in(self, name: &str, command: &str, script: &[String]) -> bool {
        let Some(right) = self.answers(script) else { return false };
        let Ok(other) = answers_of(command, script) else { return false };
        self.difference(&right, &other).is_some_and(|d| call_name(&script[d.line]) == name)
    }
}

/// The oracle's answers with the number of the script line that each belongs to; none where document 01
/// parts from the Rust in some line.
pub fn oracle_answers(script: &[String]) -> Option<Vec<(usize, String)>> {
    let mut session = Session::new();
    session.watch = true;
    let mut out = Vec::new();
    for (i, line) in script.iter().enumerate() {
        if let Some(answer) = session.run(line) {
            out.extend(answer.lines().map(|a| (i, a.to_string())));
        }
        if session.parted.is_some() {
            return None;
        }
    }
    Some(out)
}

pub struct Difference {
    /// Number of the script line.
    pub line: usize,
    pub right: String,
    pub other: String,
}

/// Whether the program merely has less memory: it answers an image or slots with `(error)`.
fn past_its_limits(script: &[String], d: &Difference) -> bool {
    d.other == "(error)" && (script[d.line].starts_with("(image ") || script[d.line].starts_with("(slots "))
}

/// The first word of a line, which names its call.
fn call_name(line: &str) -> &str {
    line.trim_start_matches('(').split([' ', ')']).next().unwrap_or("")
}

pub fn shortened(text: &str) -> String {
    if text.len() > 300 { format!("{}..", &text[..300]) } else { text.into() }
}

fn report(judge: Judge, seed: u64, command: &str, script: &[String], d: &Difference) {
    println!("seed {seed}: line {} {}", d.line + 1, shortened(&script[d.line]));
    println!("  oracle  {}\n  program {}", shortened(&d.right), shortened(&d.other));
    // Nothing after the first difference is needed. A script that differs in a call of another name shows something else.
    let name = call_name(&script[d.line]);
    let small = shrink::script(&|lines| judge.differs_in(name, command, lines), &script[..=d.line]);
    println!("; {} lines after shrinking", small.len());
    small.iter().for_each(|l| println!("{l}"));
    if let Some(d) = judge.answers(&small).and_then(|o| judge.difference(&o, &answers_of(command, &small).ok()?)) {
        println!("; oracle  {}\n; program {}", shortened(&d.right), shortened(&d.other));
    }
}

/// Compares over `count` seeds. False if there is a difference; it is shrunk and printed.
pub fn run(first: u64, count: u64, command: &str, options: &[&str]) -> Result<bool, String> {
    let judge = if is_whole_ground(options) { Judge::Reading } else { Judge::Rust };
    let (mut lines, mut answers, mut passed_over, mut differ) = (0, 0, 0, 0);
    for seed in first..first + count {
        let script = generate::script(seed, options)?;
        let right = judge.answers(&script).ok_or(format!("seed {seed} leaves the common ground"))?;
        let other = answers_of(command, &script).map_err(|e| format!("{command}: {e}"))?;
        match judge.difference(&right, &other) {
            Some(d) if past_its_limits(&script, &d) => passed_over += 1,
            Some(d) => {
                report(judge, seed, command, &script, &d);
                differ += 1;
                break;
            }
            None => {
                lines += script.len();
                answers += right.len();
            }
        }
    }
    println!("{lines} script lines, {answers} answer lines compared, {passed_over} scripts past the program's limits, {differ} differ");
    Ok(differ == 0)
}

//! A script that is being written: each line is run at once, and a line whose answer lies where
//! document 01 parts from the Rust is taken back and left out.

use crate::random::Random;
use crate::words;

use super::engine::Engine;
use super::plan::Plan;

/// The script cannot go on: a tree is refused, or document 01 parts from the Rust for good.
pub struct Stop;

pub struct Writer {
    pub random: Random,
    pub plan: Plan,
    pub lines: Vec<String>,
    /// The answer to each line as it was made; empty for a comment.
    pub answers: Vec<String>,
    /// Why lines were left out.
    pub left_out: Vec<&'static str>,
    pub engine: Engine,
    /// Transaction that the next flush gets.
    pub xid: u64,
    /// Next id for nodes of a virtual tree.
    pub next: u64,
}

pub fn refused(answer: &str) -> bool {
    answer.ends_with(" refused)")
}

/// The numbers of an answer line that has the given name.
pub fn numbers(answer: &str, name: &str) -> Vec<u64> {
    let prefix = format!("({name}");
    let line = answer.lines().find(|l| l.strip_prefix(&prefix).is_some_and(|rest| rest.starts_with([' ', ')'])));
    line.map_or(Vec::new(), |l| l[prefix.len()..].trim_end_matches(')').split(' ').filter_map(|w| w.parse().ok()).collect())
}

impl Writer {
    pub fn new(random: Random, plan: Plan) -> Self {
        let engine = Engine::new(plan.whole_ground);
        Self { random, plan, lines: Vec::new(), answers: Vec::new(), left_out: Vec::new(), engine, xid: 10, next: 5000 }
    }

    /// Runs a line and keeps it. None if it was taken back.
    pub fn say(&mut self, line: String) -> Result<Option<String>, Stop> {
        let answer = self.engine.run(&line);
        let Some(why) = self.engine.parted() else {
            self.lines.push(line);
            self.answers.push(answer.clone());
            return Ok(Some(answer));
        };
        self.left_out.push(why);
        match words::line(&line) {
            Some(words::Line::Open(..) | words::Line::Flush(..)) => Err(Stop),
            _ => {
                self.engine.undo();
                Ok(None)
            }
        }
    }

    /// A line that has to be accepted for the script to go on.
    pub fn need(&mut self, line: String) -> Result<String, Stop> {
        match self.say(line)? {
            Some(answer) if !refused(&answer) && answer != "(error)" => Ok(answer),
            _ => Err(Stop),
        }
    }

    /// Whether a tree may be opened after some lines without leaving the ground. Nothing is kept.
    pub fn tried(&mut self, lines: &[String], open: &str) -> bool {
        let mut copy = self.engine.clone();
        for line in lines {
            copy.run(line);
        }
        copy.run(open);
        copy.parted().is_none()
    }
}

//! The cases: how a container is made and what is done to it.

mod data;
mod disliked;
mod maps;
mod trees;

use std::path::Path;

use crate::bench::{self, Bench};
use crate::model::Model;
use crate::plan::Plan;

pub type Done = Result<(), String>;

pub struct Case {
    pub name: &'static str,
    pub mebibytes: u64,
    pub options: &'static [&'static str],
    pub play: fn(&mut Bench) -> Done,
}

/// Container sizes and options that random cases go through.
const KINDS: [(u64, &[&str]); 3] = [(128, &[]), (160, &["-s"]), (300, &["-s", "-z"])];

/// Runs random cases from a seed on; gives how many went wrong.
pub fn soak(directory: &Path, first: u64, count: u64) -> usize {
    let wrong = |seed: &u64| {
        let (mebibytes, options) = KINDS[(seed % 3) as usize];
        let name = format!("soak-{seed}");
        !bench::report(&name, bench::run(mebibytes, options, &directory.join(&name), &|b| trees::random(b, *seed)))
    };
    (first..first + count).filter(wrong).count()
}

/// Runs all cases, or those named; gives how many went wrong.
pub fn run(directory: &Path, chosen: &[&str]) -> usize {
    let unknown = chosen.iter().filter(|n| !ALL.iter().any(|c| c.name == **n));
    let unknown = unknown.filter(|n| !bench::report(n, Err("no such case".into()))).count();
    let named = ALL.iter().filter(|c| chosen.is_empty() || chosen.contains(&c.name));
    unknown + named.filter(|c| !bench::report(c.name, bench::run(c.mebibytes, c.options, &directory.join(c.name), &c.play))).count()
}

const fn case(name: &'static str, mebibytes: u64, options: &'static [&'static str], play: fn(&mut Bench) -> Done) -> Case {
    Case { name, mebibytes, options, play }
}

pub const ALL: &[Case] = &[
    case("checkpoints", 128, &[], maps::checkpoints),
    case("container-map", 128, &[], maps::container_map),
    case("volume-map", 128, &["-s"], maps::volume_map),
    case("records", 128, &[], trees::records),
    case("records-case-sensitive", 128, &["-s"], trees::records),
    case("records-normalization-sensitive", 128, &["-s", "-z"], trees::records),
    case("random", 128, &[], |b| trees::random(b, 1)),
    case("random-case-sensitive", 300, &["-s"], |b| trees::random(b, 2)),
    case("random-normalization-sensitive", 200, &["-s", "-z"], |b| trees::random(b, 3)),
    case("many-nodes", 256, &[], trees::many_nodes),
    case("data", 256, &[], data::data),
    case("full", 160, &["-s"], data::full),
    case("disliked", 128, &[], disliked::disliked),
    case("as-stored", 128, &[], disliked::as_stored),
];

/// Commits what a change puts into a plan.
fn change(b: &mut Bench, m: &mut Model, how: impl FnOnce(&mut Model, &mut Plan)) -> Done {
    let mut plan = Plan::default();
    how(m, &mut plan);
    b.commit(&m.finish(plan), Some(m))
}

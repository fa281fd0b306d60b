//! Runs a case: every editor commits the same plans on its own copy of the container. The copies must be equal block for block, hold the
//! model's records, and be accepted by `apfsck`.

use std::panic::{catch_unwind, AssertUnwindSafe};
use std::path::Path;
use std::time::{Duration, Instant};

use crate::cases::Done;
use crate::disk::Disk;
use crate::editor::{Editor, Place};
use crate::judge::Sheet;
use crate::model::Model;
use crate::node;
use crate::plan::Plan;
use crate::transaction;
use crate::volume::Volume;

/// Slots that the library is lent.
#[cfg(library)]
const SLOTS: usize = 2048;

struct Session {
    editor: Box<dyn Editor>,
    disk: Disk,
    /// Time that its transactions took, all but the writing of the file.
    spent: Duration,
}

impl Session {
    fn commit(&mut self, plan: &Plan) -> Result<u64, String> {
        let start = Instant::now();
        let superblock = transaction::commit(&mut self.disk, self.editor.as_mut(), plan);
        self.spent += start.elapsed();
        superblock.map_err(|e| format!("{}: {e}", self.editor.name()))
    }
}

pub struct Bench {
    sessions: Vec<Session>,
    sheet: Sheet,
    figures: Figures,
}

/// Counts of a case, and the most of each seen after a transaction: entries and levels of the two maps and of the file-system tree.
#[derive(Default)]
struct Figures {
    transactions: u64,
    unjudged: u64,
    edits: usize,
    blocks: u64,
    container_map: (usize, u16),
    volume_map: (usize, u16),
    tree: (usize, u16),
    nodes: usize,
    extents: (usize, u16),
    /// Entries and levels of the two maps, and nodes of the file-system tree, after the last transaction.
    left: [usize; 5],
}

/// The library is judged where there is one: its session is the first.
fn editors(size: usize) -> Vec<Box<dyn Editor>> {
    let mut out: Vec<Box<dyn Editor>> = Vec::new();
    let _ = size;
    #[cfg(library)]
    for trusted in [false, true] {
        out.push(Box::new(crate::editor::library::Library::new(SLOTS, size, trusted)));
    }
    #[cfg(original)]
    for own_order in [false, true] {
        out.push(Box::new(crate::editor::original::Original::new(own_order)));
    }
    out
}

/// Prints what came of a case; gives whether it went well.
pub fn report(name: &str, outcome: Result<String, String>) -> bool {
    match &outcome {
        Ok(said) => println!("{name}: {said}"),
        Err(why) => println!("{name}: WRONG: {why}"),
    }
    outcome.is_ok()
}

/// Makes a container in a file, has it judged untouched, and plays a case on it. The file stays if the case goes wrong.
pub fn run(mebibytes: u64, options: &[&str], path: &Path, play: &dyn Fn(&mut Bench) -> Done) -> Result<String, String> {
    // A panic is of one case; the others go on.
    catch_unwind(AssertUnwindSafe(|| make_and_play(mebibytes, options, path, play))).unwrap_or_else(|_| Err("panic".into()))
}

fn make_and_play(mebibytes: u64, options: &[&str], path: &Path, play: &dyn Fn(&mut Bench) -> Done) -> Result<String, String> {
    let start = Instant::now();
    let (sheet, disk) = Sheet::make(path, mebibytes, options)?;
    sheet.judge().map_err(|e| format!("untouched: {e}"))?;
    let sessions = editors(disk.size).into_iter().map(|editor| Session { editor, disk: disk.clone(), spent: Duration::ZERO }).collect();
    let mut bench = Bench { sessions, sheet, figures: Figures::default() };
    play(&mut bench)?;
    let _ = std::fs::remove_file(path);
    let spent: Vec<String> = bench.sessions.iter().map(|s| format!("{} {:.1} s", s.editor.name(), s.spent.as_secs_f64())).collect();
    Ok(format!("{}; {}; in all {:.1} s", bench.figures.said(), spent.join(", "), start.elapsed().as_secs_f64()))
}

impl Bench {
    pub fn disk(&self) -> &Disk {
        &self.sessions[0].disk
    }

    pub fn commit(&mut self, plan: &Plan, model: Option<&Model>) -> Result<(), String> {
        let number = self.figures.transactions + 1;
        self.commit_all(plan, model).map_err(|e| format!("transaction {number}: {e}"))
    }

    /// Commits a plan so many times without a judgement.
    pub fn commit_unjudged(&mut self, plan: &Plan, times: u64) -> Result<(), String> {
        self.figures.unjudged += times;
        (0..times).try_for_each(|_| self.sessions.iter_mut().try_for_each(|s| s.commit(plan).map(|_| ())))
    }

    fn commit_all(&mut self, plan: &Plan, model: Option<&Model>) -> Result<(), String> {
        let block_0 = self.disk().block(0).to_vec();
        let mut superblock = 0;
        for s in &mut self.sessions {
            superblock = s.commit(plan)?;
        }
        let (first, others) = self.sessions.split_first().expect("an editor");
        for other in others {
            compare(first, other)?;
        }
        if model.is_some_and(|m| !m.is_on(&first.disk)) {
            return Err("the file-system tree does not hold the model's records".into());
        }
        self.figures.add(&first.disk, plan);
        self.figures.blocks += self.sheet.write(&first.disk.image)?;
        self.sheet.judge()?;
        self.sheet.judge_before(superblock, &block_0)
    }
}

/// Cases in which something must go wrong. The container is then put back as it was.
impl Bench {
    /// `apfsck` must say these words of what a plan leaves.
    pub fn disliked(&mut self, plan: &Plan, words: &str) -> Result<(), String> {
        let before: Vec<Disk> = self.sessions.iter().map(|s| s.disk.clone()).collect();
        for s in &mut self.sessions {
            s.commit(plan)?;
        }
        let (first, others) = self.sessions.split_first().expect("an editor");
        others.iter().try_for_each(|other| compare(first, other))?;
        self.sheet.write(&first.disk.image)?;
        let verdict = self.sheet.judge();
        self.put_back(before)?;
        match verdict {
            Err(said) if said.ends_with(words) => Ok(()),
            other => Err(format!("{words:?} was to be said, not {other:?}")),
        }
    }

    /// Each editor must refuse a plan with one of these answers, and leave the image as it was.
    pub fn refused(&mut self, plan: &Plan, answers: &[&str]) -> Result<(), String> {
        for s in &mut self.sessions {
            let before = s.disk.clone();
            let answer = s.commit(plan);
            let kept = s.disk.image == before.image;
            s.disk = before;
            if !kept {
                return Err(format!("{} refused, but changed the image", s.editor.name()));
            }
            if !answer.as_ref().is_err_and(|e| answers.iter().any(|a| e.ends_with(a))) {
                return Err(format!("{} answered {answer:?}", s.editor.name()));
            }
        }
        Ok(())
    }

    /// The library must refuse to open a tree with this answer. The original checks less.
    pub fn not_opened(&mut self, place: Place, answer: &str) -> Result<(), String> {
        for s in self.sessions.iter_mut().filter(|s| s.editor.checks_nodes()) {
            let given = s.editor.open(&mut s.disk, place);
            if given != Err(answer.into()) {
                return Err(format!("{} answered {given:?}", s.editor.name()));
            }
        }
        Ok(())
    }

    fn put_back(&mut self, before: Vec<Disk>) -> Result<(), String> {
        self.sessions.iter_mut().zip(before).for_each(|(s, disk)| s.disk = disk);
        self.sheet.write(&self.sessions[0].disk.image).map(|_| ())
    }
}

fn compare(a: &Session, b: &Session) -> Result<(), String> {
    if a.disk.image == b.disk.image && a.disk.bitmap == b.disk.bitmap && a.disk.free == b.disk.free {
        return Ok(());
    }
    let pairs = a.disk.image.chunks(a.disk.size).zip(b.disk.image.chunks(a.disk.size));
    let differing: Vec<usize> = pairs.enumerate().filter(|(_, (x, y))| x != y).map(|(i, _)| i).take(8).collect();
    Err(format!("{} and {} differ, first in blocks {differing:?}", a.editor.name(), b.editor.name()))
}

impl Figures {
    fn add(&mut self, disk: &Disk, plan: &Plan) {
        let volume = Volume::read(disk);
        let most = |to: &mut (usize, u16), entries: usize, levels: u16| *to = (to.0.max(entries), to.1.max(levels));
        let (outer, outer_levels) = node::object_map(disk, volume.container_map);
        most(&mut self.container_map, outer.len(), outer_levels);
        let (map, levels) = node::object_map(disk, volume.volume_map);
        most(&mut self.volume_map, map.len(), levels);
        let nodes = volume.nodes(disk);
        self.left = [outer.len(), outer_levels as usize, map.len(), levels as usize, nodes.len()];
        most(&mut self.tree, node::records(disk, &nodes).len(), node::level(disk.block(nodes[0])) + 1);
        self.nodes = self.nodes.max(nodes.len());
        let nodes = volume.extent_nodes(disk);
        most(&mut self.extents, node::records(disk, &nodes).len(), node::level(disk.block(nodes[0])) + 1);
        self.transactions += 1;
        self.edits += plan.records.len() + plan.extents.len() + plan.volume_map.len() + plan.container_map.len() + plan.copies.len();
    }

    fn said(&self) -> String {
        let tree = |name: &str, (entries, levels): (usize, u16)| format!("{name} {entries}/{levels}");
        let trees = [
            tree("container's map", self.container_map),
            tree("volume's map", self.volume_map),
            tree("file-system tree", self.tree),
            tree("extent references", self.extents),
        ];
        let Self { transactions, unjudged, edits, blocks, nodes, left: [a, b, c, d, e], .. } = self;
        let left = format!("{a}/{b}, {c}/{d}, {e} nodes");
        let counts = format!("{transactions} transactions (and {unjudged} unjudged), {edits} edits, {blocks} blocks");
        format!("{counts}; most entries/levels: {}; {nodes} nodes; left: {left}", trees.join(", "))
    }
}

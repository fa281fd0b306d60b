//! The state that a script works on, and the calls that need a tree. Set-up lines are in setup.rs.

use std::cmp::Ordering;
use std::panic::{catch_unwind, AssertUnwindSafe};

use apfs::error::Result;
use apfs::map_reader::{self, MapReader};
use apfs::nx::Container;
use apfs::write::space::Space;
use apfs::write::tree::{omap_cmp, omap_drop, omap_put, Flushed, PhysReader, Reader, Tree};

use crate::beyond;
use crate::setup;
use crate::words::{self, hex, hex_or_ghost, Key, Line, Order};

/// Where a tree begins and how its nodes are found.
#[derive(Clone)]
pub struct Place {
    pub root: u64,
    pub order: Order,
    pub map: Option<u64>,
    pub xid: u64,
    pub moved: Vec<(u64, u64)>,
}

#[derive(Clone)]
pub struct Session {
    pub disk: Option<Container>,
    pub slots: u64,
    pub map: Option<u64>,
    pub tree: Option<(Tree, Place)>,
    /// The root last opened or flushed.
    pub walked: Option<Place>,
    /// The tree as it stood before the last call that could change it.
    pub before: Option<(Tree, Place)>,
    /// Go on from what the Rust leaves behind after a refusal, to show its traces.
    pub keep_traces: bool,
    /// Find out after each accepted call whether document 01 parts from the Rust there.
    pub watch: bool,
    pub parted: Option<&'static str>,
    /// Addresses that the last accepted flush wrote.
    pub written: Vec<u64>,
    /// What the Rust said when it last refused.
    pub why: String,
}

pub fn byte_order(a: &[u8], b: &[u8]) -> Ordering {
    a.cmp(b)
}

fn comparison(order: Order) -> fn(&[u8], &[u8]) -> Ordering {
    match order {
        Order::Pair => omap_cmp,
        Order::Byte => byte_order,
    }
}

/// An error and a panic are both a refusal.
pub fn attempt<T>(f: impl FnOnce() -> Result<T>) -> Option<T> {
    attempt_or_why(f).ok()
}

/// The same with what the Rust says of it.
fn attempt_or_why<T>(f: impl FnOnce() -> Result<T>) -> std::result::Result<T, String> {
    match catch_unwind(AssertUnwindSafe(f)) {
        Ok(done) => done.map_err(|e| e.to_string()),
        Err(_) => Err("panic".into()),
    }
}

pub fn map_reader<'a>(disk: &'a Container, place: &'a Place) -> Option<MapReader<'a>> {
    place.map.map(|map| MapReader { container: disk, map, xid: place.xid, moved: &place.moved })
}

fn with_reader<T>(disk: &Container, place: &Place, f: impl FnOnce(&dyn Reader) -> T) -> T {
    match map_reader(disk, place) {
        Some(m) => f(&m),
        None => f(&PhysReader(disk)),
    }
}

const ERROR: &str = "(error)";

impl Session {
    pub fn new() -> Self {
        Self {
            disk: None,
            slots: 64,
            map: None,
            tree: None,
            walked: None,
            before: None,
            keep_traces: false,
            watch: false,
            parted: None,
            written: Vec::new(),
            why: String::new(),
        }
    }

    /// Runs one line and gives its answer, lines of it parted by line feeds; none for a comment.
    pub fn run(&mut self, text: &str) -> Option<String> {
        self.parted = None;
        if text.is_empty() || text.starts_with(';') {
            return None;
        }
        let Some(line) = words::line(text) else { return Some(ERROR.into()) };
        let answer = if setup::is_setup(&line) { setup::run(self, &line) } else { self.call(&line) };
        Some(answer.unwrap_or(ERROR.into()))
    }

    /// None where the call needs an image or a tree that is not there.
    fn call(&mut self, line: &Line) -> Option<String> {
        let answer = match line {
            Line::Open(root, order, xid) => self.open(*root, *order, *xid)?,
            Line::Flush(xid, next) => self.flush(*xid, *next)?,
            Line::Walk => self.walk()?,
            _ => self.on_tree(line)?,
        };
        Some(answer.unwrap_or_else(|| format!("({} refused)", words::name(line))))
    }

    fn open(&mut self, root: u64, order: Order, xid: u64) -> Option<Option<String>> {
        let disk = self.disk.as_ref()?;
        let place = Place { root, order, map: self.map, xid, moved: Vec::new() };
        let tree = attempt_or_why(|| with_reader(disk, &place, |rd| Tree::open(rd, root, comparison(order))));
        let tree = tree.map_err(|why| self.why = why).ok();
        if self.watch {
            self.parted = beyond::of_open(disk, &place, tree.as_ref());
        }
        let Some(tree) = tree else { return Some(None) };
        let (keys, nodes) = tree.counts();
        self.before = self.tree.replace((tree, place.clone()));
        self.walked = Some(place);
        Some(Some(format!("(open 0 {keys} {nodes})")))
    }

    /// Lookups and edits: both may load nodes, so both work on a copy that is kept if accepted.
    fn on_tree(&mut self, line: &Line) -> Option<Option<String>> {
        let disk = self.disk.as_ref()?;
        let (old, place) = self.tree.as_ref()?;
        let mut tree = old.clone();
        let slots = self.slots as usize;
        let answer = attempt_or_why(|| with_reader(disk, place, |rd| call_tree(&mut tree, rd, line, disk.block_size())));
        let answer = answer.and_then(|a| if tree.slots_used() <= slots { Ok(a) } else { Err("no slot".into()) });
        let answer = answer.map_err(|why| self.why = why).ok();
        if self.watch && answer.is_some() {
            let way = with_reader(disk, place, |rd| beyond::way(old, rd, line));
            self.parted = beyond::of_call(disk, (old, &tree), place.order, line, way.as_deref())
                .or_else(|| with_reader(disk, place, |rd| beyond::of_steps(old, &tree, rd, line)));
        }
        if answer.is_some() || self.keep_traces {
            let place = place.clone();
            self.before = self.tree.replace((tree, place));
        }
        Some(answer)
    }

    fn flush(&mut self, xid: u64, next: u64) -> Option<Option<String>> {
        let disk = self.disk.as_mut()?;
        let (tree, place) = self.tree.as_ref()?;
        let (fill, keys) = (tree.fill(), tree.counts().0);
        if self.watch {
            self.parted = beyond::of_flush(disk, tree, next);
        }
        let (done, space, writes, next) = match attempt_or_why(|| flush_copy(disk, tree, xid, next)) {
            Ok(all) => all,
            Err(why) => {
                self.why = why;
                // The published flush uses the tree up, also where it fails.
                self.tree = self.tree.take().filter(|_| !self.keep_traces);
                return Some(None);
            }
        };
        let answer = flush_answer(&done, &space.freed, &writes, keys, fill, next);
        attempt(|| space.finish(disk)).expect("the space manager takes over what the allocator did");
        for (addr, bytes) in &writes {
            disk.store(*addr, bytes);
        }
        self.written = writes.iter().map(|w| w.0).collect();
        self.walked = Some(Place { root: done.root, moved: done.moved, ..place.clone() });
        self.before = self.tree.take();
        Some(Some(answer))
    }

    fn walk(&mut self) -> Option<Option<String>> {
        let disk = self.disk.as_ref()?;
        let place = self.walked.as_ref()?;
        let entries = attempt_or_why(|| map_reader::walk(disk, map_reader(disk, place).as_ref(), place.root));
        let entries = entries.map_err(|why| self.why = why).ok();
        Some(entries.map(|e| listed("walk", "", &e)))
    }

    /// Takes back the last accepted lookup or edit.
    pub fn undo(&mut self) {
        self.tree = self.before.take();
    }
}

type Writes = Vec<(u64, Vec<u8>)>;

/// The Rust's flush uses the tree up; a refused one must leave it, so a copy is flushed.
fn flush_copy(disk: &Container, tree: &Tree, xid: u64, mut next: u64) -> Result<(Flushed, Space, Writes, u64)> {
    let mut space = Space::load(disk, xid)?;
    let mut writes = Vec::new();
    let done = tree.clone().flush(disk, &mut space, &mut writes, xid, &mut next)?;
    Ok((done, space, writes, next))
}

fn flush_answer(done: &Flushed, freed: &[u64], writes: &Writes, keys: u64, fill: u64, next: u64) -> String {
    let numbers = |name: &str, list: &mut dyn Iterator<Item = u64>| {
        let mut s = format!("\n({name}");
        list.for_each(|x| s.push_str(&format!(" {x}")));
        s + ")"
    };
    let mut s = format!("(flush 0 {} {} {} {keys} {fill} {next})", done.root, done.allocated, done.freed);
    s.push_str(&numbers("freed", &mut freed.iter().copied()));
    s.push_str(&numbers("removed", &mut done.removed.iter().copied()));
    s.push_str(&numbers("moved", &mut done.moved.iter().flat_map(|m| [m.0, m.1])));
    for (addr, bytes) in writes {
        s.push_str(&format!("\n(wrote {addr} {})", hex(bytes)));
    }
    s
}

fn listed(name: &str, refusal: &str, entries: &[(Key, Option<Vec<u8>>)]) -> String {
    let mut s = format!("({name}{refusal} {}", entries.len());
    for (k, v) in entries {
        s.push_str(&format!(" {} {}", hex(k), hex_or_ghost(v)));
    }
    s + ")"
}

fn call_tree(t: &mut Tree, rd: &dyn Reader, line: &Line, size: u32) -> Result<String> {
    Ok(match line {
        Line::Get(k) => match t.get(rd, k)? {
            None => "(get 0 none)".into(),
            Some(v) => format!("(get 0 {})", hex_or_ghost(&v)),
        },
        Line::Floor(k) => match t.floor(rd, k)? {
            None => "(floor 0 none)".into(),
            Some((k, v)) => format!("(floor 0 {} {})", hex(&k), hex_or_ghost(&v)),
        },
        Line::Range(lo, hi) => listed("range", " 0", &t.range(rd, lo, hi)?),
        _ => {
            let found = edit_tree(t, rd, line, size)?;
            let (keys, nodes) = t.counts();
            format!("({} 0{found} {keys} {nodes})", words::name(line))
        }
    })
}

fn edit_tree(t: &mut Tree, rd: &dyn Reader, line: &Line, size: u32) -> Result<&'static str> {
    match line {
        Line::Upsert(k, v) => t.upsert(rd, k.clone(), v.clone())?,
        Line::Put(id, xid, addr) => omap_put(t, rd, *id, *xid, *addr, size)?,
        Line::Drop(id) => omap_drop(t, rd, *id)?,
        Line::Remove(k) => return t.remove(rd, k).map(|yes| if yes { " yes" } else { " no" }),
        _ => unreachable!("not an edit"),
    }
    Ok("")
}

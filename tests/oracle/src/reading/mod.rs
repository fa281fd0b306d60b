//! A reading of document 01, executed: it answers scripts with refusal numbers, also where the Rust parts
//! from the paper. The answers that `tests/answers/differences` demands come from it.

mod edits;
mod flush;
mod lookups;
mod node;
mod tree;

use apfs::nx::Container;

use crate::session::{Place, Session};
use crate::setup;
use crate::strict::{self, u64_at, Loaded};
use crate::words::{self, hex, hex_or_ghost, Line};
use lookups::Entry;
use tree::{address, Answer, Tree};

#[derive(Clone)]
pub struct Reading {
    /// Image, bitmap, map and slots; its own tree is never used.
    pub ground: Session,
    tree: Option<Tree>,
    walked: Option<Place>,
    /// Addresses that the last accepted flush wrote.
    pub written: Vec<u64>,
}

fn listed(head: &str, entries: &[Entry]) -> String {
    let mut s = format!("({head} {}", entries.len());
    entries.iter().for_each(|(k, v)| s.push_str(&format!(" {} {}", hex(k), hex_or_ghost(v))));
    s + ")"
}

impl Reading {
    pub fn new() -> Self {
        Self { ground: Session::new(), tree: None, walked: None, written: Vec::new() }
    }

    /// The answer to a line; none for a comment.
    pub fn run(&mut self, text: &str) -> Option<String> {
        if text.is_empty() || text.starts_with(';') {
            return None;
        }
        let answer = words::line(text).and_then(|line| if setup::is_setup(&line) { self.set_up(&line) } else { self.call(&line) });
        Some(answer.unwrap_or("(error)".into()))
    }

    fn set_up(&mut self, line: &Line) -> Option<String> {
        let answer = setup::run(&mut self.ground, line)?;
        match line {
            Line::Image(..) => (self.tree, self.walked) = (None, None),
            Line::Slots(_) => self.tree = None,
            _ => {}
        }
        Some(answer)
    }

    fn call(&mut self, line: &Line) -> Option<String> {
        let answer = match line {
            Line::Open(root, order, xid) => {
                let place = Place { root: *root, order: *order, map: self.ground.map, xid: *xid, moved: Vec::new() };
                self.open(place)?
            }
            Line::Flush(xid, next) => self.flush(*xid, *next)?,
            Line::Walk => {
                let entries = walk(self.ground.disk.as_ref()?, self.walked.as_ref()?);
                return Some(entries.map_or_else(|r| format!("(walk refused {r})"), |e| listed("walk", &e)));
            }
            _ => self.on_tree(line)?,
        };
        Some(answer.unwrap_or_else(|r| format!("({} {r})", words::name(line))))
    }

    fn open(&mut self, place: Place) -> Option<Answer<String>> {
        let opened = tree::open(self.ground.disk.as_ref()?, place.clone());
        Some(opened.map(|t| {
            let answer = format!("(open 0 {} {})", t.key_count, t.node_count);
            self.tree = Some(t);
            self.walked = Some(place);
            answer
        }))
    }

    /// Works on a copy, which a refused call leaves behind.
    fn on_tree(&mut self, line: &Line) -> Option<Answer<String>> {
        let disk = self.ground.disk.as_ref()?;
        let mut tree = self.tree.clone()?;
        let answer = call_tree(&mut tree, disk, self.ground.slots as usize, line);
        if answer.is_ok() {
            self.tree = Some(tree);
        }
        Some(answer)
    }

    fn flush(&mut self, xid: u64, next: u64) -> Option<Answer<String>> {
        let disk = self.ground.disk.as_mut()?;
        let mut tree = self.tree.clone()?;
        let fill = tree.root_fill();
        let done = match tree.flush(disk, xid, next) {
            Ok(done) => done,
            Err(r) => return Some(Err(r)),
        };
        let root = tree.reference(tree.root);
        let list = |name: &str, l: &[u64]| l.iter().fold(format!("\n({name}"), |s, x| s + &format!(" {x}")) + ")";
        let moved: Vec<u64> = done.moved.iter().flat_map(|m| [m.0, m.1]).collect();
        let (wrote, freed) = (done.wrote.len(), done.freed.len());
        let mut s = format!("(flush 0 {root} {wrote} {freed} {} {fill} {})", tree.key_count, done.next);
        s += &(list("freed", &done.freed) + &list("removed", &done.removed) + &list("moved", &moved));
        done.wrote.iter().for_each(|(a, b)| s += &format!("\n(wrote {a} {})", hex(b)));
        self.written = done.wrote.iter().map(|w| w.0).collect();
        self.walked = Some(Place { root, moved: done.moved, ..tree.place });
        self.tree = None;
        Some(Ok(s))
    }
}

fn call_tree(t: &mut Tree, disk: &Container, slots: usize, line: &Line) -> Answer<String> {
    let mut found = "";
    match line {
        Line::Get(k) => {
            return Ok(t.get(disk, slots, k)?.map_or("(get 0 none)".into(), |v| format!("(get 0 {})", hex_or_ghost(&v))));
        }
        Line::Floor(k) => {
            let entry = t.floor(disk, slots, k)?;
            return Ok(entry.map_or("(floor 0 none)".into(), |(k, v)| format!("(floor 0 {} {})", hex(&k), hex_or_ghost(&v))));
        }
        Line::Range(lo, hi) => {
            t.check_key(lo)?;
            t.check_key(hi)?;
            return Ok(listed("range 0", &t.range(disk, slots, lo, Some(hi))?));
        }
        Line::Upsert(k, v) => t.upsert(disk, slots, k, v)?,
        Line::Remove(k) => found = if t.remove(disk, slots, k)? { " yes" } else { " no" },
        Line::Put(id, xid, addr) => t.put(disk, slots, (*id, *xid, *addr))?,
        Line::Drop(id) => t.drop_id(disk, slots, *id)?,
        _ => unreachable!("not a call on a tree"),
    }
    Ok(format!("({} 0{found} {} {})", words::name(line), t.key_count, t.node_count))
}

/// Entries from the root last opened or flushed, each node loaded, slots aside.
fn walk(disk: &Container, place: &Place) -> Answer<Vec<Entry>> {
    let (root, _) = tree::load_root(disk, place)?;
    let mut out = Vec::new();
    walk_node(disk, place, root, &tree::root_wanted(place.root, place.order), &mut out)?;
    Ok(out)
}

fn walk_node(disk: &Container, place: &Place, node: Loaded, want: &strict::Expected, out: &mut Vec<Entry>) -> Answer<()> {
    if node.level == 0 {
        out.extend(node.entries);
        return Ok(());
    }
    for (i, (_, v)) in node.entries.iter().enumerate() {
        let id = u64_at(v.as_ref().expect("an index entry has a child"), 0);
        let wanted = strict::child(&node, want, i, id);
        let block = disk.block(address(disk, place, id)?).ok_or(2)?;
        walk_node(disk, place, strict::load(block, &wanted)?, &wanted, out)?;
    }
    Ok(())
}

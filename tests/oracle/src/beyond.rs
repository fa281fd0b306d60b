//! Where document 01 parts from the Rust: found after each accepted call, so that a comparison can leave
//! such calls out. Each reason is the name of a section of docs/DIFFERENCES.md.

use apfs::nx::Container;
use apfs::write::tree::{Reader, Tree};

use crate::session::{attempt, map_reader, Place};
use crate::strict::{self, u64_at, Expected};
use crate::words::{Line, Order};

pub const LOADING: &str = "loading is checked";
pub const LOOKUP: &str = "the map's lookup is floor's";
pub const STORAGE: &str = "storage class and stored node size";
pub const LENGTHS: &str = "key and value lengths";
pub const LAST_ID: &str = "the last id";
pub const CUT_DIRTY: &str = "both parts of a cut are dirty";
pub const REMOVAL_CUTS: &str = "removal cuts too";
pub const ROOT_FITS: &str = "a root must fit";
pub const LEVEL: &str = "a root at level 33";
pub const WRAP: &str = "counts that wrap";
pub const CHUNKS: &str = "chunks are checked";
pub const MASK: &str = "chunk counts of 20 bits";

const PHYSICAL: u32 = 0x4000_0000;
/// A damaged tree may reach one node by many ways; beyond this the check gives up and says they part.
const MOST_NODES: usize = 20_000;

/// One walk over all nodes of a tree, the Rust's verdict on each beside document 01's.
struct Walk<'a> {
    disk: &'a Container,
    place: &'a Place,
    info: apfs::btree::BTreeInfo,
    seen: usize,
    /// Whether an index key is to be its child's first key (in maps: else lookup is not floor).
    exact_keys: bool,
}

impl Walk<'_> {
    fn address(&self, r: u64) -> Option<u64> {
        map_reader(self.disk, self.place).map_or(Some(r), |m| attempt(|| m.address(r)))
    }

    /// Whether the Rust would take this node on where it stands. Of a map's node it reads only the entries that it compares.
    fn rust_loads(&self, addr: u64, level: Option<u16>) -> bool {
        let entries = attempt(|| {
            let node = self.disk.node(addr)?;
            let fits = level.is_none_or(|l| node.level + 1 == l);
            let list = if self.exact_keys { Vec::new() } else { node.all_entries(&self.info)? };
            Ok((fits, node.is_leaf(), list))
        });
        entries.is_some_and(|(fits, leaf, list)| fits && (leaf || list.iter().all(|e| e.1.as_ref().is_some_and(|v| v.len() >= 8))))
    }

    /// Whether both accept or both refuse the node `r` names and all below it.
    fn agrees(&mut self, r: u64, want: Expected) -> Result<(), &'static str> {
        self.seen += 1;
        let Some(addr) = self.address(r) else { return Ok(()) };
        let rust = self.rust_loads(addr, want.level);
        let ours = self.disk.block(addr).and_then(|b| strict::load(b, &want).ok());
        if rust != ours.is_some() || self.seen > MOST_NODES {
            return Err(LOADING);
        }
        let Some(node) = ours else { return Ok(()) };
        if self.exact_keys && want.lower.as_ref().is_some_and(|l| *l != node.entries[0].0) {
            return Err(LOOKUP);
        }
        if node.level == 0 {
            return Ok(());
        }
        for (i, (_, v)) in node.entries.iter().enumerate() {
            let id = u64_at(v.as_ref().unwrap(), 0);
            self.agrees(id, strict::child(&node, &want, i, id))?;
        }
        Ok(())
    }
}

fn root_wanted(place: &Place) -> Expected {
    Expected { root: true, id: place.root, order: place.order, fixed: None, level: None, lower: None, upper: None }
}

/// Both verdicts on a whole tree; the Rust's on its root is whether open was accepted.
fn tree_agrees(disk: &Container, place: &Place, exact_keys: bool) -> Result<(), &'static str> {
    let address = map_reader(disk, place).map_or(Some(place.root), |m| attempt(|| m.address(place.root)));
    let Some(addr) = address else { return Ok(()) };
    let info = attempt(|| disk.node(addr)?.info());
    let ours = disk.block(addr).and_then(|b| strict::load(b, &root_wanted(place)).ok());
    let (Some(info), Some(root)) = (info, &ours) else {
        return if info.is_none() && ours.is_none() { Ok(()) } else { Err(LOADING) };
    };
    let wanted = if place.map.is_some() { 0 } else { PHYSICAL };
    if root.storage != wanted || root.node_size != disk.block_size() {
        return Err(STORAGE);
    }
    Walk { disk, place, info, seen: 0, exact_keys }.agrees(place.root, root_wanted(place))
}

pub fn of_open(disk: &Container, place: &Place, opened: Option<&Tree>) -> Option<&'static str> {
    if let Some(map) = place.map {
        let map_place = Place { root: map, order: Order::Pair, map: None, xid: place.xid, moved: Vec::new() };
        if let Err(why) = tree_agrees(disk, &map_place, true) {
            return Some(why);
        }
        let info = attempt(|| disk.node(map)?.info());
        if info.is_some_and(|i| (i.key_size, i.val_size) != (16, 16)) {
            return Some(STORAGE);
        }
    }
    match (opened, tree_agrees(disk, place, false)) {
        (_, Err(why)) => Some(why),
        _ => None,
    }
}

/// Whether one of the steps of a put or drop leaves the common ground; a later step may hide it.
pub fn of_steps(before: &Tree, after: &Tree, rd: &dyn Reader, line: &Line) -> Option<&'static str> {
    let (Line::Put(id, ..) | Line::Drop(id)) = line else { return None };
    let key = |id: u64| [id.to_le_bytes(), [0; 8]].concat();
    let mut tree = before.clone();
    let found = attempt(|| tree.range(rd, &key(*id), &key(id.wrapping_add(1))))?;
    for (k, _) in found {
        let (keys, nodes) = tree.counts();
        attempt(|| tree.remove(rd, &k))?;
        if tree.counts().0 > keys || tree.counts().1 > nodes {
            return Some(WRAP);
        }
        if !tree.every_live_node_fits() {
            return Some(ROOT_FITS);
        }
    }
    (after.counts().0 < tree.counts().0 || after.counts().1 < tree.counts().1).then_some(WRAP)
}

/// The slots on the way of an edit, in the tree before it.
pub fn way(before: &Tree, rd: &dyn Reader, line: &Line) -> Option<Vec<usize>> {
    match line {
        Line::Upsert(k, _) | Line::Remove(k) => attempt(|| before.clone().way(rd, k)),
        _ => None,
    }
}

fn lengths_part(tree: &Tree, order: Order, line: &Line) -> bool {
    let pair = order == Order::Pair;
    match line {
        Line::Get(k) | Line::Floor(k) | Line::Remove(k) => pair && k.len() != 16,
        Line::Range(a, b) => pair && (a.len() != 16 || b.len() != 16),
        Line::Upsert(k, v) => {
            let wrong = |(fk, fv): (usize, usize)| k.len() != fk || v.as_ref().is_some_and(|v| v.len() != fv);
            (pair && k.len() != 16) || tree.fixed_lengths().is_some_and(wrong)
        }
        Line::Put(..) | Line::Drop(..) => !pair || tree.fixed_lengths() != Some((16, 16)),
        _ => false,
    }
}

fn counts_wrap(before: &Tree, after: &Tree, line: &Line) -> bool {
    let ((k0, n0), (k1, n1)) = (before.counts(), after.counts());
    match line {
        Line::Upsert(..) => k1 < k0 || n1 < n0,
        Line::Remove(..) => k1 > k0 || n1 > n0,
        // A put or drop is looked at step by step.
        _ => false,
    }
}

/// Whether document 01 says otherwise of an accepted lookup or edit.
pub fn of_call(disk: &Container, trees: (&Tree, &Tree), order: Order, line: &Line, way: Option<&[usize]>) -> Option<&'static str> {
    let (before, after) = trees;
    if lengths_part(before, order, line) {
        return Some(LENGTHS);
    }
    if matches!(line, Line::Get(_) | Line::Floor(_) | Line::Range(..)) {
        return None;
    }
    if matches!(line, Line::Put(u64::MAX, ..) | Line::Drop(u64::MAX)) {
        return Some(LAST_ID);
    }
    if counts_wrap(before, after, line) {
        return Some(WRAP);
    }
    if after.root_level() > 32 {
        return Some(LEVEL);
    }
    if after.changed_but_clean(before, disk) {
        return Some(CUT_DIRTY);
    }
    if after.counts() == before.counts() && matches!(line, Line::Remove(_) | Line::Drop(_)) {
        return None;
    }
    if !after.fits_in_place(after.root_slot()) || after.unfit_root_went_down(before) {
        return Some(ROOT_FITS);
    }
    let way_fits = way.map(|w| w.iter().all(|&n| after.is_dead(n) || after.fits_in_place(n)));
    (!way_fits.unwrap_or_else(|| after.every_live_node_fits())).then_some(REMOVAL_CUTS)
}

/// Whether document 01 says otherwise of a flush, which may also be refused.
pub fn of_flush(disk: &Container, tree: &Tree, next: u64) -> Option<&'static str> {
    let per_chunk = 8 * disk.size as u64;
    for (i, k) in disk.chunks.iter().enumerate() {
        let past = i as u64 * per_chunk + k.blocks as u64 > disk.blocks();
        if past || k.blocks as u64 > per_chunk {
            return Some(CHUNKS);
        }
        if k.free >= 1 << 20 {
            return Some(MASK);
        }
    }
    next.checked_add(tree.dirty_reached().1).is_none().then_some(WRAP)
}


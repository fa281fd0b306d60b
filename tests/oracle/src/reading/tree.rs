//! The open tree, and loading (document 01, the load line).

use std::cmp::Ordering;

use apfs::nx::Container;

use super::node::{Form, Item, Node};
use crate::session::Place;
use crate::strict::{self, compare, u32_at, u64_at, Expected, Loaded};
use crate::words::{Key, Order, Value};

/// A refusal by its number.
pub type Answer<T> = Result<T, u8>;

#[derive(Clone)]
pub struct Tree {
    pub place: Place,
    pub form: Form,
    pub subtype: u32,
    /// Key and value length as the root stores them.
    pub stored_lengths: (u32, u32),
    pub longest: (u32, u32),
    pub key_count: u64,
    pub node_count: u64,
    pub nodes: Vec<Node>,
    pub root: usize,
}

/// A node on the way to a key: its slot, the child taken, and that child's bounds.
pub struct Step {
    pub slot: usize,
    pub child: usize,
    pub bounds: Bounds,
}

pub type Bounds = (Option<Key>, Option<Key>);

pub fn check(holds: bool, refusal: u8) -> Answer<()> {
    holds.then_some(()).ok_or(refusal)
}

/// Checks 2 to 9 on the node at an address.
fn load(disk: &Container, addr: u64, want: &Expected) -> Answer<Loaded> {
    strict::load(disk.block(addr).ok_or(2)?, want)
}

/// 10: the storage class, and the stored node size.
fn check_root(disk: &Container, node: &Loaded, is_virtual: bool) -> Answer<()> {
    let class = if is_virtual { 0 } else { 0x4000_0000 };
    check(node.storage == class && node.node_size == disk.block_size(), 10)
}

pub fn root_wanted(root: u64, order: Order) -> Expected {
    Expected { root: true, id: root, order, fixed: None, level: None, lower: None, upper: None }
}

fn child_id(node: &Loaded, i: usize) -> u64 {
    u64_at(node.entries[i].1.as_ref().expect("an index entry has a child"), 0)
}

/// The last entry of an object map not above a key, its nodes loaded as of a physical pair tree.
fn map_floor(disk: &Container, map: u64, key: &[u8]) -> Answer<Option<(Key, Value)>> {
    let want = root_wanted(map, Order::Pair);
    let root = load(disk, map, &want)?;
    check_root(disk, &root, false)?;
    check(root.fixed == Some((16, 16)), 10)?;
    let mut way = vec![(root, want)];
    // Where the way turns left once, it goes on by the last child.
    let mut turns: Vec<usize> = Vec::new();
    let mut turned = false;
    loop {
        let (node, want) = way.last().expect("the way has a root");
        let not_above = node.entries.iter().filter(|e| compare(Order::Pair)(&e.0, key) != Ordering::Greater).count();
        let at = if turned { node.entries.len() } else { not_above };
        if node.level > 0 {
            let i = at.saturating_sub(1);
            let wanted = strict::child(node, want, i, child_id(node, i));
            turns.push(i);
            way.push((load(disk, wanted.id, &wanted)?, wanted));
            continue;
        }
        if at > 0 {
            return Ok(Some(node.entries[at - 1].clone()));
        }
        // The leaf has none: the nearest node above with a child to the left.
        let Some(above) = turns.iter().rposition(|&i| i > 0) else { return Ok(None) };
        way.truncate(above + 1);
        turns.truncate(above + 1);
        let i = turns[above] - 1;
        turns[above] = i;
        turned = true;
        let (node, want) = &way[above];
        let wanted = strict::child(node, want, i, child_id(node, i));
        way.push((load(disk, wanted.id, &wanted)?, wanted));
    }
}

/// The address of a node: itself, or what the object map says of an id.
pub fn address(disk: &Container, place: &Place, r: u64) -> Answer<u64> {
    let Some(map) = place.map else { return Ok(r) };
    if let Some(m) = place.moved.iter().find(|m| m.0 == r) {
        return Ok(m.1);
    }
    let key = [r.to_le_bytes(), place.xid.to_le_bytes()].concat();
    let (found, value) = map_floor(disk, map, &key)?.ok_or(18)?;
    let value = value.filter(|_| u64_at(&found, 0) == r).ok_or(18)?;
    check(u32_at(&value, 0) & 4 == 0, 19)?;
    Ok(u64_at(&value, 8))
}

fn in_slot(node: Loaded, id: Option<u64>, block: u64) -> Node {
    let level = node.level;
    let item = |v: Value| match v {
        Some(v) if level > 0 => Item::Disk(u64_at(&v, 0)),
        v => Item::Value(v),
    };
    let (keys, items) = node.entries.into_iter().map(|(k, v)| (k, item(v))).unzip();
    Node { level, keys, items, id, block: Some(block), dirty: false, dead: false }
}

/// A root as open and walk load it.
pub fn load_root(disk: &Container, place: &Place) -> Answer<(Loaded, u64)> {
    let addr = address(disk, place, place.root)?;
    let root = load(disk, addr, &root_wanted(place.root, place.order))?;
    check_root(disk, &root, place.map.is_some())?;
    Ok((root, addr))
}

pub fn open(disk: &Container, place: Place) -> Answer<Tree> {
    let (root, addr) = load_root(disk, &place)?;
    let block = disk.block(addr).expect("the root was loaded");
    let info = &block[disk.size - 40..];
    let id = place.map.map(|_| place.root);
    Ok(Tree {
        form: Form { size: disk.size, flags: u32_at(info, 0), fixed: root.fixed },
        subtype: u32_at(block, 28),
        stored_lengths: (u32_at(info, 8), u32_at(info, 12)),
        longest: (u32_at(info, 16), u32_at(info, 20)),
        key_count: u64_at(info, 24),
        node_count: u64_at(info, 32),
        nodes: vec![in_slot(root, id, addr)],
        root: 0,
        place,
    })
}

impl Tree {
    pub fn is_virtual(&self) -> bool {
        self.place.map.is_some()
    }

    pub fn order(&self, a: &[u8], b: &[u8]) -> Ordering {
        compare(self.place.order)(a, b)
    }

    pub fn fits(&self, slot: usize) -> bool {
        let n = &self.nodes[slot];
        self.form.fits(slot == self.root, n.level, &n.lengths())
    }

    /// The tightest of the bounds of all nodes above, also where keys are not nested.
    pub fn child_bounds(&self, slot: usize, i: usize, above: &Bounds) -> Bounds {
        let (keys, less) = (&self.nodes[slot].keys, |a: &Key, b: &Key| self.order(a, b) == Ordering::Less);
        let lower = above.0.clone().filter(|l| less(&keys[i], l)).unwrap_or_else(|| keys[i].clone());
        let upper = above.1.clone().filter(|u| keys.get(i + 1).is_none_or(|k| less(u, k))).or_else(|| keys.get(i + 1).cloned());
        (Some(lower), upper)
    }

    /// The slot of a child, loaded if it is not.
    pub fn child(&mut self, disk: &Container, slots: usize, slot: usize, i: usize, bounds: &Bounds) -> Answer<usize> {
        let r = match self.nodes[slot].items[i] {
            Item::Slot(s) => return Ok(s),
            Item::Disk(r) => r,
            Item::Value(_) => unreachable!("an index node has children"),
        };
        check(self.nodes.len() < slots, 11)?;
        let addr = address(disk, &self.place, r)?;
        let want = Expected {
            root: false,
            id: r,
            order: self.place.order,
            fixed: self.form.fixed,
            level: Some(self.nodes[slot].level),
            lower: bounds.0.clone(),
            upper: bounds.1.clone(),
        };
        let node = load(disk, addr, &want)?;
        self.nodes.push(in_slot(node, self.is_virtual().then_some(r), addr));
        self.nodes[slot].items[i] = Item::Slot(self.nodes.len() - 1);
        Ok(self.nodes.len() - 1)
    }

    /// How many keys of a node are not above a key.
    pub fn not_above(&self, slot: usize, key: &[u8]) -> usize {
        self.nodes[slot].keys.iter().filter(|k| self.order(k, key) != Ordering::Greater).count()
    }

    /// The way to a key, the leaf last.
    pub fn way(&mut self, disk: &Container, slots: usize, key: &[u8]) -> Answer<Vec<Step>> {
        let (mut way, mut slot, mut bounds) = (Vec::new(), self.root, (None, None));
        while self.nodes[slot].level > 0 {
            let child = self.not_above(slot, key).saturating_sub(1);
            bounds = self.child_bounds(slot, child, &bounds);
            way.push(Step { slot, child, bounds: bounds.clone() });
            slot = self.child(disk, slots, slot, child, &bounds)?;
        }
        way.push(Step { slot, child: 0, bounds });
        Ok(way)
    }
}

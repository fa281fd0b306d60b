//! A whole tree in another writer's layout: leaves of uneven fill, index keys that may lie below their
//! child's first key, nodes at shuffled addresses.

use super::entries;
use super::layout::{entry_size, node, space, NodeText};
use super::plan::Plan;
use super::writer::{Stop, Writer};
use crate::random::Random;
use crate::strict::compare;
use crate::words::{hex, Key, Order, Value};
use std::cmp::Ordering;

/// A node that has its place already: what its parent needs to know, and its own text.
struct Placed {
    id: u64,
    first: Key,
    greatest: Key,
}

pub struct LaidOut {
    /// Address, or id in a virtual tree.
    pub root: u64,
    /// Id and address of every node, for the object map.
    pub nodes: Vec<(u64, u64)>,
}

struct Tree<'a> {
    w: &'a mut Writer,
    addresses: Vec<u64>,
    nodes: Vec<(u64, u64)>,
    root_id: u64,
    exact_keys: bool,
    counts: (u64, u64, u32, u32),
}

/// How many of the entries go into one node: as many as fit at most, at least `least`.
fn share(r: &mut Random, p: &Plan, list: &[(Key, Value)], least: usize) -> usize {
    let room = space(p, false);
    let mut sum = 0;
    let most = list.iter().take_while(|e| { sum += entry_size(p, e); sum <= room }).count().max(1);
    let drawn = if r.chance(40) { most } else { 1 + r.length(most - 1) };
    drawn.max(least.min(most))
}

fn fits_root(p: &Plan, list: &[(Key, Value)]) -> bool {
    list.iter().map(|e| entry_size(p, e)).sum::<usize>() <= space(p, true)
}

impl Tree<'_> {
    fn write(&mut self, level: u16, root: bool, list: &[(Key, Value)], greatest: Key) -> Result<Placed, Stop> {
        let addr = self.addresses.pop().ok_or(Stop)?;
        let is_virtual = self.w.plan.is_virtual;
        let id = match (is_virtual, root) {
            (false, _) => addr,
            (true, true) => self.root_id,
            (true, false) => self.root_id + 1 + self.nodes.len() as u64,
        };
        self.nodes.push((id, addr));
        self.counts.1 = self.nodes.len() as u64;
        let text = NodeText { id, xid: 3, level, root, is_virtual, entries: list, counts: self.counts };
        let block = node(&mut self.w.random, &self.w.plan, &text);
        self.w.need(format!("(block {addr} {})", hex(&block)))?;
        self.w.need(format!("(seal {addr})"))?;
        self.w.need(format!("(mark {addr} 1)"))?;
        Ok(Placed { id, first: list.first().map_or(Vec::new(), |e| e.0.clone()), greatest })
    }

    /// An index key for a child: its first key or, from another writer, one above the child before it.
    fn index_key(&mut self, before: Option<&Key>, first: &Key) -> Key {
        let cmp = compare(self.w.plan.order);
        if self.exact_keys || self.w.random.chance(if self.w.plan.low_keys { 20 } else { 60 }) {
            return first.clone();
        }
        let k = match self.w.plan.low_keys {
            true => entries::just_above(&self.w.plan, before).unwrap_or_else(|| first.clone()),
            false => entries::key(&mut self.w.random, &self.w.plan),
        };
        let above = before.is_none_or(|b| cmp(b, &k) == Ordering::Less);
        if above && cmp(&k, first) != Ordering::Greater { k } else { first.clone() }
    }

    /// Writes one level; gives the entries of the level above.
    fn level(&mut self, level: u16, list: &[(Key, Value)], greatest: &[Key]) -> Result<(Vec<(Key, Value)>, Vec<Key>), Stop> {
        let (mut up, mut tops): (Vec<(Key, Value)>, Vec<Key>) = (Vec::new(), Vec::new());
        let mut at = 0;
        while at < list.len() {
            let single = level > 0 && self.w.plan.chains && self.w.random.chance(60);
            let n = if single { 1 } else { share(&mut self.w.random, &self.w.plan, &list[at..], if level > 0 { 2 } else { 1 }) };
            let placed = self.write(level, false, &list[at..at + n], greatest[at + n - 1].clone())?;
            let key = self.index_key(tops.last(), &placed.first);
            up.push((key, Some(placed.id.to_le_bytes().to_vec())));
            tops.push(placed.greatest);
            at += n;
        }
        Ok((up, tops))
    }
}

fn longest(list: &[(Key, Value)]) -> (u32, u32) {
    let key = list.iter().map(|e| e.0.len()).max().unwrap_or(0);
    let value = list.iter().map(|e| e.1.as_ref().map_or(0, Vec::len)).max().unwrap_or(0);
    (key as u32, value as u32)
}

/// Addresses in a shuffled order; block 0 is left to the script.
fn addresses(w: &mut Writer) -> Vec<u64> {
    let mut list: Vec<u64> = (1..w.plan.blocks.min(300)).collect();
    if w.plan.blocks > 300 {
        list.extend(w.plan.blocks - 20..w.plan.blocks);
    }
    w.random.shuffle(&mut list);
    list
}

/// Lays a tree of drawn entries out on the image.
pub fn plant(w: &mut Writer, root_id: u64, exact_keys: bool) -> Result<LaidOut, Stop> {
    let list = entries::rising(&mut w.random, &w.plan);
    let addresses = addresses(w);
    of_entries(w, root_id, exact_keys, list, addresses)
}

/// Lays an object map out at the addresses given: a physical pair tree of 16 and 16 bytes in the tree's stead.
pub fn plant_map(w: &mut Writer, list: Vec<(Key, Value)>, addresses: Vec<u64>) -> Result<LaidOut, Stop> {
    let tree = w.plan.clone();
    w.plan.order = Order::Pair;
    w.plan.fixed = Some((16, 16));
    w.plan.is_virtual = false;
    // The Rust finds a mapping only where every index key is its child's first key.
    let exact_keys = !w.plan.whole_ground;
    let map = of_entries(w, 0, exact_keys, list, addresses);
    w.plan = tree;
    map
}

fn of_entries(w: &mut Writer, root_id: u64, exact_keys: bool, list: Vec<(Key, Value)>, addresses: Vec<u64>) -> Result<LaidOut, Stop> {
    let (key, value) = longest(&list);
    let counts = (list.len() as u64, 1, key, value);
    let mut t = Tree { w, addresses, nodes: Vec::new(), root_id, exact_keys, counts };
    let mut greatest: Vec<Key> = list.iter().map(|e| e.0.clone()).collect();
    let (mut level, mut list) = (0, list);
    let grow = t.w.random.chance(70) && list.len() > 1;
    let levels = if t.w.plan.chains { 1 + t.w.random.length(3) as u16 } else { 0 };
    while !fits_root(&t.w.plan, &list) || (level == 0 && grow) || (level < levels && !list.is_empty()) {
        (list, greatest) = t.level(level, &list, &greatest)?;
        level += 1;
        // The whole tree need not be fuller than the image allows.
        if level > 6 {
            return Err(Stop);
        }
    }
    // The root stores the node count, so it counts itself before it is written.
    t.counts.1 = t.nodes.len() as u64 + 1;
    let root = t.write(level, true, &list, greatest.last().cloned().unwrap_or_default())?;
    Ok(LaidOut { root: root.id, nodes: t.nodes })
}
